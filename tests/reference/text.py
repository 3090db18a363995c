"""01, the program `rate`: what it prints for the bytes of its standard input."""
import re
from typing import NamedTuple, Union

from .outcome import Refusal, Refused, refuse, unnoted
from .rating import Result, Rules, rate
from .sheet import NUMERAL, Loading, Sheet, load, text_lines

MOST_INPUT = 8192
BOX_LINE = re.compile(NUMERAL + rb"\t" + NUMERAL)


class Outcome(NamedTuple):
    """What a run of the program came to: the sheet and the ends as far as they were accepted, and the result or refusal."""
    sheet: Union[Sheet, None]
    ends: Union[list, None]
    answer: Union[Result, Refusal]


def parted(text, word=b"box"):
    """The sheet's bytes, and the bytes behind the parting line or None: "the first line `box` that has its byte 10" parts them."""
    line = word + b"\n"
    if text.startswith(line):
        return b"", text[len(line):]
    before, parting, after = text.partition(b"\n" + line)
    return (before + b"\n", after) if parting else (text, None)


def box_ends(text, note=unnoted):
    """The numbers of the box lines, or refusal 8 for a line of another form."""
    if text is None:
        note("8: no box")
        refuse(8, 0)
    lines, ended = text_lines(text)
    forms = [BOX_LINE.fullmatch(line) for line in lines]
    if not ended or None in forms:
        note("8: form")
        refuse(8, 0)
    return [int(end) for form in forms for end in form.groups()]


def run(text, rules=Rules, note=unnoted, loading=Loading):
    sheet = ends = None
    try:
        if len(text) > MOST_INPUT:
            note("1: input over 8,192 bytes")
            refuse(1, 0)
        sheet_text, box_text = parted(text)
        sheet = load(sheet_text, note, loading)
        ends = box_ends(box_text, note)
        answer = rate(sheet, ends, rules, note)
    except Refused as refused:
        answer = refused.args[0]
    return Outcome(sheet, ends, answer)


def printed(answer):
    """The text of a result or refusal."""
    if isinstance(answer, Refusal):
        rows = [("refused", *answer)]
    else:
        rows = [("value", *answer.value)]
        rows += [("slope", factor, *slope) for factor, slope in enumerate(answer.slopes, 1)]
        rows += [(word, *(a + 1 for a in sorted(members))) for word, members in (("depends", answer.depends), ("bent", answer.bent))]
        rows += [("bend", *answer.bend), ("full", *answer.full)]
    return "".join("\t".join(map(str, row)) + "\n" for row in rows).encode()
