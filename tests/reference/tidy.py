"""02, request 1, "Tidied sheets for the tariff book": a sheet without its dead lines, the call that writes it, and the program `tidy`."""
from .outcome import Refusal, Refused, refuse
from .sheet import MOST_BYTES, REFERENCES, Loading, Operation, load, sheet_text
from .text import printed


class Tidying:
    """The request's rules as methods, so that a test can put one wrong rule in the place of a right one."""

    def references(self, sheet, line):
        """The lines that a codelist line names; a factor names none."""
        if line <= sheet.factors:
            return ()
        name, numbers = operation_at(sheet, line)
        return numbers[:REFERENCES[name]]

    def used(self, sheet):
        """The lines that the last line uses, "directly or through others", and the last line itself."""
        found, waiting = set(), [last_line(sheet)]
        while waiting:
            line = waiting.pop()
            if line not in found:
                found.add(line)
                waiting += self.references(sheet, line)
        return found

    def kept(self, sheet):
        """The lines of the tidied sheet by their old numbers: "operation lines that the last line doesn't use [...] are dropped", and "all
        factors kept"."""
        used = self.used(sheet)
        return [line for line in range(1, last_line(sheet) + 1) if line <= sheet.factors or line in used]

    def new_number(self, line, kept):
        """"the rest renumbered in order": the place of a line among those that are kept."""
        return sum(other <= line for other in kept)

    def renumbered(self, operation, kept):
        """The operation with its references renumbered; a constant or an exponent is no reference."""
        name, numbers = operation
        count = REFERENCES[name]
        return Operation(name, tuple(self.new_number(i, kept) for i in numbers[:count]) + numbers[count:])

    def tidied(self, sheet):
        kept = self.kept(sheet)
        return sheet._replace(operations=tuple(self.renumbered(operation_at(sheet, line), kept) for line in kept if line > sheet.factors))

    def tidied_text(self, text, loading=Loading):
        """The bytes of the tidied sheet. 02, request 9: "A tidied sheet names the year only for 2014", and so does every sheet that is written."""
        return sheet_text(self.tidied(load(text, rules=loading)))


def last_line(sheet):
    return sheet.factors + len(sheet.operations)


def operation_at(sheet, line):
    return sheet.operations[line - sheet.factors - 1]


def tidy(text, buffer, rules=Tidying, loading=Loading):
    """The call: what it gives, and the bytes of the lent buffer afterwards.

    It gives the length of the tidied text, which stands at the buffer's start, or a refusal. "A buffer that is too short gets refusal 13,
    place 0, after all refusals of loading": too short for the tidied text, not for the sheet that came. "Buffer bytes past the text keep
    their values, a refused call touches none".
    """
    try:
        tidied = rules().tidied_text(text, loading)
        if len(buffer) < len(tidied):
            refuse(13, 0)
    except Refused as refused:
        return refused.args[0], buffer
    return len(tidied), tidied + buffer[len(tidied):]


def tidy_printed(text, rules=Tidying, loading=Loading):
    """What the program prints for a sheet on its standard input: it lends as many bytes as a sheet may have, so 13 does not come up."""
    answer, buffer = tidy(text, bytes(MOST_BYTES), rules, loading)
    return printed(answer) if isinstance(answer, Refusal) else buffer[:answer]
