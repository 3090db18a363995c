"""What a comparison counts: inputs that passed and failed, rules that were met, wrong rules that were told from the right ones."""
import signal
import subprocess
from collections import Counter
from operator import itemgetter

DIFFERENCES_SHOWN = 5
BYTES_SHOWN = 9000  # of one input, from its start
TIMES_CAUGHT = 3  # a wrong rule is no longer tried, by one process, once it was told from the right one this often


class Tally:
    """One comparison's count. `rules` names all that has to be met, `errors` the wrong rules that have to be told from the right ones."""
    rules = []
    errors = []
    at_once = True  # whether a difference is shown when it is found, or kept until the tallies of several processes are added up

    def __init__(self):
        self.met = Counter()
        self.caught = Counter()
        self.passed = self.failed = 0
        self.kept = []  # differences, each behind the number of inputs that came before it

    def note(self, rule):
        self.met[rule] += 1

    def judge(self, name, text, complaint):
        """One input more, which passed where there is no complaint of it; the first complaints are shown."""
        if not complaint:
            self.passed += 1
            return
        if self.failed < DIFFERENCES_SHOWN:
            more = f"... {len(text)} bytes" if len(text) > BYTES_SHOWN else ""
            shown = f"{name}: input\n{text[:BYTES_SHOWN].decode('latin-1')}{more}\n{complaint}"
            if self.at_once:
                print(shown)
            else:
                self.kept.append((self.passed + self.failed, shown))
        self.failed += 1

    def add(self, other):
        """The tally of another process, over other inputs."""
        self.met.update(other.met)
        self.caught.update(other.caught)
        self.passed += other.passed
        self.failed += other.failed
        self.kept += other.kept

    def show_kept(self):
        """The first of the differences that were kept. The processes took the inputs in turn, so that this is nearly the order of the inputs."""
        for _, shown in sorted(self.kept, key=itemgetter(0))[:DIFFERENCES_SHOWN]:
            print(shown)

    def catch_errors(self, ours, of_wrong, errors=None):
        """Which wrong rules, of all or of those that can differ, come to another print than the right ones."""
        for wrong in self.errors if errors is None else errors:
            if self.caught[wrong] < TIMES_CAUGHT and of_wrong(wrong) != ours:
                self.caught[wrong] += 1

    def show(self, rules):
        for rule in rules:
            print(f"{self.met[rule]:9}  {rule}")

    def least(self, rule):
        """How often a rule has to be met."""
        return 1

    def said_of(self, wrong):
        """What a wrong rule says."""
        return wrong.__doc__

    def missed(self):
        """What was met too seldom, and what was met under a name that is not in the list."""
        missed = [f"met {self.met[rule]} times, and not {self.least(rule)}: {rule}" for rule in self.rules if self.met[rule] < self.least(rule)]
        missed += [f"never told from the right rules: {self.said_of(wrong)}" for wrong in self.errors if not self.caught[wrong]]
        return missed + [f"not in the list of rules: {rule}" for rule in sorted(set(self.met) - set(self.rules))]


def out_of_time(*_):
    raise TimeoutError


signal.signal(signal.SIGALRM, out_of_time)


def print_of(binary, text, *arguments):
    """What a program prints, or None where it comes to no end."""
    signal.alarm(60)  # and no `timeout` below, with which Python naps until the program has ended: that doubles the time of a run
    try:
        return subprocess.run([binary, *arguments], input=text, stdout=subprocess.PIPE, close_fds=False).stdout
    except TimeoutError:
        return None
    finally:
        signal.alarm(0)


def unlike(got, expected):
    """How a print differs from the expected one; nothing where it does not."""
    if got is None:
        return "--- no answer within a minute\n"
    return "" if got == expected else f"--- expected\n{expected.decode('latin-1')}--- got\n{got.decode('latin-1')}"


def difference(binary, text, expected, *arguments):
    """How the print of a program differs from the expected one."""
    return unlike(print_of(binary, text, *arguments), expected)
