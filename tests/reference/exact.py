"""01, "The exact side": values and derivatives as fractions, and what an accepted result promises of them."""
from fractions import Fraction
from math import sqrt
from typing import NamedTuple

from .outcome import unnoted
from .ranges import UNIT

# A chain of products doubles the digits at each line. Past this number of bits a point is given up.
MOST_BITS = 2000


class TooLarge(Exception):
    """The fractions of this sheet at this point grow too long to be worth the time."""


class Jet(NamedTuple):
    """Value, first derivative per factor, second derivative per pair of factors."""
    value: Fraction
    first: list
    second: list


def exact_line(operation, jets, n):
    """A line's jet by 01's table; None where a divisor is 0, in this line or in one that it uses."""
    name, numbers = operation
    x = jets[numbers[0] - 1]
    y = jets[numbers[1] - 1] if name in ("add", "mul") else x
    if x is None or y is None:
        return None
    u, u_, u__ = x
    if name == "add":
        value = u + y.value
        first = [g + h for g, h in zip(u_, y.first)]
        second = lambda a, b: u__[a][b] + y.second[a][b]
    elif name == "addc":
        return Jet(u + Fraction(numbers[1], UNIT), u_, u__)
    elif name == "mulc":
        c = Fraction(numbers[1], UNIT)
        value = u * c
        first = [g * c for g in u_]
        second = lambda a, b: u__[a][b] * c
    elif name == "mul":
        w, w_, w__ = y
        value = u * w
        first = [u * w_[a] + w * u_[a] for a in range(n)]
        second = lambda a, b: u * w__[a][b] + w * u__[a][b] + u_[a] * w_[b] + u_[b] * w_[a]
    elif name == "pow":
        m = numbers[1]
        value = u ** m
        slope = m * u ** (m - 1)
        curve = m * (m - 1) * u ** (m - 2)
        first = [slope * g for g in u_]
        second = lambda a, b: slope * u__[a][b] + curve * u_[a] * u_[b]
    else:
        if u == 0:
            return None
        value = 1 / u
        square, cube = u ** 2, u ** 3
        first = [-g / square for g in u_]
        second = lambda a, b: 2 * u_[a] * u_[b] / cube - u__[a][b] / square
    rows = [[second(a, b) if a <= b else 0 for b in range(n)] for a in range(n)]
    return Jet(value, first, [[rows[min(a, b)][max(a, b)] for b in range(n)] for a in range(n)])


def bits(x):
    return max(x.numerator.bit_length(), x.denominator.bit_length())


def exact_lines(sheet, point, derivatives=True):
    """The jets of all lines at a point, factors first; without derivatives where only values are asked for."""
    n = sheet.factors if derivatives else 0
    flat = [[Fraction(0)] * n for _ in range(n)]
    jets = [Jet(x, [Fraction(int(a == i)) for a in range(n)], flat) for i, x in enumerate(point)]
    for operation in sheet.operations:
        line = exact_line(operation, jets, n)
        if line is not None and max(map(bits, [line.value, *line.first, *(line.second[a][a] for a in range(n))])) > MOST_BITS:
            raise TooLarge
        jets.append(line)
    return jets


def exact_difference(sheet, first, second):
    """What the exact premium at the second point is above that at the first; None where a divisor is 0 at one of them."""
    lines = [exact_lines(sheet, point, derivatives=False) for point in (first, second)]
    return None if any(None in jets for jets in lines) else lines[1][-1].value - lines[0][-1].value


def inside(r, exact):
    """An exact number between the ends of a range, "an end of u units is compared as u/10,000"."""
    return r.low <= UNIT * exact <= r.high


def inside_times(r, factor, exact):
    """An exact number between the ends of a range, each times a factor."""
    return r.low * factor <= UNIT * exact <= r.high * factor


def quadratic(second, v):
    """v'Hv, over all ordered pairs of factors."""
    n = range(len(v))
    return sum(v[a] * v[b] * second[a][b] for a in n for b in n if v[a] and v[b])


def some_point(rng, ranges):
    """A point inside the ranges: ends, 0 and fractions between."""
    def coordinate(r):
        choice = rng.randrange(5)
        if choice == 0:
            units = r.low
        elif choice == 1:
            units = r.high
        elif choice == 2 and r.low <= 0 <= r.high:
            units = 0
        else:
            parts = rng.choice((2, 3, 7))
            units = Fraction(r.low * (parts - 1) + r.high, parts) if rng.random() < 0.5 else r.low + (r.high - r.low) // parts
        return Fraction(units) / UNIT
    return [coordinate(r) for r in ranges]


def elsewhere(rng, point, kept):
    """Another point, inside or not, with the same coordinates in a set."""
    return [x if a in kept else Fraction(rng.randint(-30, 30), rng.randint(1, 7)) for a, x in enumerate(point)]


def some_vectors(rng, n):
    """Whole numbers per factor: one direction alone, all alike, and at random."""
    alone = [0] * n
    alone[rng.randrange(n)] = 1
    return [alone, [1] * n, [rng.choice((-1, 1)) for _ in range(n)], [rng.randint(-9, 9) for _ in range(n)]]


def eigenvectors(second, bent):
    """Of a bent set of two factors, the directions in which v'Hv comes nearest to the ends of the bend, in whole numbers. Those next to the axes are
    left out, where one factor alone comes as near."""
    if len(bent) != 2:
        return []
    a, b = sorted(bent)
    apart, beside = second[b][b] - second[a][a], 2 * second[a][b]
    if abs(apart) >= 1000 * abs(beside):
        return []
    half = float(apart / beside)
    found = []
    for root in (-sqrt(half ** 2 + 1), sqrt(half ** 2 + 1)):
        slope = Fraction(half + root).limit_denominator(10_000)
        v = [0] * len(second)
        v[a], v[b] = slope.denominator, slope.numerator
        found.append(v)
    return found


def broken_promises(rng, sheet, ranges, result, note=unnoted):
    """What an accepted result says of one random point inside the ranges, as a list of what does not hold."""
    return broken_at(rng, sheet, some_point(rng, ranges), result, note)


def broken_at(rng, sheet, point, result, note=unnoted):
    """What it says of one point, in random directions among others."""
    n = sheet.factors
    jets = exact_lines(sheet, point)
    if None in jets:
        return ["a divisor is 0"]
    premium = jets[-1]
    broken = []

    def hold(what, holds):
        note("exact: " + what)
        if not holds:
            broken.append(f"{what}, at {[str(x) for x in point]}")

    hold("value inside its range", inside(result.value, premium.value))
    hold("first derivatives inside the slopes", all(inside(g, x) for g, x in zip(result.slopes, premium.first)))
    for a in range(n):
        if a not in result.depends:
            hold("first derivative 0 outside the depends-on set", premium.first[a] == 0)
        if a not in result.bent:
            hold("second derivatives 0 outside the bent set", not any(premium.second[a]))
    extreme = eigenvectors(premium.second, result.bent)
    if extreme:
        note("exact: v'Hv in the direction of an eigenvector")
    for v in some_vectors(rng, n) + extreme:
        form = quadratic(premium.second, v)
        hold("v'Hv inside the bend", inside_times(result.bend, sum(v[a] ** 2 for a in result.bent), form))
        hold("v'Hv inside the full bend", inside_times(result.full, sum(x ** 2 for x in v), form))
    if len(result.depends) < n:
        other = exact_lines(sheet, elsewhere(rng, point, result.depends))[-1]
        hold("same premium elsewhere", other is not None and other.value == premium.value)
    if len(result.bent) < n:
        other = exact_lines(sheet, elsewhere(rng, point, result.bent))[-1]
        hold("same first derivatives elsewhere", other is not None and other.first == premium.first)
    return broken
