"""The figures and edges of the papers as inputs of `rate` with the whole text it must print; inputs whose sheets are tidied, with the tidied sheet;
inputs of `fleet`, of `cut`, of `sisters` and of `formula`, with their whole print.

In all of them, `;` stands for byte 10, a blank for the tab and byte 11 for a blank. Where 01 gives a part of a result only, the other lines follow
from its table; those of 2014 follow from Table 2 of source document 001.
"""


def text(short):
    return short.replace(" ", "\t").replace(";", "\n").replace("\v", " ").encode()


def lines(first, count, operation):
    """A sheet of `count` text lines."""
    return first + operation * (count - 1)


STARRED = [
    ("second power", "factors 1;pow 1 2;box;10000 30000;",
     "value 10000 90000;slope 1 20000 60000;depends 1;bent 1;bend 20000 20000;full 20000 20000;"),
    ("inverse of 2..4", "factors 1;inv 1;box;20000 40000;",
     "value 2500 5000;slope 1 -2500 -625;depends 1;bent 1;bend 312 2500;full 312 2500;"),
    ("inverse of 3", "factors 1;inv 1;box;30000 30000;",
     "value 3333 3334;slope 1 -1112 -1110;depends 1;bent 1;bend 739 742;full 739 742;"),
    ("third power across 0", "factors 1;pow 1 3;box;-10000 20000;",
     "value -10000 80000;slope 1 0 120000;depends 1;bent 1;bend -60000 120000;full -60000 120000;"),
    ("half a unit below 0", "factors 1;mulc 1 -1;box;5000 5000;",
     "value -1 0;slope 1 -1 -1;depends 1;bent;bend 0 0;full 0 0;"),
    ("full bend beside the bend", "factors 2;pow 1 2;box;10000 30000;0 10000;",
     "value 10000 90000;slope 1 20000 60000;slope 2 0 0;depends 1;bent 1;bend 20000 20000;full 0 20000;"),
    ("join by hull", "factors 2;pow 1 2;pow 2 2;add 3 4;box;0 10000;0 10000;",
     "value 0 20000;slope 1 0 20000;slope 2 0 20000;depends 1 2;bent 1 2;bend 20000 20000;full 20000 20000;"),
    ("join by sum", "factors 2;mul 1 2;pow 1 2;add 3 4;box;10000 20000;30000 40000;",
     "value 40000 120000;slope 1 50000 80000;slope 2 10000 20000;depends 1 2;bent 1 2;bend -10000 30000;full -10000 30000;"),
    ("product of a square", "factors 2;pow 1 2;mul 3 2;box;10000 10000;10000 10000;",
     "value 10000 10000;slope 1 20000 20000;slope 2 10000 10000;depends 1 2;bent 1 2;bend -12361 32361;full -12361 32361;"),
    ("inverse of a range with 0", "factors 1;inv 1;box;0 10000;", "refused 11 2;"),
    ("inverse of one unit", "factors 1;inv 1;box;1 1;", "refused 12 2;"),
]

PRINTED = [
    ("the whole print", "factors 2;mul 1 2;box;10000 20000;30000 40000;",
     "value 30000 80000;slope 1 30000 40000;slope 2 10000 20000;depends 1 2;bent 1 2;bend -10000 10000;full -10000 10000;"),
]

AT_LIMIT = "value {0} {1};slope 1 10000 10000;depends 1;bent;bend 0 0;full 0 0;"
ONE_TO_THE = "value 10000 10000;slope 1 {0} {0};depends 1;bent 1;bend {1} {1};full {1} {1};"
FACTOR_KEPT = "value 7 9;slope 1 10000 10000;depends 1;bent;bend 0 0;full 0 0;"

EDGES = [
    ("empty input", "", "refused 2 1;"),
    ("no operation", "factors 2;", "refused 4 1;"),
    # no sheet of 4,096 bytes is accepted: the edge shows as refusal 1 in the place of another one
    ("sheet of 4,096 bytes", "x" * 4096, "refused 2 1;"),
    ("sheet of 4,097 bytes", "x" * 4097, "refused 1 0;"),
    ("sheet of 4,096 bytes before a box", "x" * 4095 + ";box;", "refused 2 1;"),
    ("sheet of 4,097 bytes before a box", "x" * 4096 + ";box;", "refused 1 0;"),
    ("input of 8,192 bytes", "factors 1;addc 1 0;box;7 9;" + "x" * (8192 - 27), "refused 8 0;"),
    ("input of 8,193 bytes", "factors 1;addc 1 0;box;7 9;" + "x" * (8193 - 27), "refused 1 0;"),
    ("line 64", lines("factors 1;", 64, "addc 1 0;") + "box;7 9;", FACTOR_KEPT),
    ("line 65", lines("factors 1;", 65, "addc 1 0;") + "box;7 9;", "refused 4 65;"),
    ("line 64 with 8 factors", lines("factors 8;", 57, "addc 1 0;") + "box;", "refused 8 0;"),
    ("line 65 with 8 factors", lines("factors 8;", 58, "addc 1 0;") + "box;", "refused 4 58;"),
    ("exponent 1", "factors 1;pow 1 1;box;10000 10000;", "refused 6 2;"),
    ("exponent 2", "factors 1;pow 1 2;box;10000 10000;", ONE_TO_THE.format(20000, 20000)),
    ("exponent 8", "factors 1;pow 1 8;box;10000 10000;", ONE_TO_THE.format(80000, 560000)),
    ("exponent 9", "factors 1;pow 1 9;box;10000 10000;", "refused 6 2;"),
    ("ends at the limit", "factors 1;addc 1 0;box;-2000000000 2000000000;", AT_LIMIT.format(-2000000000, 2000000000)),
    ("high end past the limit", "factors 1;addc 1 0;box;0 2000000001;", "refused 9 1;"),
    ("low end past the limit", "factors 1;addc 1 0;box;-2000000001 0;", "refused 9 1;"),
    ("result at the limit", "factors 1;addc 1 1;box;0 1999999999;", AT_LIMIT.format(1, 2000000000)),
    ("result past the limit", "factors 1;addc 1 1;box;0 2000000000;", "refused 12 2;"),
    ("constant at the limit", "factors 1;addc 1 2000000000;box;0 0;", AT_LIMIT.format(2000000000, 2000000000)),
    ("constant past the limit", "factors 1;addc 1 2000000001;box;0 0;", "refused 7 2;"),
    ("no factor", "factors 0;inv 1;", "refused 3 1;"),
    ("nine factors", "factors 9;inv 1;", "refused 3 1;"),
    ("reference to its own line", "factors 1;inv 2;", "refused 5 2;"),
    ("low end above high end", "factors 2;add 1 2;box;0 0;1 0;", "refused 9 2;"),
    ("no box", "factors 1;inv 1;", "refused 8 0;"),
    ("a box line too few", "factors 2;add 1 2;box;0 0;", "refused 8 0;"),
]

# Sentences of 01 that can be read in two ways, and the reading taken.
READINGS = [
    ("a minus before a count has the form of a numeral", "factors -1;", "refused 3 1;"),
    ("a minus before a reference too", "factors 1;inv -1;", "refused 5 2;"),
    ("a minus before an exponent too", "factors 1;pow 1 -3;", "refused 6 2;"),
    ("form before count", "factors 9", "refused 2 1;"),
    ("count before the missing operation", "factors 9;", "refused 3 1;"),
    ("line 65 without byte 10", lines("factors 1;", 64, "addc 1 0;") + "addc 1 0", "refused 2 65;"),
    ("line 65 of another form", lines("factors 1;", 64, "addc 1 0;") + "addc 1;", "refused 2 65;"),
    ("line 65 with a reference that is not earlier", lines("factors 1;", 64, "addc 1 0;") + "addc 99 0;", "refused 4 65;"),
    ("references before the constant", "factors 1;addc 2 9999999999;", "refused 5 2;"),
    ("a second first line", "factors 1;factors 1;", "refused 2 2;"),
    ("a blank line", "factors 1;;inv 1;", "refused 2 2;"),
    ("byte 13", "factors 1\r;inv 1;", "refused 2 1;"),
    ("an empty field", "factors 1;addc 1 ;", "refused 2 2;"),
    ("a field too many", "factors 1;inv 1 1;", "refused 2 2;"),
    ("leading zero", "factors 01;inv 1;", "refused 2 1;"),
    ("minus zero", "factors 1;addc 1 -0;", "refused 2 2;"),
    ("a minus alone", "factors 1;addc 1 -;", "refused 2 2;"),
    ("a plus", "factors 1;addc 1 +1;", "refused 2 2;"),
    ("ten digits", "factors 1;addc 1 -9999999999;", "refused 7 2;"),
    ("eleven digits", "factors 1;addc 1 10000000000;", "refused 2 2;"),
    ("box without byte 10 is sheet", "factors 1;inv 1;box", "refused 2 3;"),
    ("a sheet that is empty", "box;1 1;", "refused 2 1;"),
    ("loading before box lines", "factors 1;inv 7;box;x", "refused 5 2;"),
    ("box line without byte 10", "factors 1;inv 1;box;10000 10000", "refused 8 0;"),
    ("a blank box line", "factors 1;inv 1;box;10000 10000;;", "refused 8 0;"),
    ("a second box", "factors 1;inv 1;box;10000 10000;box;", "refused 8 0;"),
    ("a box line too many", "factors 1;inv 1;box;10000 10000;10000 10000;", "refused 8 0;"),
    ("box number of ten digits", "factors 1;inv 1;box;0 9999999999;", "refused 9 1;"),
    ("box number of eleven digits", "factors 1;inv 1;box;0 10000000000;", "refused 8 0;"),
    ("box number minus zero", "factors 1;inv 1;box;-0 0;", "refused 8 0;"),
    ("box number with leading zero", "factors 1;inv 1;box;01 2;", "refused 8 0;"),
    ("lowest factor first", "factors 2;add 1 2;box;0 2000000001;1 0;", "refused 9 1;"),
    ("ranges inside a formula count", "factors 1;mulc 1 5000000;inv 2;box;2000000 2000000;", "refused 12 3;"),
    ("the sums of Cross do not count", "factors 2;mulc 1 50000000;mulc 2 100;mul 3 4;box;0 0;0 0;",
     "value 0 0;slope 1 0 0;slope 2 0 0;depends 1 2;bent 1 2;bend -500000 500000;full -500000 500000;"),
    ("a line times itself is no second power", "factors 1;mul 1 1;box;-10000 20000;",
     "value -20000 40000;slope 1 -20000 40000;depends 1;bent 1;bend 20000 20000;full 20000 20000;"),
    ("Sq over one factor is a second power", "factors 1;pow 1 2;pow 2 2;box;-10000 20000;",
     "value 0 160000;slope 1 -160000 320000;depends 1;bent 1;bend 0 480000;full 0 480000;"),
    ("a power bends all that its line depends on", "factors 2;pow 1 2;add 3 2;pow 4 2;box;10000 10000;10000 10000;",
     "value 40000 40000;slope 1 80000 80000;slope 2 40000 40000;depends 1 2;bent 1 2;bend 0 180000;full 0 180000;"),
    ("a power bends all that its line depends on, and no more", "factors 3;pow 3 2;add 4 1;pow 5 2;box;10000 10000;0 0;10000 10000;",
     "value 40000 40000;slope 1 40000 40000;slope 2 0 0;slope 3 80000 80000;depends 1 3;bent 1 3;bend 0 180000;full 0 180000;"),
    ("a power bends the second factor, too", "factors 2;pow 2 2;add 1 3;pow 4 2;box;10000 10000;10000 10000;",
     "value 40000 40000;slope 1 40000 40000;slope 2 80000 80000;depends 1 2;bent 1 2;bend 0 180000;full 0 180000;"),
    ("the whole sheet counts, used or not", "factors 1;inv 1;addc 1 0;box;0 10000;", "refused 11 2;"),
]


# 02, request 2: the largest squares are added exactly, and their sum is divided and rounded up once.
ALL_EIGHT = "add 1 2;" + "".join(f"add {line} {factor};" for line, factor in zip(range(9, 15), range(3, 9)))
SQUARES = [
    # the products are rounded one by one all the same, and the root is that of the two rounded sums; each square rounded: -100 to 102
    ("rounded once in Cross", "factors 2;mulc 1 1;mulc 2 1;add 3 4;mulc 1 5000;mulc 2 5000;add 6 7;mul 5 8;box;0 0;0 0;",
     "value 0 0;slope 1 0 0;slope 2 0 0;depends 1 2;bent 1 2;bend -71 73;full -71 73;"),
    # each square rounded: 0 to 40032
    ("rounded once in Sq", f"factors 8;{ALL_EIGHT}mulc 15 5001;pow 16 2;box;" + "0 10000;" * 8,
     "value 0 160065;" + "".join(f"slope {a} 0 40018;" for a in range(1, 9)) + "depends 1 2 3 4 5 6 7 8;bent 1 2 3 4 5 6 7 8;"
     "bend 0 40018;full 0 40018;"),
    # each square rounded, the sum is 2000000001: 12 at line 6, and at line 11
    ("Sq at the limit", "factors 2;mulc 1 3001771;mulc 2 3315022;add 3 4;inv 5;box;2000000 2000000;2000000 2000000;",
     "value 0 1;slope 1 -301 0;slope 2 -332 0;depends 1 2;bent 1 2;bend 0 40;full 0 40;"),
    ("Cross at the limit",
     "factors 4;mulc 1 3001771;mulc 2 3315022;add 5 6;mulc 3 3001771;mulc 4 3315022;add 8 9;mul 7 10;box;0 0;0 0;0 0;0 0;",
     "value 0 0;slope 1 0 0;slope 2 0 0;slope 3 0 0;slope 4 0 0;depends 1 2 3 4;bent 1 2 3 4;"
     "bend -2000000000 2000000000;full -2000000000 2000000000;"),
    ("Sq a unit past the limit", "factors 2;mulc 1 3002524;mulc 2 3314340;add 3 4;inv 5;box;2000000 2000000;2000000 2000000;",
     "refused 12 6;"),
]


# 02, request 4: products of two lines of one factor each, at least one of them bent. "product of a square" above is case 4.
SPECIAL = [
    ("case 7, the references of case 4 exchanged", "factors 2;pow 1 2;mul 2 3;box;10000 10000;10000 10000;",
     "value 10000 10000;slope 1 20000 20000;slope 2 10000 10000;depends 1 2;bent 1 2;bend -12361 32361;full -12361 32361;"),
    ("case 7", "factors 2;pow 2 2;mul 1 3;box;10000 10000;10000 10000;",
     "value 10000 10000;slope 1 10000 10000;slope 2 20000 20000;depends 1 2;bent 1 2;bend -12361 32361;full -12361 32361;"),
    # by Cross: -60000 to 160000
    ("case 10", "factors 2;pow 1 2;pow 2 2;mul 3 4;box;10000 20000;10000 10000;",
     "value 10000 40000;slope 1 20000 40000;slope 2 20000 80000;depends 1 2;bent 1 2;bend -60000 135441;full -60000 135441;"),
    # A 40, B 20, C 4, and their negatives: the halves are 192296.5 and 407703.5
    ("a bend above 0", "factors 2;pow 1 2;addc 3 90000;pow 2 2;addc 5 190000;mul 4 6;box;10000 10000;10000 10000;",
     "value 2000000 2000000;slope 1 400000 400000;slope 2 200000 200000;depends 1 2;bent 1 2;bend 192296 407704;full 192296 407704;"),
    ("a bend below 0", "factors 2;pow 1 2;mulc 3 -10000;addc 4 -90000;pow 2 2;addc 6 190000;mul 5 7;box;10000 10000;10000 10000;",
     "value -2000000 -2000000;slope 1 -400000 -400000;slope 2 -200000 -200000;depends 1 2;bent 1 2;bend -407704 -192296;full -407704 -192296;"),
    ("a third factor", "factors 3;pow 3 2;mul 4 1;box;10000 10000;0 0;10000 10000;",
     "value 10000 10000;slope 1 10000 10000;slope 2 0 0;slope 3 20000 20000;depends 1 3;bent 1 3;bend -12361 32361;full -12361 32361;"),
    ("A at 1,000,000,000", "factors 2;pow 1 2;mul 3 2;box;0 0;500000000 500000000;",
     "value 0 0;slope 1 0 0;slope 2 0 0;depends 1 2;bent 1 2;bend 0 1000000000;full 0 1000000000;"),
    ("A at -1,000,000,000", "factors 2;pow 1 2;mul 3 2;box;0 0;-500000000 -500000000;",
     "value 0 0;slope 1 0 0;slope 2 0 0;depends 1 2;bent 1 2;bend -1000000000 0;full -1000000000 0;"),
    ("B at 1,000,000,000", "factors 2;pow 1 2;mul 2 3;box;0 0;500000000 500000000;",
     "value 0 0;slope 1 0 0;slope 2 0 0;depends 1 2;bent 1 2;bend 0 1000000000;full 0 1000000000;"),
    ("B at -1,000,000,000", "factors 2;pow 1 2;mul 2 3;box;0 0;-500000000 -500000000;",
     "value 0 0;slope 1 0 0;slope 2 0 0;depends 1 2;bent 1 2;bend -1000000000 0;full -1000000000 0;"),
    ("C at 1,000,000,000", "factors 2;pow 1 2;mulc 2 1000000000;mul 3 4;box;5000 5000;0 0;",
     "value 0 0;slope 1 0 0;slope 2 250000000 250000000;depends 1 2;bent 1 2;bend -1000000000 1000000000;full -1000000000 1000000000;"),
    ("C at -1,000,000,000", "factors 2;pow 1 2;mulc 2 -1000000000;mul 3 4;box;5000 5000;0 0;",
     "value 0 0;slope 1 0 0;slope 2 -250000000 -250000000;depends 1 2;bent 1 2;bend -1000000000 1000000000;full -1000000000 1000000000;"),
    # 01's bend would be refused: Cross is -1000199942 to 1000199942. R' is 2236067978, and no end
    ("A and C at 1,000,000,000",
     "factors 2;pow 1 2;mulc 3 500000000;mulc 1 5001;add 4 5;mulc 2 1999600079;addc 7 10000;mul 6 8;box;0 0;0 0;",
     "value 0 0;slope 1 5001 5001;slope 2 0 0;depends 1 2;bent 1 2;bend -618033989 1618033989;full -618033989 1618033989;"),
    ("A, B and C at 1,000,000,000, and the bend at the limit",
     "factors 2;pow 1 2;mulc 3 500000000;add 1 4;addc 5 10000;pow 2 2;mulc 7 500000000;mulc 2 1000000000;add 8 9;addc 10 10000;mul 6 11;box;0 0;0 0;",
     "value 10000 10000;slope 1 10000 10000;slope 2 1000000000 1000000000;depends 1 2;bent 1 2;bend 0 2000000000;full 0 2000000000;"),
    ("two lines of one factor are no special case", "factors 2;pow 1 2;mul 3 1;box;10000 10000;10000 10000;",
     "value 10000 10000;slope 1 30000 30000;slope 2 0 0;depends 1;bent 1;bend 60000 60000;full 0 60000;"),
    # by the special rule: -1 to 1
    ("two unbent lines are none either", "factors 2;mulc 1 50;mulc 2 150;mul 3 4;box;0 0;0 0;",
     "value 0 0;slope 1 0 0;slope 2 0 0;depends 1 2;bent 1 2;bend -2 2;full -2 2;"),
    ("a line is bent though its bend is 0", "factors 2;pow 1 3;mulc 1 50;add 3 4;mulc 2 150;mul 5 6;box;0 0;0 0;",
     "value 0 0;slope 1 0 0;slope 2 0 0;depends 1 2;bent 1 2;bend -1 1;full -1 1;"),
    ("past 1,000,000,000 in a product of another sort", "factors 1;pow 1 2;addc 1 500000001;mul 2 3;box;0 0;",
     "value 0 0;slope 1 0 0;depends 1;bent 1;bend 1000000002 1000000002;full 1000000002 1000000002;"),
]


# 02, request 5: `mulc` by 0 is refused with 15, at its text line.
TIMES_ZERO = [
    ("a factor times 0", "factors 1;mulc 1 0;box;1 2;", "refused 15 2;"),
    ("a line times 0", "factors 2;add 1 2;mulc 3 0;box;1 2;1 2;", "refused 15 3;"),
    ("times 0 in a line that is not used", "factors 2;mulc 2 0;addc 1 0;box;1 2;1 2;", "refused 15 2;"),
    ("times 0 in a line that only an unused one uses", "factors 2;inv 2;mulc 3 0;inv 4;addc 1 0;box;1 2;1 2;", "refused 15 3;"),
    ("times 0 twice", "factors 2;addc 1 0;mulc 1 0;mulc 2 0;box;1 2;1 2;", "refused 15 3;"),
    ("a reference before the multiplier", "factors 1;mulc 2 0;", "refused 5 2;"),
    ("reference 0 before multiplier 0", "factors 1;mulc 0 0;", "refused 5 2;"),
    ("times minus zero", "factors 1;mulc 1 -0;box;1 2;", "refused 2 2;"),
    ("times 0 with a zero in front", "factors 1;mulc 1 00;box;1 2;", "refused 2 2;"),
    ("times 0 without byte 10", "factors 1;mulc 1 0", "refused 2 2;"),
    ("times 0 and a field too many", "factors 1;mulc 1 0 1;box;1 2;", "refused 2 2;"),
    ("times 0 in line 64", lines("factors 1;", 63, "addc 1 0;") + "mulc 1 0;box;7 9;", "refused 15 64;"),
    ("times 0 in line 65", lines("factors 1;", 64, "addc 1 0;") + "mulc 1 0;box;7 9;", "refused 4 65;"),
    ("times 0 in line 64 with 8 factors", lines("factors 8;", 56, "addc 1 0;") + "mulc 1 0;box;", "refused 15 57;"),
    ("times 0 in line 65 with 8 factors", lines("factors 8;", 57, "addc 1 0;") + "mulc 1 0;box;", "refused 4 58;"),
    ("times 0 before a line of another form", "factors 2;mulc 1 0;x;box;1 2;1 2;", "refused 15 2;"),
    ("times 0 before a reference that is not earlier", "factors 2;mulc 1 0;inv 9;box;1 2;1 2;", "refused 15 2;"),
    ("times 0 before a last line without byte 10", "factors 2;mulc 1 0;inv 1", "refused 15 2;"),
    ("times 0 behind a constant past the limit", "factors 2;addc 1 2000000001;mulc 1 0;box;1 2;1 2;", "refused 7 2;"),
    ("times 0 behind an exponent 0", "factors 2;pow 1 0;mulc 1 0;box;1 2;1 2;", "refused 6 2;"),
    ("times 0, and no box", "factors 1;mulc 1 0;", "refused 15 2;"),
    ("times 0, and a box line of another form", "factors 1;mulc 1 0;box;x;", "refused 15 2;"),
    ("times 0, and a low end above its high end", "factors 1;mulc 1 0;box;2 1;", "refused 15 2;"),
    ("times 0 behind the inverse of a range with 0", "factors 1;inv 1;mulc 1 0;box;0 1;", "refused 15 3;"),
    ("times one unit", "factors 1;mulc 1 1;addc 2 0;box;10000 20001;", "value 1 3;slope 1 1 1;depends 1;bent;bend 0 0;full 0 0;"),
    ("times minus one unit", "factors 1;mulc 1 -1;addc 2 0;box;10000 20001;", "value -3 -1;slope 1 -1 -1;depends 1;bent;bend 0 0;full 0 0;"),
    ("0 added", "factors 1;addc 1 0;box;7 9;", FACTOR_KEPT),
    ("a factor that is 0", "factors 2;mulc 1 10000;mul 2 3;box;0 0;7 9;",
     "value 0 0;slope 1 7 9;slope 2 0 0;depends 1 2;bent 1 2;bend -10000 10000;full -10000 10000;"),
]


def product(constant, value, low, high):
    """A product of two numbers, and the ends that it is rounded to."""
    return f"factors 1;mulc 1 {constant};box;{value} {value};", f"value {low} {high};slope 1 {constant} {constant};depends 1;bent;bend 0 0;full 0 0;"


# 02, request 8: dividends about 0, about 10,000 and about 10,000 times the limit, and the greatest divisors.
ROUNDED = [
    ("dividend -20000000000001", "factors 1;mulc 1 125601;box;-159234401 -159234401;", "refused 12 2;"),
    ("dividend -20000000000000", *product(10000, -2000000000, -2000000000, -2000000000)),
    ("dividend -10001", *product(1, -10001, -2, -1)),
    ("dividend -10000", *product(1, -10000, -1, -1)),
    ("dividend -9999", *product(1, -9999, -1, 0)),
    ("dividend -1", *product(1, -1, -1, 0)),
    ("dividend 0", *product(1, 0, 0, 0)),
    ("dividend 1", *product(1, 1, 0, 1)),
    ("dividend 9999", *product(1, 9999, 0, 1)),
    ("dividend 10000", *product(1, 10000, 1, 1)),
    ("dividend 10001", *product(1, 10001, 1, 2)),
    ("dividend 20000000000000", *product(10000, 2000000000, 2000000000, 2000000000)),
    ("dividend 20000000000001", "factors 1;mulc 1 125601;box;159234401 159234401;", "refused 12 2;"),
    ("divisor -2000000000", "factors 1;inv 1;box;-2000000000 -2000000000;", "value -1 0;slope 1 -1 0;depends 1;bent 1;bend -1 0;full -1 0;"),
    ("divisor 2000000000", "factors 1;inv 1;box;2000000000 2000000000;", "value 0 1;slope 1 -1 0;depends 1;bent 1;bend 0 1;full 0 1;"),
]


def operand(first, v, g, e):
    """Lines from `first` on for v + g x + (e/2) x^2, where line 2 is x^2 and x is 0: its V, G and E are v, g and e. In the place of a term times 0
    stands x^3, of which all three are 0."""
    squared, plain = (f"mulc {line} {number};" if number else "pow 1 3;" for line, number in ((2, round(e * 5000)), (1, round(g * 10000))))
    return f"{squared}{plain}add {first} {first + 1};addc {first + 2} {round(v * 10000)};"


def one(last, x):
    return f"factors 1;pow 1 2;{operand(3, *x)}{last};box;0 0;", "refused 12 7;"


def two(last, x, y):
    return f"factors 1;pow 1 2;{operand(3, *x)}{operand(7, *y)}{last};box;0 0;", "refused 12 11;"


# One step alone of the last line passes the limit, which is 200,000: (V, G, E) of its operands, lines 6 and 10.
ALONE = [
    ("add.V", *two("add 6 10", (150000, 0, 0), (60000, 0, 0))),
    ("add.G", *two("add 6 10", (0, 150000, 0), (0, 60000, 0))),
    ("add.join", *two("add 6 10", (0, 0, 150000), (0, 0, 60000))),
    ("addc.V", *one("addc 6 600000000", (150000, 0, 0))),
    ("mulc.V", *one("mulc 6 20000", (150000, 0, 0))),
    ("mulc.G", *one("mulc 6 20000", (0, 150000, 0))),
    ("mulc.E", *one("mulc 6 20000", (0, 0, 150000))),
    ("mul.V", *two("mul 6 10", (500, 0, 0), (500, 0, 0))),
    ("mul.ViGj", *two("mul 6 10", (200000, -20, 0), (1, 1.0001, 0))),
    ("mul.VjGi", *two("mul 6 10", (1, 1.0001, 0), (200000, -20, 0))),
    ("mul.G", *two("mul 6 10", (200000, 20, 0), (1, 1, 0))),
    ("mul.VjEi", *two("mul 6 10", (1, 0, 1.0002), (200000, 0, -40))),
    ("mul.ViEj", *two("mul 6 10", (200000, 0, -40), (1, 0, 1.0002))),
    ("mul.join", *two("mul 6 10", (1, -1, 1), (200000, 10, 20))),
    ("mul.Cross.one", *two("mul 6 10", (0, 400, -100), (400, 300, 0))),
    ("mul.E", *two("mul 6 10", (0, 300, 300), (100, 300, 0))),
    # a special case, with one end a unit past 1,000,000,000
    ("mul.A.low", "factors 2;pow 1 2;mulc 3 5000;mul 4 2;box;0 0;-1000000001 0;", "refused 12 5;"),
    ("mul.A.high", "factors 2;pow 1 2;mulc 3 5000;mul 4 2;box;0 0;0 1000000001;", "refused 12 5;"),
    ("mul.B.low", "factors 2;pow 1 2;mulc 3 5000;mul 2 4;box;0 0;-1000000001 0;", "refused 12 5;"),
    ("mul.B.high", "factors 2;pow 1 2;mulc 3 5000;mul 2 4;box;0 0;0 1000000001;", "refused 12 5;"),
    ("mul.C.low", "factors 2;pow 1 2;mulc 2 1000000001;mul 3 4;box;-5000 0;0 0;", "refused 12 5;"),
    ("mul.C.high", "factors 2;pow 1 2;mulc 2 1000000001;mul 3 4;box;0 5000;0 0;", "refused 12 5;"),
    ("pow.V", *one("pow 6 2", (500, 0, 0))),
    ("pow.G", *one("pow 6 2", (400, 300, -100))),
    ("pow.(m-1)Sq", *one("pow 6 3", (0.1, 320, -100000))),
    ("pow.VE", *one("pow 6 2", (10, 388, -24000))),
    ("pow.inner", *one("pow 6 3", (0.1, 310, 200000))),
    ("pow.E", *one("pow 6 2", (0, 388, 0))),
    ("inv.V^2", *one("inv 6", (0.002, 0, 0))),
    ("inv.G", *one("inv 6", (0.01, 25, 125000))),
    ("inv.Sq.one", *one("inv 6", (10000, 500, 0))),
    ("inv.2VSq", *one("inv 6", (1, 346, 100000))),
    ("inv.inner", *one("inv 6", (2, 400, -100000))),
    ("inv.E", *one("inv 6", (0.1, 20, 0))),
    # over two factors: 100 x1 - 75 x1^2 - 75 x2^2 times 1600 x1 + 1000, and the inverse of 10000 + 400 x1 + 400 x2
    ("mul.Cross.sum", "factors 2;pow 1 2;pow 2 2;add 3 4;mulc 5 -750000;mulc 1 1000000;add 6 7;mulc 1 16000000;addc 9 10000000;mul 8 10;"
     "box;0 0;0 0;", "refused 12 11;"),
    ("inv.Sq.sum", "factors 2;add 1 2;mulc 3 4000000;addc 4 100000000;inv 5;box;0 0;0 0;", "refused 12 6;"),
]



def in_year(year, given):
    """An input with the year put into its first line; the field may be any other, too."""
    first, line_end, more = given.partition(";")
    return f"{first} {year}{line_end}{more}"


# 02, request 9: an input in both years, with what it prints in 2014 and in 2016. 000's Example 1 is "join by hull" above.
BOTH_YEARS = [
    ("two squares added", "factors 2;pow 1 2;pow 2 2;add 3 4;box;0 10000;0 10000;",
     "value 0 20000;slope 1 0 20000;slope 2 0 20000;depends 1 2;bent 1 2;bend 0 40000;full 0 40000;",
     "value 0 20000;slope 1 0 20000;slope 2 0 20000;depends 1 2;bent 1 2;bend 20000 20000;full 20000 20000;"),
    ("a square times the other factor", "factors 2;pow 1 2;mul 3 2;box;10000 10000;10000 10000;",
     "value 10000 10000;slope 1 20000 20000;slope 2 10000 10000;depends 1 2;bent 1 2;bend -20000 40000;full -20000 40000;",
     "value 10000 10000;slope 1 20000 20000;slope 2 10000 10000;depends 1 2;bent 1 2;bend -12361 32361;full -12361 32361;"),
    ("a square of one factor of two", "factors 2;pow 1 2;box;10000 30000;0 10000;",
     "value 10000 90000;slope 1 20000 60000;slope 2 0 0;depends 1;bent 1 2;bend 0 20000;full 0 20000;",
     "value 10000 90000;slope 1 20000 60000;slope 2 0 0;depends 1;bent 1;bend 20000 20000;full 0 20000;"),
    ("a factor times two", "factors 1;mulc 1 20000;box;10000 30000;",
     "value 20000 60000;slope 1 20000 20000;depends 1;bent 1;bend 0 0;full 0 0;",
     "value 20000 60000;slope 1 20000 20000;depends 1;bent;bend 0 0;full 0 0;"),
    ("a factor itself", "factors 3;addc 2 0;box;1 2;3 4;5 6;",
     "value 3 4;slope 1 0 0;slope 2 10000 10000;slope 3 0 0;depends 2;bent 1 2 3;bend 0 0;full 0 0;",
     "value 3 4;slope 1 0 0;slope 2 10000 10000;slope 3 0 0;depends 2;bent;bend 0 0;full 0 0;"),
    ("n = 1: all but the set of a straight line is the same", "factors 1;pow 1 2;inv 2;mul 3 1;box;10000 20000;",
     "value 2500 20000;slope 1 -77500 8750;depends 1;bent 1;bend -80000 597500;full -80000 597500;",
     "value 2500 20000;slope 1 -77500 8750;depends 1;bent 1;bend -80000 597500;full -80000 597500;"),
    # Sq of 2016 is the second power over one factor, 4 to 4; Λs is 0 to 4
    ("an inverse of one factor of two", "factors 2;inv 1;box;20000 40000;0 0;",
     "value 2500 5000;slope 1 -2500 -625;slope 2 0 0;depends 1;bent 1 2;bend 0 2500;full 0 2500;",
     "value 2500 5000;slope 1 -2500 -625;slope 2 0 0;depends 1;bent 1;bend 312 2500;full 0 2500;"),
    # Cross of 2016 is twice the product, 2; Λt is 1 and -1 to 1
    ("a factor of two times itself", "factors 2;mul 1 1;box;10000 10000;0 0;",
     "value 10000 10000;slope 1 20000 20000;slope 2 0 0;depends 1;bent 1 2;bend 0 20000;full 0 20000;",
     "value 10000 10000;slope 1 20000 20000;slope 2 0 0;depends 1;bent 1;bend 20000 20000;full 0 20000;"),
    ("bends that only 2014 adds up past the limit", "factors 2;pow 1 2;mulc 3 1000000000;pow 2 2;mulc 5 1000000000;add 4 6;box;0 0;0 0;",
     "refused 12 7;",
     "value 0 0;slope 1 0 0;slope 2 0 0;depends 1 2;bent 1 2;bend 2000000000 2000000000;full 2000000000 2000000000;"),
    # A is a unit past 1,000,000,000 in 2016; Λt of two slopes 0 is 0
    ("a product that only 2016 refuses", "factors 2;pow 1 2;mulc 3 5000;mul 4 2;box;0 0;1000000001 1000000001;",
     "value 0 0;slope 1 0 0;slope 2 0 0;depends 1 2;bent 1 2;bend 0 1000000001;full 0 1000000001;",
     "refused 12 5;"),
    # each square rounded: 0 to 40032
    ("squares rounded once in 2014, too", f"factors 8;{ALL_EIGHT}mulc 15 5001;pow 16 2;box;" + "0 10000;" * 8,
     *["value 0 160065;" + "".join(f"slope {a} 0 40018;" for a in range(1, 9)) + "depends 1 2 3 4 5 6 7 8;bent 1 2 3 4 5 6 7 8;"
       "bend 0 40018;full 0 40018;"] * 2),
    ("the root of two rounded sums in 2014, too", "factors 2;mulc 1 1;mulc 2 1;add 3 4;mulc 1 5000;mulc 2 5000;add 6 7;mul 5 8;box;0 0;0 0;",
     *["value 0 0;slope 1 0 0;slope 2 0 0;depends 1 2;bent 1 2;bend -71 73;full -71 73;"] * 2),
    ("times 0 in 2014, too", "factors 1;mulc 1 0;box;1 2;", "refused 15 2;", "refused 15 2;"),
    ("12 in 2014 at an earlier line", "factors 2;pow 1 2;mulc 3 1000000000;pow 2 2;mulc 5 1000000000;add 4 6;inv 1;box;0 0;0 0;",
     "refused 12 7;", "refused 11 8;"),
    ("11 in either year", "factors 1;inv 1;box;0 10000;", "refused 11 2;", "refused 11 2;"),
    ("12 in either year", "factors 1;inv 1;box;1 1;", "refused 12 2;", "refused 12 2;"),
    ("8 in either year", "factors 1;inv 1;box;", "refused 8 0;", "refused 8 0;"),
]

# 02, request 9: what the third field of the first line is read as.
FIRST_LINES = [
    ("nine factors, and a year that is none", "factors 9 2015;", "refused 3 1;"),
    ("no factor, and a year that is none", "factors 0 2015;addc 1 0;box;7 9;", "refused 3 1;"),
    ("nine factors in 2014", "factors 9 2014;addc 1 0;", "refused 3 1;"),
    ("a year that is none, and no operation", "factors 1 2015;", "refused 17 1;"),
    ("2014, and no operation", "factors 1 2014;", "refused 4 1;"),
    ("2016, and no operation", "factors 1 2016;", "refused 4 1;"),
    ("a year with a minus sign", "factors 1 -2014;", "refused 17 1;"),
    ("a year that is none, and an operation", "factors 1 2015;addc 1 0;box;7 9;", "refused 17 1;"),
    ("the year before", "factors 1 2013;addc 1 0;box;7 9;", "refused 17 1;"),
    ("the year after", "factors 1 2017;addc 1 0;box;7 9;", "refused 17 1;"),
    ("the year 0", "factors 1 0;addc 1 0;box;7 9;", "refused 17 1;"),
    ("a year of ten digits", "factors 1 9999999999;addc 1 0;box;7 9;", "refused 17 1;"),
    ("a year of ten digits below 0", "factors 1 -9999999999;addc 1 0;box;7 9;", "refused 17 1;"),
    ("2014 in 16 bits", "factors 1 67550;addc 1 0;box;7 9;", "refused 17 1;"),
    ("2014 in 32 bits", "factors 1 4294969310;addc 1 0;box;7 9;", "refused 17 1;"),
    ("a year that is none, and a line of another form", "factors 1 2015;x;", "refused 17 1;"),
    ("a year that is none, and a reference that is not earlier", "factors 1 2015;inv 9;box;7 9;", "refused 17 1;"),
    ("a year that is none, and times 0", "factors 1 2015;mulc 1 0;box;7 9;", "refused 17 1;"),
    ("a year that is none, and a line without byte 10", "factors 1 2015;inv 1", "refused 17 1;"),
    ("a year that is none, and no box line", "factors 1 2015;inv 1;", "refused 17 1;"),
    ("a year that is none without byte 10", "factors 1 2015", "refused 2 1;"),
    ("2014 without byte 10", "factors 1 2014", "refused 2 1;"),
    ("a year with a zero in front", "factors 1 02014;addc 1 0;box;7 9;", "refused 2 1;"),
    ("an empty third field", "factors 1 ;addc 1 0;box;7 9;", "refused 2 1;"),
    ("a third field `-0`", "factors 1 -0;addc 1 0;box;7 9;", "refused 2 1;"),
    ("a third field of eleven digits", "factors 1 20140000000;addc 1 0;box;7 9;", "refused 2 1;"),
    ("a third field with a letter", "factors 1 2014x;addc 1 0;box;7 9;", "refused 2 1;"),
    ("a third field with byte 13", "factors 1 2014\r;addc 1 0;box;7 9;", "refused 2 1;"),
    ("a third field with a blank", "factors 1 2014\v;addc 1 0;box;7 9;", "refused 2 1;"),
    ("a fourth field", "factors 1 2014 2014;addc 1 0;box;7 9;", "refused 2 1;"),
    ("a fourth field that is empty", "factors 1 2016 ;addc 1 0;box;7 9;", "refused 2 1;"),
    ("two tabs", "factors 1  2014;addc 1 0;box;7 9;", "refused 2 1;"),
    ("nine factors, and a third field that is no numeral", "factors 9 x;", "refused 2 1;"),
    ("a third field of an operation is no year", "factors 1;inv 1 2014;box;7 9;", "refused 2 2;"),
    ("2014 in line 64", lines("factors 1 2014;", 64, "addc 1 0;") + "box;7 9;", "value 7 9;slope 1 10000 10000;depends 1;bent 1;bend 0 0;full 0 0;"),
    ("2014 in line 65", lines("factors 1 2014;", 65, "addc 1 0;") + "box;7 9;", "refused 4 65;"),
]

# The steps of the bends of 2014, each of which alone passes the limit, by those of 01's table that they are with n = 1, and one of them with n = 2.
OF_2014 = {
    "add.join": "add", "mulc.E": "mulc", "mul.VjEi": "mul.VjEi", "mul.ViEj": "mul.ViEj", "mul.join": "mul.VjEi+ViEj", "mul.Cross.one": "mul.Λt.one",
    "mul.E": "mul", "pow.(m-1)Sq": "pow.(m-1)Λs", "pow.VE": "pow.VE", "pow.inner": "pow.inner", "pow.E": "pow", "inv.Sq.one": "inv.Λs.one",
    "inv.Sq.sum": "inv.Λs", "inv.2VSq": "inv.2VΛs", "inv.inner": "inv.inner", "inv.E": "inv",
}
ALONE_IN_2014 = [(f"2014.{OF_2014[name]}", in_year(2014, given), expected) for name, given, expected in ALONE if name in OF_2014]

# V_j·E_i and V_i·E_j are added first, and Λt then: the sum of the former alone passes the limit, or Λt and V_j·E_i would.
ADDED_FIRST = [
    ("V_j·E_i + V_i·E_j, below", in_year(2014, two("mul 6 10", (1, -0.9, -1), (200000, -12, -20))[0]), "refused 12 11;"),
    ("V_j·E_i + V_i·E_j, exchanged", in_year(2014, two("mul 6 10", (200000, 10, 20), (1, -1, 1))[0]), "refused 12 11;"),
    ("V_j·E_i + V_i·E_j, below, exchanged", in_year(2014, two("mul 6 10", (200000, -12, -20), (1, -0.9, -1))[0]), "refused 12 11;"),
    ("Λt + V_j·E_i is no step", in_year(2014, two("mul 6 10", (1, 0.9, 1), (200000, 10, -20))[0]),
     "value 2000000000 2000000000;slope 1 1800100000 1800100000;depends 1;bent 1;bend 1999980000 1999980000;full 1999980000 1999980000;"),
    ("Λt + V_j·E_i is no step, below", in_year(2014, two("mul 6 10", (-1, -0.9, -1), (200000, 10, -20))[0]),
     "value -2000000000 -2000000000;slope 1 -1800100000 -1800100000;depends 1;bent 1;bend -1999980000 -1999980000;full -1999980000 -1999980000;"),
]

YEARS = [
    *((f"{name}, {year}", in_year(year, given), expected)
      for name, given, earlier, present in BOTH_YEARS for year, expected in ((2014, earlier), (2016, present))),
    *((f"{name}, no year", given, present) for name, given, _, present in BOTH_YEARS),
    *FIRST_LINES,
    *ALONE_IN_2014,
    *ADDED_FIRST,
]

FIGURES = [
    (name, text(given), text(expected))
    for name, given, expected in STARRED + PRINTED + EDGES + READINGS + SQUARES + SPECIAL + TIMES_ZERO + ROUNDED + ALONE + YEARS]

LONGEST = "factors 1;" + "".join(f"addc {k} -2000000000;" for k in range(1, 64))

# 02, request 1, sentence by sentence.
TIDYING = [
    ("nothing to drop", "factors 2;mul 1 2;box;1 2;3 4;", "factors 2;mul 1 2;"),
    ("a dead line before the first used one", "factors 2;inv 2;pow 1 2;addc 4 7;box;1 2;3 4;", "factors 2;pow 1 2;addc 3 7;"),
    ("a dead line before the last line", "factors 2;pow 1 2;inv 2;addc 3 7;box;1 2;3 4;", "factors 2;pow 1 2;addc 3 7;"),
    ("all but the last line dead", "factors 2;pow 1 2;inv 3;mul 3 4;addc 2 7;box;1 2;3 4;", "factors 2;addc 2 7;"),
    ("used through others", "factors 1;pow 1 2;addc 2 1;mulc 3 5;addc 4 1;inv 5;box;1 2;", "factors 1;pow 1 2;addc 2 1;mulc 3 5;addc 4 1;inv 5;"),
    ("a dead line that a dead line uses", "factors 1;pow 1 2;pow 1 3;mulc 3 5;addc 2 1;box;1 2;", "factors 1;pow 1 2;addc 2 1;"),
    ("both references renumbered", "factors 2;pow 1 2;inv 1;pow 2 2;inv 2;mul 5 3;add 7 5;box;1 2;3 4;",
     "factors 2;pow 1 2;pow 2 2;mul 4 3;add 5 4;"),
    ("a constant or an exponent that looks like a reference", "factors 1;inv 1;inv 1;pow 1 4;addc 4 4;mulc 5 4;box;1 2;",
     "factors 1;pow 1 4;addc 2 4;mulc 3 4;"),
    ("unused factors kept, the last one too", "factors 8;inv 8;addc 3 0;box;1 1;1 1;1 1;1 1;1 1;1 1;1 1;1 1;", "factors 8;addc 3 0;"),
    ("equal lines kept, if both are used", "factors 1;inv 1;inv 1;inv 1;add 3 4;box;1 2;", "factors 1;inv 1;inv 1;add 2 3;"),
    ("used though it is multiplied by a range of 0", "factors 2;pow 1 2;inv 1;mul 3 2;box;1 2;0 0;", "factors 2;pow 1 2;mul 3 2;"),
    ("used though it is taken away again", "factors 1;pow 1 2;inv 1;mulc 2 -10000;add 2 4;box;1 2;", "factors 1;pow 1 2;mulc 2 -10000;add 2 3;"),
    ("used though it adds 0", "factors 1;inv 1;addc 1 0;pow 3 2;box;1 2;", "factors 1;addc 1 0;pow 2 2;"),
    ("a dead line refused with 11", "factors 1;inv 1;addc 1 0;box;0 10000;", "factors 1;addc 1 0;"),
    ("a used line refused with 11", "factors 1;pow 1 2;inv 1;addc 3 0;box;0 10000;", "factors 1;inv 1;addc 2 0;"),
    ("a dead line refused past 1,000,000,000", "factors 2;pow 1 2;mul 3 2;addc 1 0;box;0 0;500000001 500000001;", "factors 2;addc 1 0;"),
    ("a number of two digits that comes to have one", "factors 7;" + "inv 1;" * 3 + "inv 2;inv 11;box;", "factors 7;inv 2;inv 8;"),
    ("62 dead lines", lines("factors 1;", 63, "inv 1;") + "addc 1 5;box;1 1;", "factors 1;addc 1 5;"),
    ("no dead line among 64", "factors 1;" + "".join(f"add {k} {k};" for k in range(1, 64)) + "box;0 0;",
     "factors 1;" + "".join(f"add {k} {k};" for k in range(1, 64))),
    # each line with as many digits as it can have: 1,261 bytes
    ("the longest sheet", LONGEST + "box;0 0;", LONGEST),
    ("refused by loading, in a dead line", "factors 1;inv 1;addc 2 2000000001;addc 1 0;box;1 1;", "refused 7 3;"),
    ("refused for its last line", "factors 1;inv 1;addc 1 0", "refused 2 3;"),
    ("times 0 in a used line", "factors 1;pow 1 2;inv 1;mulc 2 0;box;1 2;", "refused 15 4;"),
    ("times 0 in a dead line", "factors 1;pow 1 2;mulc 1 0;addc 2 1;box;1 2;", "refused 15 3;"),
    # request 9: "A tidied sheet names the year only for 2014"
    ("2014, and nothing to drop", "factors 2 2014;mul 1 2;box;1 2;3 4;", "factors 2 2014;mul 1 2;"),
    ("2014, and a dead line", "factors 2 2014;inv 2;pow 1 2;addc 4 7;box;1 2;3 4;", "factors 2 2014;pow 1 2;addc 3 7;"),
    ("2016 named, and nothing to drop", "factors 2 2016;mul 1 2;box;1 2;3 4;", "factors 2;mul 1 2;"),
    ("2016 named, and a dead line", "factors 2 2016;inv 2;pow 1 2;addc 4 7;box;1 2;3 4;", "factors 2;pow 1 2;addc 3 7;"),
    ("a dead line that only 2014 refuses", "factors 2 2014;pow 1 2;mulc 3 1000000000;pow 2 2;mulc 5 1000000000;add 4 6;addc 1 0;box;0 0;0 0;",
     "factors 2 2014;addc 1 0;"),
    # 1,266 bytes
    ("the longest sheet in 2014", LONGEST.replace("1;", "1 2014;", 1) + "box;0 0;", LONGEST.replace("1;", "1 2014;", 1)),
    ("a year that is none, in a sheet with a dead line", "factors 1 2015;pow 1 2;addc 1 0;box;1 2;", "refused 17 1;"),
    ("nine factors, and a year that is none", "factors 9 2015;", "refused 3 1;"),
    ("a year with a zero in front", "factors 1 02014;addc 1 0;", "refused 2 1;"),
]

TIDIED = [(name, text(given), text(expected)) for name, given, expected in TIDYING]


def boats(*numbers):
    """A boat line for each number or few: they come first in it, and zeros fill it up."""
    rows = [str(few).split() for few in numbers]
    return "".join(" ".join(row + ["0"] * (8 - len(row))) + ";" for row in rows)


def page(*figures):
    names = ("boats", "accepted", "range", "divisor", "limit", "low", "high", "greatest")
    return "".join(f"{name} {figure};" for name, figure in zip(names, figures))


KEPT = "factors 1;addc 1 0;"  # the premium is the factor itself
TWO_STEEP = "factors 2;pow 1 2;mulc 3 1000000000;pow 2 2;mulc 5 1000000000;add 4 6;"  # each of the two bends is at the limit

# 02, request 3, sentence by sentence, and what the program makes of its input.
FLEET = [
    ("an empty list", KEPT + "boats;", page(0, 0, 0, 0, 0, 0, 0, 0)),
    ("both ends at its value", "factors 1;mulc 1 -1;boats;" + boats(5000), page(1, 1, 0, 0, 0, -1, 0, 1)),
    ("the first n numbers", "factors 2;mulc 2 20000;add 1 3;boats;" + boats("1 20 300 4000"), page(1, 1, 0, 0, 0, 41, 41, 1)),
    ("all eight numbers", "factors 8;mul 1 8;boats;" + boats("20000 0 0 0 0 0 0 30000"), page(1, 1, 0, 0, 0, 60000, 60000, 1)),
    ("the rest ignored, beyond the limit too", KEPT + "boats;" + boats("7 2000000001 -9999999999 9999999999 1 1 1 -2000000001"),
     page(1, 1, 0, 0, 0, 7, 7, 1)),
    ("accepted, and refused under 11, 12 and 9", "factors 1;inv 1;boats;" + boats(30000, 0, 1, 2000000001), page(4, 1, 1, 1, 1, 3333, 3334, 1)),
    ("none accepted", "factors 1;inv 1;boats;" + boats(-2000000001, 0, 0, -1, 1, -1), page(6, 0, 1, 2, 3, 0, 0, 0)),
    ("9 ahead of 11 and of 12", "factors 2;inv 1;boats;" + boats("0 2000000001", "1 -2000000001", "0 0", "1 0"), page(4, 0, 2, 1, 1, 0, 0, 0)),
    ("12 past 1,000,000,000", "factors 2;pow 1 2;mul 3 2;boats;" + boats("0 500000000", "0 500000001"), page(2, 1, 0, 0, 1, 0, 0, 1)),
    ("values at the limit", KEPT + "boats;" + boats(2000000000, -2000000000, 2000000001, -2000000001), page(4, 2, 2, 0, 0, 0, 0, 1)),
    ("sums beyond the limit", KEPT + "boats;" + boats(*[2000000000] * 3), page(3, 3, 0, 0, 0, 6000000000, 6000000000, 1)),
    ("low and high sums apart", "factors 1;inv 1;boats;" + boats(30000, 70000, 30000), page(3, 3, 0, 0, 0, 8094, 8097, 1)),
    ("the first of three with the greatest high end", KEPT + "boats;" + boats(1, 5, 3, 5, 5), page(5, 5, 0, 0, 0, 19, 19, 2)),
    ("the high end, and not the low one", "factors 1;mulc 1 5000;boats;" + boats(4, 9, 10), page(3, 3, 0, 0, 0, 11, 12, 2)),
    ("high ends below 0", KEPT + "boats;" + boats(-7, -3, -5), page(3, 3, 0, 0, 0, -15, -15, 2)),
    ("high ends below 0 behind a refused boat", KEPT + "boats;" + boats(2000000001, -7, -3), page(3, 2, 1, 0, 0, -10, -10, 3)),
    ("a position counts the refused boats", "factors 1;inv 1;boats;" + boats(0, 1, 20000, 10000), page(4, 2, 0, 1, 1, 15000, 15000, 4)),
    ("999 boats", KEPT + "boats;" + boats(*[2] * 999), page(999, 999, 0, 0, 0, 1998, 1998, 1)),
    ("1,000 boats", KEPT + "boats;" + boats(*[2] * 999, 3), page(1000, 1000, 0, 0, 0, 2001, 2001, 1000)),
    ("1,001 boats", KEPT + "boats;" + boats(*[2] * 1001), "refused 14 0;"),
    ("an unfinished record", KEPT + "boats;" + boats(1) + "1 2 3 4 5 6 7;", "refused 14 0;"),
    ("nine numbers", KEPT + "boats;" + "1 2 3 4 5 6 7 8 9;", "refused 14 0;"),
    ("a record on two lines", KEPT + "boats;" + "1 2 3 4;5 6 7 8;", "refused 14 0;"),
    ("two records on one line", KEPT + "boats;" + "1 2 3 4 5 6 7 8 1 2 3 4 5 6 7 8;", "refused 14 0;"),
    ("a second line `boats`", KEPT + "boats;" + boats(1) + "boats;" + boats(2), "refused 14 0;"),
    ("a second line `boats` at once", KEPT + "boats;boats;", "refused 14 0;"),
    ("a line of the sheet behind `boats`", KEPT + "boats;" + boats(1) + "addc 1 0;", "refused 14 0;"),
    ("no line `boats`", KEPT, "refused 14 0;"),
    ("a line `boats` without its byte 10", KEPT + "boats", "refused 2 3;"),
    ("a line `box` before `boats`", KEPT + "box;boats;" + boats(1), "refused 2 3;"),
    ("a line `box` for `boats`", KEPT + "box;" + boats(1), "refused 2 3;"),
    ("no sheet", "boats;" + boats(1), "refused 2 1;"),
    ("empty input", "", "refused 2 1;"),
    ("no operation", "factors 2;boats;" + boats(1), "refused 4 1;"),
    ("loading ahead of the boats", "factors 1;inv 7;boats;x;", "refused 5 2;"),
    ("times 0", "factors 2;addc 2 0;mulc 1 0;boats;" + boats("7 8"), "refused 15 3;"),
    ("times 0 in a dead line", "factors 2;mulc 2 0;addc 1 0;boats;" + boats("7 8"), "refused 15 2;"),
    ("times 0 ahead of the boats", "factors 1;mulc 1 0;boats;x;", "refused 15 2;"),
    ("times 0, and no boats", "factors 1;mulc 1 0;boats;", "refused 15 2;"),
    ("sheet of 4,096 bytes", "x" * 4095 + ";boats;" + boats(1), "refused 2 1;"),
    ("sheet of 4,097 bytes", "x" * 4096 + ";boats;" + boats(1), "refused 1 0;"),
    ("the longest sheet", LONGEST + "boats;" + boats(0), page(1, 0, 0, 0, 1, 0, 0, 0)),
    # request 9: a page has no bends, and so the year shows where these are refused
    ("2014", "factors 1 2014;addc 1 0;boats;" + boats(7, 9), page(2, 2, 0, 0, 0, 16, 16, 2)),
    ("2016 named", "factors 1 2016;addc 1 0;boats;" + boats(7, 9), page(2, 2, 0, 0, 0, 16, 16, 2)),
    ("bends added up past the limit in 2014", in_year(2014, TWO_STEEP) + "boats;" + boats("0 0", "1 1"), page(2, 0, 0, 0, 2, 0, 0, 0)),
    ("the same in 2016", in_year(2016, TWO_STEEP) + "boats;" + boats("0 0", "0 2000000001"), page(2, 1, 1, 0, 0, 0, 0, 1)),
    ("past 1,000,000,000 in 2014", "factors 2 2014;pow 1 2;mul 3 2;boats;" + boats("0 500000000", "0 500000001"), page(2, 2, 0, 0, 0, 0, 0, 1)),
    ("a year that is none", "factors 1 2015;addc 1 0;boats;" + boats(7), "refused 17 1;"),
    ("a year that is none ahead of the boats", "factors 1 2015;addc 1 0;boats;x;", "refused 17 1;"),
    ("a year that is none, and no operation", "factors 1 2015;boats;", "refused 17 1;"),
    ("nine factors, and a year that is none", "factors 9 2015;boats;", "refused 3 1;"),
    ("a year with a zero in front", "factors 1 02014;addc 1 0;boats;", "refused 2 1;"),
]

REPORTED = [(name, text(given), text(expected)) for name, given, expected in FLEET]


def squared(low, high, slopes="-20000 40000"):
    """What x·x comes to: its bend is 2 however it is cut."""
    return f"value {low} {high};slope 1 {slopes};depends 1;bent 1;bend 20000 20000;full 20000 20000;"


SQUARE = "factors 1;mul 1 1;box;-10000 20000;"
SMALL_SQUARE = "factors 1;mulc 1 2000000;addc 2 300;mul 2 3;box;-3 0;"
UNUSED_FACTOR = "factors 2;mul 1 1;box;-10000 10000;-10000 10000;"
TWO_SQUARES = "factors 2;mul 1 1;mul 2 2;add 3 4;box;-10000 10000;-5000 5000;"
DIVIDED = "factors 1;mul 1 1;addc 2 10000;inv 3;box;-10000 20000;"
ZERO_INSIDE = "factors 1;addc 1 -5000;inv 2;box;0 10000;"
TOO_HIGH = "factors 1;mulc 1 -10000;addc 2 5000000;mul 1 3;box;0 5000000;"  # x·(500 - x), at most 62,500
STEEP = "value {0} 18;slope 1 -180000 60000;depends 1;bent 1;bend 800000000 800000000;full 800000000 800000000;"
OF_TWO = "value {0} 12500;slope 1 -20000 20000;slope 2 -10000 10000;depends 1 2;bent 1 2;bend 20000 20000;full 20000 20000;"
OF_ONE = "value {0} 10000;slope 1 -20000 20000;slope 2 0 0;depends 1;bent 1;bend 20000 20000;full 0 20000;"
OF_ONE_IN_2014 = "value {0} 10000;slope 1 -20000 20000;slope 2 0 0;depends 1;bent 1 2;bend 0 20000;full 0 20000;"
KEPT_BOX = KEPT + "box;7 9;"

# 02, request 6, sentence by sentence, and what the program makes of its input.
CUTTING = [
    ("uncut", "depth 0;" + SQUARE, squared(-20000, 40000)),
    ("cut at 5000", "depth 1;" + SQUARE, squared(-5000, 40000)),
    ("cut at -2500 and 12500 then", "depth 2;" + SQUARE, squared(-1250, 40000)),
    ("-3 to 0 uncut", "depth 0;" + SMALL_SQUARE, STEEP.format(-18)),
    ("-3 to 0 cut at -2, and not at -1", "depth 1;" + SMALL_SQUARE, STEEP.format(-12)),
    ("-3 to 0 cut to the last unit", "depth 2;" + SMALL_SQUARE, STEEP.format(-6)),
    ("no more units to cut", "depth 6;" + SMALL_SQUARE, STEEP.format(-6)),
    ("-10001 to 10000 cut at -1", "depth 1;factors 1;mul 1 1;box;-10001 10000;", squared(-1, 10003, "-20002 20000")),
    ("two factors uncut", "depth 0;" + UNUSED_FACTOR, OF_ONE.format(-10000)),
    ("the lowest factor on equal width", "depth 1;" + UNUSED_FACTOR, OF_ONE.format(0)),
    ("equal widths in the second step", "depth 2;" + TWO_SQUARES, OF_TWO.format(-2500)),
    ("another factor in the third step", "depth 3;" + TWO_SQUARES, OF_TWO.format(0)),
    ("refused with 11 uncut", "depth 0;" + DIVIDED, "refused 11 4;"),
    ("accepted in halves", "depth 1;" + DIVIDED, "value 2000 20000;slope 1 -40000 80000;depends 1;bent 1;bend -80000 560000;full -80000 560000;"),
    ("narrower in quarters", "depth 2;" + DIVIDED, "value 2000 11429;slope 1 -16000 17718;depends 1;bent 1;bend -26126 51200;full -26126 51200;"),
    ("refused with 12 uncut", "depth 0;" + TOO_HIGH, "refused 12 4;"),
    ("accepted in halves, below the limit", "depth 1;" + TOO_HIGH,
     "value 0 1250000000;slope 1 -5000000 5000000;depends 1;bent 1;bend -20000 -20000;full -20000 -20000;"),
    *((f"0 inside, depth {depth}", f"depth {depth};" + ZERO_INSIDE, "refused 11 3;") for depth in range(6)),
    ("next to 0, depth 6", "depth 6;" + ZERO_INSIDE, "refused 12 3;"),
    ("the lower half's refusal first", "depth 1;factors 1;addc 1 -20000;inv 2;inv 1;box;0 20000;", "refused 11 4;"),
    ("the uncut ranges' refusal", "depth 0;factors 1;addc 1 -20000;inv 2;inv 1;box;0 20000;", "refused 11 3;"),
    ("1 unit is not cut", "depth 6;factors 1;addc 1 -1;inv 2;box;0 1;", "refused 11 3;"),
    ("2 units uncut", "depth 0;factors 1;addc 1 -2;inv 2;box;0 2;", "refused 11 3;"),
    ("2 units cut", "depth 1;factors 1;addc 1 -2;inv 2;box;0 2;", "refused 12 3;"),
    ("a point is not cut", "depth 6;factors 1;mulc 1 5000;box;5 5;", "value 2 3;slope 1 5000 5000;depends 1;bent;bend 0 0;full 0 0;"),
    ("the whole span", "depth 6;factors 1;addc 1 0;box;-2000000000 2000000000;", AT_LIMIT.format(-2000000000, 2000000000)),
    ("depth -1", "depth -1;" + KEPT_BOX, "refused 16 0;"),
    ("depth 0", "depth 0;" + KEPT_BOX, FACTOR_KEPT),
    ("depth 6", "depth 6;" + KEPT_BOX, FACTOR_KEPT),
    ("depth 7", "depth 7;" + KEPT_BOX, "refused 16 0;"),
    ("depth 2^32", "depth 4294967296;" + KEPT_BOX, "refused 16 0;"),
    ("16 ahead of 8 for the form", "depth 7;" + KEPT + "box;x;", "refused 16 0;"),
    ("16 ahead of 8 for the number", "depth 7;" + KEPT + "box;", "refused 16 0;"),
    ("16 ahead of 8 without a box", "depth 7;" + KEPT, "refused 16 0;"),
    ("16 ahead of 9", "depth 7;" + KEPT + "box;9 7;", "refused 16 0;"),
    ("16 ahead of 11", "depth 7;factors 1;inv 1;box;0 0;", "refused 16 0;"),
    ("8 behind a good depth", "depth 6;" + KEPT + "box;", "refused 8 0;"),
    ("9 of the uncut ranges, ahead of 11", "depth 1;factors 1;inv 1;box;0 2000000001;", "refused 9 1;"),
    ("the lowest factor's 9", "depth 1;factors 2;add 1 2;box;0 2000000001;9 7;", "refused 9 1;"),
    ("loading ahead of 16, places from the second line", "depth 7;factors 1;inv 7;box;x;", "refused 5 2;"),
    ("no operation", "depth 7;factors 1;box;7 9;", "refused 4 1;"),
    ("times 0 ahead of 16", "depth 7;factors 1;mulc 1 0;box;7 9;", "refused 15 2;"),
    ("no number", "depth;" + KEPT_BOX, "refused 16 0;"),
    ("zero in front", "depth 03;" + KEPT_BOX, "refused 16 0;"),
    ("minus zero for a depth", "depth -0;" + KEPT_BOX, "refused 16 0;"),
    ("eleven digits for a depth", "depth 10000000000;" + KEPT_BOX, "refused 16 0;"),
    ("a field too many in the first line", "depth 3 3;" + KEPT_BOX, "refused 16 0;"),
    ("another word in the first line", "deep 3;" + KEPT_BOX, "refused 16 0;"),
    ("an empty first line", ";" + KEPT_BOX, "refused 16 0;"),
    ("a first line `box`", "box;" + KEPT_BOX, "refused 16 0;"),
    ("a first line `box` before a line `box`", "box;box;7 9;", "refused 2 1;"),
    ("no first line", KEPT_BOX, "refused 2 1;"),
    ("a first line alone", "depth 3;", "refused 2 1;"),
    ("a first line without byte 10", "depth 3", "refused 2 1;"),
    ("empty input of `cut`", "", "refused 2 1;"),
    ("8,192 bytes with the first line", "depth 3;" + KEPT_BOX + "x" * (8192 - 8 - len(KEPT_BOX)), "refused 8 0;"),
    ("8,193 bytes with the first line", "depth 3;" + KEPT_BOX + "x" * (8193 - 8 - len(KEPT_BOX)), "refused 1 0;"),
    ("8,192 bytes, most of them in the first line", "depth 3" + "0" * (8192 - 8 - len(KEPT_BOX)) + ";" + KEPT_BOX, "refused 16 0;"),
    ("8,193 bytes, most of them in the first line", "depth 3" + "0" * (8193 - 8 - len(KEPT_BOX)) + ";" + KEPT_BOX, "refused 1 0;"),
    ("4,096 bytes of sheet behind the first line", "depth 3;" + "x" * 4095 + ";box;7 9;", "refused 2 1;"),
    ("4,097 bytes of sheet behind the first line", "depth 3;" + "x" * 4096 + ";box;7 9;", "refused 1 0;"),
    # request 9: over two factors a bend of 2014 has 0 in it however the class is cut; so has the full bend of 2016 here, but not its bend
    ("2014 uncut", "depth 0;" + in_year(2014, UNUSED_FACTOR), OF_ONE_IN_2014.format(-10000)),
    ("2014 cut", "depth 1;" + in_year(2014, UNUSED_FACTOR), OF_ONE_IN_2014.format(0)),
    ("2016 named and cut", "depth 1;" + in_year(2016, UNUSED_FACTOR), OF_ONE.format(0)),
    ("one factor in 2014, cut", "depth 2;" + in_year(2014, SQUARE), squared(-1250, 40000)),
    ("a straight line in 2014, cut", "depth 6;factors 1 2014;addc 1 0;box;7 9;", FACTOR_KEPT.replace("bent;", "bent 1;")),
    ("bends added up past the limit in 2014, in each part", "depth 6;" + in_year(2014, TWO_STEEP) + "box;0 9;0 9;", "refused 12 7;"),
    ("a year that is none ahead of 16", "depth 7;factors 1 2015;addc 1 0;box;7 9;", "refused 17 1;"),
    ("a year that is none, and no operation", "depth 7;factors 1 2015;box;7 9;", "refused 17 1;"),
    ("nine factors, and a year that is none", "depth 7;factors 9 2015;box;7 9;", "refused 3 1;"),
    ("a year with a zero in front", "depth 0;factors 1 02014;addc 1 0;box;7 9;", "refused 2 1;"),
    ("a year behind the depth", "depth 0 2014;" + KEPT_BOX, "refused 16 0;"),
]

LIMITED = [(name, text(given), text(expected)) for name, given, expected in CUTTING]


def sisters(first, second, given="factors 1;pow 1 2;box;10000 30000;"):
    """A class and two boats."""
    return f"{given}boats;{first};{second};"


ABOVE = "factors 1;mulc 1 67;box;8 9;"
BELOW = "factors 1;mulc 1 -67;box;8 9;"
PRODUCT = "factors 2;mul 1 2;box;10000 20000;30000 40000;"
TWO_ROUNDED = "factors 2;mulc 1 67;mulc 2 67;add 3 4;box;8 9;8 9;"
MANY_BITS = (
    "factors 8;" + "".join(f"mulc {a} 1;mulc {k} 1;mulc {k + 1} 1;pow {k + 2} 8;" for a, k in zip(range(1, 9), range(9, 41, 4)))
    + "add 12 16;" + "".join(f"add {40 + k} {12 + 4 * (k + 1)};" for k in range(1, 7)) + "mulc 47 2000000000;mulc 48 12500000;box;"
    + "-2000000000 2000000000;" * 8)
LEAST, MOST = (" ".join([value] * 8) for value in ("-2000000000", "2000000000"))
TWO_FACTORS = "factors 2;add 1 2;box;7 9;17 19;"

# 02, request 7, and what the program makes of its input.
SISTERS = [
    ("1 beside 3", sisters(10000, 30000), "difference 40000 120000;"),
    ("3 beside 1", sisters(30000, 10000), "difference -120000 -40000;"),
    ("equal boats", sisters(20000, 20000), "difference 0 0;"),
    ("equal boats at an end", sisters(30000, 30000), "difference 0 0;"),
    # by the slopes between the two boats, 30000 to 30002, it would be 3 and 4
    ("boats next to each other", sisters(15000, 15001), "difference 2 6;"),
    ("67 parts of 10,000 of a unit", sisters(8, 9, ABOVE), "difference 0 1;"),
    ("the same less", sisters(9, 8, ABOVE), "difference -1 0;"),
    ("a slope below 0", sisters(8, 9, BELOW), "difference -1 0;"),
    ("a slope below 0, and a difference below 0", sisters(9, 8, BELOW), "difference 0 1;"),
    ("the sum rounded, and not each product", sisters("8 8", "9 9", TWO_ROUNDED), "difference 0 1;"),
    ("products that make up for each other", sisters("8 9", "9 8", TWO_ROUNDED), "difference 0 0;"),
    ("a slope across 0", sisters(-10000, 20000, "factors 1;mul 1 1;box;-10000 20000;"), "difference -60000 120000;"),
    ("a slope across 0, the other way", sisters(20000, -10000, "factors 1;mul 1 1;box;-10000 20000;"), "difference -120000 60000;"),
    ("one factor apart", sisters("10000 30000", "20000 30000", PRODUCT), "difference 30000 40000;"),
    ("both factors apart", sisters("10000 30000", "20000 40000", PRODUCT), "difference 40000 60000;"),
    ("apart in opposite directions", sisters("10000 40000", "20000 30000", PRODUCT), "difference 10000 30000;"),
    ("a factor that does not count", sisters("7 17", "7 19", "factors 2;addc 1 0;box;7 9;17 19;"), "difference 0 0;"),
    # each slope is -2·10^9 to 2·10^9: the sums are 6.4·10^19, either sign
    ("the largest sums", sisters(LEAST, MOST, MANY_BITS), "difference -6400000000000000 6400000000000000;"),
    ("the largest sums, the boats exchanged", sisters(MOST, LEAST, MANY_BITS), "difference -6400000000000000 6400000000000000;"),
    ("the class's 9, and nothing is inside", sisters(7, 9, KEPT + "box;9 7;"), "refused 9 1;"),
    ("the class's 11, of equal boats", sisters(7, 7, "factors 1;inv 1;box;0 9;"), "refused 11 2;"),
    ("the class's 12", sisters(7, 7, "factors 1;addc 1 2000000000;box;7 9;"), "refused 12 2;"),
    ("the first boat below", sisters(6, 9, KEPT_BOX), "refused 9 1;"),
    ("the first boat above", sisters(10, 9, KEPT_BOX), "refused 9 1;"),
    ("the second boat below", sisters(7, 6, KEPT_BOX), "refused 9 1;"),
    ("the second boat above", sisters(7, 10, KEPT_BOX), "refused 9 1;"),
    ("equal boats outside", sisters(10, 10, KEPT_BOX), "refused 9 1;"),
    ("the second factor", sisters("7 17", "7 20", TWO_FACTORS), "refused 9 2;"),
    ("the lowest factor, of the first boat", sisters("6 17", "7 20", TWO_FACTORS), "refused 9 1;"),
    ("the lowest factor, of the second boat", sisters("7 20", "6 17", TWO_FACTORS), "refused 9 1;"),
    ("ten digits", sisters(7, 9999999999, KEPT_BOX), "refused 9 1;"),
    ("eleven digits", sisters(7, 10000000000, KEPT_BOX), "refused 8 0;"),
    ("a zero in front", sisters(7, "09", KEPT_BOX), "refused 8 0;"),
    ("a value `-0`", sisters(7, "-0", "factors 1;addc 1 0;box;-9 9;"), "refused 8 0;"),
    ("a numeral too many", sisters(7, "9 9", KEPT_BOX), "refused 8 0;"),
    ("a numeral too few", sisters("7 17", 7, TWO_FACTORS), "refused 8 0;"),
    ("four numerals, and not two in each line", sisters(7, "17 7 17", TWO_FACTORS), "refused 8 0;"),
    ("one boat", KEPT_BOX + "boats;7;", "refused 8 0;"),
    ("three boats", KEPT_BOX + "boats;7;8;9;", "refused 8 0;"),
    ("no boat", KEPT_BOX + "boats;", "refused 8 0;"),
    ("no line `boats`", KEPT_BOX, "refused 8 0;"),
    ("an empty line behind", KEPT_BOX + "boats;7;9;;", "refused 8 0;"),
    ("no byte 10 at the end", KEPT_BOX + "boats;7;9", "refused 8 0;"),
    ("8 ahead of 9", sisters(6, "9 9", KEPT_BOX), "refused 8 0;"),
    ("the class's 9 ahead of 8", KEPT + "box;9 7;boats;7;", "refused 9 1;"),
    ("the class's 11 ahead of 8", "factors 1;inv 1;box;0 9;boats;x;", "refused 11 2;"),
    ("the class's 12 ahead of 9", sisters(6, 9, "factors 1;addc 1 2000000000;box;7 9;"), "refused 12 2;"),
    ("the class's 8 ahead of 9", sisters(9999999999, 9, KEPT + "box;x;"), "refused 8 0;"),
    ("the class's 9 ahead of 9 at a lower factor", sisters("6 17", "7 17", "factors 2;add 1 2;box;7 9;19 17;"), "refused 9 2;"),
    ("loading ahead of all", "factors 1;inv 7;box;x;boats;x;", "refused 5 2;"),
    ("times 0 ahead of the boats' 8", "factors 1;mulc 1 0;box;7 9;boats;", "refused 15 2;"),
    ("no line `box`", KEPT + "boats;7;9;", "refused 8 0;"),
    ("`boats` before `box`", KEPT + "boats;box;7 9;", "refused 8 0;"),
    ("`boats` in the sheet", "factors 1;boats;addc 1 0;box;7 9;", "refused 4 1;"),
    ("two lines `boats`", KEPT_BOX + "boats;boats;7;9;", "refused 8 0;"),
    ("`boats` without byte 10 is a box line", "factors 1;inv 1;box;0 9;boats", "refused 8 0;"),
    ("`boats` without byte 10 is a line of the sheet", KEPT + "boats", "refused 2 3;"),
    ("empty input of `sisters`", "", "refused 2 1;"),
    ("boat lines alone", "boats;7;9;", "refused 2 1;"),
    ("8,192 bytes with the boat lines", KEPT_BOX + "boats;7;9;" + "x" * (8192 - 10 - len(KEPT_BOX)), "refused 8 0;"),
    ("8,193 bytes with the boat lines", KEPT_BOX + "boats;7;9;" + "x" * (8193 - 10 - len(KEPT_BOX)), "refused 1 0;"),
    ("4,096 bytes of sheet before the boats", "x" * 4095 + ";box;7 9;boats;7;9;", "refused 2 1;"),
    ("4,097 bytes of sheet before the boats", "x" * 4096 + ";box;7 9;boats;7;9;", "refused 1 0;"),
    # request 9: the slopes are the same in both years, and so the year shows where a bend is refused
    ("1 beside 3 in 2014", sisters(10000, 30000, "factors 1 2014;pow 1 2;box;10000 30000;"), "difference 40000 120000;"),
    ("1 beside 3, and 2016 named", sisters(10000, 30000, "factors 1 2016;pow 1 2;box;10000 30000;"), "difference 40000 120000;"),
    ("both factors apart in 2014", sisters("10000 30000", "20000 40000", in_year(2014, PRODUCT)), "difference 40000 60000;"),
    ("bends added up past the limit in 2014", sisters("0 0", "0 0", in_year(2014, TWO_STEEP) + "box;0 0;0 0;"), "refused 12 7;"),
    ("the same in 2016", sisters("0 0", "0 0", in_year(2016, TWO_STEEP) + "box;0 0;0 0;"), "difference 0 0;"),
    ("12 of 2014 ahead of the boats' 9", sisters("0 0", "0 1", in_year(2014, TWO_STEEP) + "box;0 0;0 0;"), "refused 12 7;"),
    ("a year that is none ahead of all", "factors 1 2015;addc 1 0;box;x;boats;x;", "refused 17 1;"),
    ("a year that is none, and no operation", "factors 1 2015;boats;7;9;", "refused 17 1;"),
    ("nine factors, and a year that is none", "factors 9 2015;box;boats;", "refused 3 1;"),
    ("a year with a zero in front", sisters(7, 9, "factors 1 02014;addc 1 0;box;7 9;"), "refused 2 1;"),
]

APART = [(name, text(given), text(expected)) for name, given, expected in SISTERS]


def formula(written, count=2):
    """The first line, and a formula."""
    return f"factors {count};{written};"


def brackets(count, written):
    return "(" * count + written + ")" * count


# What the formula becomes: a sheet's operation lines behind `factors 2`, or a refusal.
WRITTEN = [
    ("the committee's formula", "0.8*f1^2+f2/(f1+1.5)", "pow 1 2;mulc 3 8000;addc 1 15000;inv 5;mul 2 6;add 4 7;"),
    ("line + line", "f1+f2", "add 1 2;"),
    ("line + line, turned", "f2+f1", "add 2 1;"),
    ("line - line", "f1-f2", "mulc 2 -10000;add 1 3;"),
    ("line * line", "f2*f1", "mul 2 1;"),
    ("line / line", "f1/f2", "inv 2;mul 1 3;"),
    ("line + constant", "f1+1.5", "addc 1 15000;"),
    ("constant + line", "1.5+f1", "addc 1 15000;"),
    ("line - constant", "f1-1.5", "addc 1 -15000;"),
    ("constant - line", "1.5-f1", "mulc 1 -10000;addc 3 15000;"),
    ("line * constant", "f1*1.5", "mulc 1 15000;"),
    ("constant * line", "1.5*f1", "mulc 1 15000;"),
    ("constant / line", "1.5/f1", "inv 1;mulc 3 15000;"),
    ("line / constant", "f1/1.5", "refused 20 0;"),
    ("1 / line", "1/f1", "inv 1;mulc 3 10000;"),
    ("1 * line", "1*f1", "mulc 1 10000;"),
    ("a power", "f2^3", "pow 2 3;"),
    ("a power of a bracket", "(f1+f2)^8", "add 1 2;pow 3 8;"),
    ("a power of a power, in brackets", "(f1^2)^3", "pow 1 2;pow 3 3;"),
    ("a line and itself", "f1+f1", "add 1 1;"),
    ("the same twice is written twice", "f1^2*f1^2", "pow 1 2;pow 1 2;mul 3 4;"),
    ("operands first, left before right", "f1*f2-f1/f2", "mul 1 2;inv 2;mul 1 4;mulc 5 -10000;add 3 6;"),
    ("- from the left", "f1-f2-f1", "mulc 2 -10000;add 1 3;mulc 1 -10000;add 4 5;"),
    ("- in brackets", "f1-(f2-f1)", "mulc 1 -10000;add 2 3;mulc 4 -10000;add 1 5;"),
    ("/ from the left", "f1/f2/f1", "inv 2;mul 1 3;inv 1;mul 4 5;"),
    ("/ in brackets", "f1/(f2/f1)", "inv 1;mul 2 3;inv 4;mul 1 5;"),
    ("- and then +", "f1-f2+f1", "mulc 2 -10000;add 1 3;add 4 1;"),
    ("/ and then *", "f1/f2*f1", "inv 2;mul 1 3;mul 4 1;"),
    ("* before +", "f1+f2*f1", "mul 2 1;add 1 3;"),
    ("+ in brackets", "(f1+f2)*f1", "add 1 2;mul 3 1;"),
    ("^ before *", "2*f1^2", "pow 1 2;mulc 3 20000;"),
    ("^ before -", "1-f1^2", "pow 1 2;mulc 3 -10000;addc 4 10000;"),
    ("a subtracted 0", "f1-0", "addc 1 0;"),
    ("a subtracted 0.0000", "f1-0.0000", "addc 1 0;"),
    ("0 less a line", "0-f1", "mulc 1 -10000;addc 3 0;"),
    ("a constant in brackets", "((1.25))+f1", "addc 1 12500;"),
    ("a constant in brackets over a line", "(2)/f1", "inv 1;mulc 3 20000;"),
    ("a factor in brackets", "(f1)+(f2)", "add 1 2;"),
    ("zeros in front", "007*f1", "mulc 1 70000;"),
    ("the smallest constant", "0.0001*f1", "mulc 1 1;"),
    ("the limit", "f1+200000", "addc 1 2000000000;"),
    ("the limit subtracted", "f1-200000.0000", "addc 1 -2000000000;"),
    ("16 brackets", brackets(16, "f1+f2"), "add 1 2;"),
    ("16 brackets round a constant", brackets(16, "0.5") + "*f1", "mulc 1 5000;"),
    ("17 brackets, no more than 16 open", brackets(15, "(f1)+(f2)"), "add 1 2;"),
    ("17 brackets", brackets(17, "f1+f2"), "refused 19 17;"),
    ("17 brackets behind a sign", "f1+" + brackets(17, "f2"), "refused 19 20;"),
    ("constants that do not meet", "f1*2*3", "mulc 1 20000;mulc 3 30000;"),
    ("constants that meet from the left", "2*3*f1", "refused 20 0;"),
    ("constants that meet in brackets", "f1*(2*3)", "refused 20 0;"),
    ("constants at +", "1+2", "refused 20 0;"),
    ("constants at -", "f1*(1-0)", "refused 20 0;"),
    ("a constant over a constant", "f1+1/2", "refused 20 0;"),
    ("a constant divisor in brackets", "f1/(2)", "refused 20 0;"),
    ("a powered constant", "f1+2^2", "refused 20 0;"),
    ("a powered constant in brackets", "(2)^2*f1", "refused 20 0;"),
    ("a factor alone", "f1", "refused 20 0;"),
    ("a factor beyond the count, alone", "f8", "refused 20 0;"),
    ("a factor alone in brackets", "(f1)", "refused 20 0;"),
    ("a constant alone", "1.5", "refused 20 0;"),
    ("a constant alone in brackets", "((1.5))", "refused 20 0;"),
    ("a second ^", "f1^2^3", "refused 19 5;"),
    ("a sign in front", "-f1", "refused 19 1;"),
    ("f9", "f9", "refused 19 2;"),
    ("f0", "f0+f1", "refused 19 2;"),
    ("no decimals", "1.", "refused 19 3;"),
    ("no decimals, and a sign", "1.*f1", "refused 19 3;"),
    ("no digits", ".5*f1", "refused 19 1;"),
    ("the empty text", "", "refused 19 1;"),
    ("no second operand", "f1+", "refused 19 4;"),
    ("a bracket that was not opened", "f1)", "refused 19 3;"),
    ("a bracket that is not closed", "(f1", "refused 19 4;"),
    ("an empty bracket", "()", "refused 19 2;"),
    ("a space", "f1\v+f2", "refused 19 3;"),
    ("a space at the end", "f1+f2\v", "refused 19 6;"),
    ("byte 10 in the text", "f1+;f2", "refused 19 4;"),
    ("byte 10 behind the text", "f1+f2;", "refused 19 6;"),
    ("no sign between", "2f1", "refused 19 2;"),
    ("two digits of a factor", "f12", "refused 19 3;"),
    ("six digits", "123456*f1", "mulc 1 1234560000;"),
    ("seven digits", "1234567*f1", "refused 19 7;"),
    ("seven digits, zeros in front", "0000001*f1", "refused 19 7;"),
    ("four decimals", "f1*0.1234", "mulc 1 1234;"),
    ("five decimals", "f1*0.12345", "refused 19 10;"),
    ("no exponent", "f1^", "refused 19 4;"),
    ("two digits of an exponent", "f1^12", "refused 19 5;"),
    ("an exponent with a point", "f1^2.5", "refused 19 5;"),
    ("an exponent in brackets", "f1^(2)", "refused 19 4;"),
    ("19 over 20", "2*3+f1^", "refused 19 8;"),
    ("exponent 0", "f1^0", "refused 6 2;"),
    ("exponent 1", "f1^1", "refused 6 2;"),
    ("exponent 9", "f1+f2^9", "refused 6 2;"),
    ("a unit beyond the limit", "f1+200000.0001", "refused 7 2;"),
    ("the largest constant subtracted", "f1-999999.9999", "refused 7 2;"),
    ("times 0", "f1+0*f2", "refused 15 2;"),
    ("0 over a line", "0/f1", "refused 15 3;"),
    ("a factor beyond the count", "f1+f3", "refused 5 2;"),
    ("a factor beyond the count, negated", "f1-f3", "refused 5 2;"),
    ("64 codelist lines", "f1" + "+f1" * 62, "add 1 1;" + "".join(f"add {line} 1;" for line in range(3, 64))),
    ("65 codelist lines", "f1" + "+f1" * 63, "refused 4 64;"),
    ("a factor beyond the count in codelist line 65", "f1" + "+f1" * 62 + "+f3", "refused 4 64;"),
    ("1,024 bytes", "f1" + ("+" + brackets(16, "f2")) * 29 + "+(0.50)",
     "add 1 2;" + "".join(f"add {line} 2;" for line in range(3, 31)) + "addc 31 5000;"),
    ("1,025 bytes", "f1" + ("+" + brackets(16, "f2")) * 29 + "+(0.500)", "refused 19 1025;"),
    ("1,024 bytes that can't follow", "x" * 1024, "refused 19 1;"),
    ("1,025 bytes that can't follow", "x" * 1025, "refused 19 1025;"),
    ("1,024 bytes that stop early", "f1+" * 341 + "(", "refused 19 1025;"),
    ("1,024 bytes, and 20", "f1+" * 340 + "f1/2", "refused 20 0;"),
]

# 02, request 12, and what the program makes of its input.
FORMULAS = [
    *((name, formula(written), expected if expected.startswith("refused") else f"factors 2;{expected}") for name, written, expected in WRITTEN),
    ("8 factors", formula("f8*f7", 8), "factors 8;mul 8 7;"),
    ("1 factor", formula("f1*f1", 1), "factors 1;mul 1 1;"),
    ("count 0", formula("f1+f8", 0), "refused 3 1;"),
    ("count 9", formula("f1+f8", 9), "refused 3 1;"),
    ("a negative count", formula("f1+f8", -2), "refused 3 1;"),
    ("a count of ten digits", formula("f1+f8", 9999999999), "refused 3 1;"),
    ("19 over 3", formula("f1+", 0), "refused 19 4;"),
    ("20 over 3", formula("f1", 0), "refused 20 0;"),
    ("a sheet over 4,096 bytes before the count", formula("f1-" * 161 + "f1", 0), "refused 1 0;"),
    ("a sheet within 4,096 bytes", formula("f1-" * 160 + "f1", 0), "refused 3 1;"),
    ("times 0 before a factor beyond the count", formula("0*f1+f3", 1), "refused 15 2;"),
    ("a factor beyond the count before times 0", formula("f3+0*f1", 1), "refused 15 2;"),
    ("a factor beyond the count in an earlier line", formula("f3^2+0*f1", 1), "refused 5 2;"),
    ("empty input of `formula`", "", "refused 2 1;"),
    ("a first line alone, without byte 10", "factors 2", "refused 2 1;"),
    ("a first line alone", "factors 2;", "refused 2 2;"),
    ("a third field", "factors 2 2016;f1+f2;", "refused 2 1;"),
    ("a count with a zero in front", "factors 02;f1+f2;", "refused 2 1;"),
    ("no first line before a formula", "f1+f2;", "refused 2 1;"),
    ("a blank for the tab", "factors\v2;f1+f2;", "refused 2 1;"),
    ("no byte 10 at the end of a formula", "factors 2;f1+f2", "refused 2 2;"),
    ("2 at 2 over 19", "factors 2;f1+", "refused 2 2;"),
    ("2 at 2 over 20", "factors 2;f1", "refused 2 2;"),
    ("2 at 2 over 3", "factors 0;f1+f2", "refused 2 2;"),
    ("2 at 1 over 2 at 2", "factors;f1+f2", "refused 2 1;"),
    ("2 at 1 over 19 at 1,025", "factors;" + "x" * 1025 + ";", "refused 2 1;"),
    ("1,025 bytes, and no byte 10", "factors 2;" + "x" * 1025, "refused 19 1025;"),
    ("1,024 bytes, and no byte 10", "factors 2;" + "x" * 1024, "refused 2 2;"),
    ("1,024 bytes and byte 10 twice", "factors 2;" + "x" * 1024 + ";;", "refused 19 1025;"),
]

CONVERTED = [(name, text(given), text(expected)) for name, given, expected in FORMULAS]
