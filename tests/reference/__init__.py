"""The rules of paper 01 once more, and of 02 as its requests land, over unlimited whole numbers and exact fractions, for clarity and not speed.

sheet.py   the text of a sheet, refusals 1 to 7, 15 and 17
ranges.py  range arithmetic
rating.py  sets, bends, the table of the lines of either year, refusals 8 to 12
exact.py   the exact side, and what a result promises of it
text.py    the program `rate`: from the bytes of its input to the bytes it prints
tidy.py    02, request 1: tidied sheets, and the program `tidy`
fleet.py   02, request 3: figures over a list of boats, and the program `fleet`
cut.py     02, request 6: rating to a depth, and the program `cut`
sisters.py 02, request 7: limits of the difference of two boats, and the program `sisters`
quoting.py 02, request 10: a class of the desk as bytes, records of doubles, and the two C functions on one class
formula.py 02, request 12: from a formula's text to a sheet, and the program `formula`
classes.py 02, request 13: four classes on one desk, and the two C functions as they are
"""
