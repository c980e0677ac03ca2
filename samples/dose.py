"""Writes the worked book of docs/FORMAT.md, samples/dose.hex, to standard output. A start for a script of your own."""
import struct
import sys

CERTAIN, OPEN, COMPLETE, CLOSED = range(4)
COUNT, SUM, MIN, MAX = range(4)
EQ, NE, LT, LE, GT, GE = range(6)

predicates = [(CERTAIN, 0), (OPEN, 1), (COMPLETE, 1), (COMPLETE, 1), (CLOSED, 1)]  # kind, level
atoms = [(0, 0), (0, 0), (0, 0), (1, 2), (1, 0), (2, 0), (2, 0), (3, 0), (3, 0), (4, 0), (4, 0)]  # predicate, given
comparisons = [(COUNT, GE, 2, 0, 2), (SUM, GE, 30, 0, 2)]  # aggregate, relation, bound, first element, how many
elements = [(0, 5, 30), (0, 6, 25)]  # sign, atom, weight
bodies = [  # head, hypotheses: sort, index
    (0, []), (1, []),
    (5, [(0, 0), (1, 3)]), (6, [(0, 1), (1, 4)]),
    (7, [(2, 0)]), (8, [(2, 1)]),
    (9, [(0, 10)]), (10, [(0, 9)]),
]

rules, hypotheses = [], []
for head, body in bodies:
    rules.append((head, len(hypotheses), len(body)))
    hypotheses += body

contents, records, offset = b"", b"", 48
for form, table in [("<BB", predicates), ("<HB", atoms), ("<HHH", rules), ("<BH", hypotheses),
                    ("<BBiHH", comparisons), ("<BHi", elements)]:
    contents += struct.pack("<II", offset, len(table))
    records += b"".join(struct.pack(form, *record) for record in table)
    offset = 48 + len(records)
sys.stdout.buffer.write(contents + records)
