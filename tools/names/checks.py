"""The checks of `tools/names_reading`: the table of examples, and made schemas beside sqlite3."""

import os
from collections import Counter

from names import beside, compare
from names.made import Maker
from names.schema import answer_line

EXAMPLES = os.path.join(os.path.dirname(os.path.realpath(__file__)), "examples.txt")
MOST_COLUMNS = 2000


def told(what, failed, passed):
    """Prints the counts of a check; gives the number that failed."""
    print("tools/names_reading: %s: %d passed, %d failed" % (what, passed, failed))
    return failed


def stored_examples():
    """Pairs of a line and its answer from the table, and a table of 2000 columns."""
    with open(EXAMPLES, encoding="latin-1") as table:
        lines = [line.rstrip("\n") for line in table]
    lines = [line for line in lines if line and not line.startswith("#")]
    columns = ", ".join("c%d" % number for number in range(1, MOST_COLUMNS + 1))
    wide = "uses\tCREATE TABLE t(%s)\tCREATE VIEW v AS SELECT c2000 FROM t" % columns
    return list(zip(lines[::2], lines[1::2])) + [(wide, "ok\t2:24 column 1 1999\t2:35 object 1")]


def examples():
    """Compares the answers to the table's lines; gives the number that failed."""
    failed = passed = 0
    for line, wanted in stored_examples():
        got = answer_line(line)
        if got == wanted:
            passed += 1
        else:
            failed += 1
            print("FAILED: %s\n  wanted %s\n  got    %s" % (line, wanted, got))
    return told("examples", failed, passed)


def beside_sqlite(count, seed):
    """Compares the reading of so many made schemas with sqlite3; gives the number of differences that aren't known."""
    if not beside.is_there():
        print("tools/names_reading: beside sqlite3: skipped, since there is no sqlite3")
        return 0
    failed, passed, known = 0, 0, Counter()
    made = [Maker("%d %d" % (seed, number)).schema() for number in range(count)]
    for number, (schema, messages) in enumerate(beside.messages(made)):
        agree, names, unknown = compare.compared(schema, messages)
        passed += agree
        known.update(names)
        failed += len(unknown)
        for case in unknown:
            print("FAILED: schema %d, %s: sqlite3 says %s" % (number, case.row.name, case.message))
            print("  faults at", [fault.at for fault in case.faults], "of", "\t".join(made[number]))
    for name, times in known.most_common():
        print("  known: %4d %s" % (times, name))
    return told("rows of %d made schemas beside sqlite3" % count, failed, passed)
