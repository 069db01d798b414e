"""Lines of root_lines on jobs taken back: roots in memory with rollbacks, and what comes of each.

The roots are laid out as files. What a rollback does is told by tools/model/root.py, which shares nothing with the program that is tested. The rows
of rollbacks.txt have what is done, a root of stacks.txt, edits, and the numbers of the jobs down to which it is taken back, `-` for the newest."""
from tools.cases import stacks
from tools.cases.rows import Rows
from tools.cases.stacks import ERASE, FOO, INSTALL
from tools.lines.system_lines import damaged, fail_line, rollback, run_line, stop_lines
from tools.model.records import record_path
from tools.model.root import Root
from tools.model.runs import PICKS

LABEL, ROOTS = "rollback", {**stacks.TABLE.names, "NEW": Root(), "LISTED": Root(troves=[FOO]).with_database()}
# The stack's oldest jobs were dropped.
DROPPED = ROOTS["INSTALLED"].job([], ERASE, 7)
ROOTS["DROPPED"] = DROPPED._replace(jobs=DROPPED.jobs[1:]).with_database().job([FOO], INSTALL)
TABLE = Rows("rollbacks", data=lambda text: ROOTS["REPLACED"].own[record_path(1)][2] if text == "RECORD" else TABLE.word(text))


def lines():
    for what, name, edits, numbers, *picks in (row.split(" | ") for row in TABLE.rows("taken back")):
        edits = TABLE.nodes(edits)
        root, calls = ROOTS[name].edits(*edits), [rollback(None if number == "-" else int(number)) for number in numbers.split()]
        if what == "cut":
            yield from stop_lines(LABEL, root, calls[0], [PICKS[int(pick)] for pick in picks[0].split()])
            yield fail_line(LABEL, root, calls[0])
        else:
            yield run_line(LABEL, root, *(calls if what == "run" else [damaged(calls[0], edits[0][0])]))
