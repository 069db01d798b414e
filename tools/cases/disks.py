"""Cases of a disk in memory and of a content store over it: a script of steps, each a name and words, which are bytes.

A row of disks.txt has steps with their answers, written by hand, behind `=>`, a `; ` between two; steps with one answer have a `, ` between them.
`new` makes a disk of nodes, whose calls of some numbers fail. In a word `%` and two digits stand for a byte, and `-` for none. In disks_drawn.txt
there are histories that were drawn by chance. tools/lines/disk_lines.py says the steps as lines, with answers by tools/model/trees.py."""
import re

from tools.cases.rows import Rows

TABLE = Rows("disks")

# What words of capital letters stand for.
PARTS = ["/" + letter * 245 for letter in "abc"]
NAMES = {"ZERO": "00" * 20, "A": "61" * 20, "B": "62" * 20, "BIG": "7" * 4101}
NAMES |= {"L1": PARTS[0], "L2": "".join(PARTS[:2]), "L3": "".join(PARTS), "LONG": "".join(PARTS) + "/" + "d" * 244}
NAMES |= {"LONGER": NAMES["LONG"] + "d", "EACH": "/ /a /a/b /a/b/c /a- /a.x /b /b/c /d /d/e /%c3%a9"}


def cases(script):
    for row in [*TABLE.rows(), *Rows("disks_drawn").rows()]:
        for some in re.sub("[A-Z][A-Z0-9]*", lambda found: NAMES[found[0]], row).split("; "):
            steps, _, wanted = some.partition(" => ")
            for step in steps.split(", "):
                front, is_new, nodes = step.partition(": ")
                name, *words = front.split(" ")
                if is_new:
                    got = script.new(TABLE.nodes(nodes.replace(" + ", ";")), list(map(int, words)))
                else:
                    got = script.add(name, *map(TABLE.word, words))
                assert wanted in ("", got), f"{step}: {got}, not {wanted}"
