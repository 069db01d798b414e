#!/usr/bin/env python3
"""The lines of the program root_lines: calls on databases, records and stacks of jobs, and on roots in memory, told by cases/states.py,
cases/stacks.py, cases/rollbacks.py and cases/systems.py, and what each has to answer, by models that share nothing with the program. And behind the
words `root TROVES JOBS CHANGED FILES` the tree of a root with so many jobs, of so many changed troves."""
import sys

from tools.cases import rollbacks, stacks, states, systems
from tools.lines.words import say

if __name__ == "__main__":
    if sys.argv[1:2] == ["root"]:
        print(stacks.large_root(*map(int, sys.argv[2:])))
    else:
        say((line for cases in (states, stacks, rollbacks, systems) for line in cases.lines()))
