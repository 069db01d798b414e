#!/usr/bin/env python3
"""The calls that the program list_lines is run on, and the answers that it has to give, said by topic by files of tools/cases/, with their models."""
from tools.cases import catalogues, closures, completions, jobs, local_changes, plans
from tools.lines.words import say

if __name__ == "__main__":
    say((line for topic in (catalogues, closures, jobs, completions, local_changes, plans) for line in topic.lines()))
