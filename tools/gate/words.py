#!/usr/bin/env python3
"""Counts the words of the documents that are written by hand: README.md, CONTRIBUTING.md, docs/. Ends with 1 where there are too many.

What stands between a line `printed by` and a line `end` isn't counted. A word has a letter or a digit, so that bars of tables are none. With --each
it tells each document's.
"""
import pathlib
import re
import sys

PRINTED = re.compile(r'^(?:<!-- |\.\\" )printed by .*?^(?:<!-- end -->|\.\\" end)$', re.DOTALL | re.MULTILINE)
MOST, MOST_README = 32_000, 1_200


def words_of(path):
    text = PRINTED.sub("", path.read_text(encoding="utf-8"))
    return sum(1 for word in text.split() if re.search(r"\w", word))


def main(arguments):
    front = pathlib.Path("README.md")
    counts = {path: words_of(path) for path in [front, pathlib.Path("CONTRIBUTING.md"), *sorted(pathlib.Path("docs").iterdir())]}
    if "--each" in arguments:
        print("".join(f"{count:6} {path}\n" for path, count in counts.items()), end="")
    total = sum(counts.values())
    print(f"{total} words by hand, of which {counts[front]} in {front}; there may be {MOST}, and {MOST_README} there")
    return int(total > MOST or counts[front] > MOST_README)


if __name__ == "__main__":
    sys.exit(main(sys.argv[1:]))
