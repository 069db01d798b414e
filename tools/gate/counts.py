#!/usr/bin/env python3
"""Prints how much is tried beside the proofs: cases of the test programs, tests, and must-fail edits in and outside the gate.

A case is a line of a program that makes a call; a line that only sets up what the next calls are made over is none.

    tools/gate/counts.py              the totals, and a row for each program
    tools/gate/counts.py --calls      and one for each call of a program"""
import collections
import pathlib
import re
import sys

from crates import edits_inside, edits_outside, files_in, text_of

SETS_UP = {"command_lines": {"disks", "root", "repo", "input", "sinks"}}
COLUMNS = ("stops of the root", "stops of the repository", "failing calls of the root", "failing calls of the repository", "edits behind a stop")


def calls_of(path):
    """How many lines a program has of each call."""
    counts = collections.Counter(line.split("\t")[0] for line in text_of(path).split("\n") if line)
    return {call: count for call, count in sorted(counts.items()) if call not in SETS_UP.get(path.parent.name, ())}


def stops():
    """Of each command how often it is stopped in the stored lines of command_lines and how often a call of a disk fails, in how many lines, and how many
    edits come between a stop and the recovery."""
    calls, answers = (text_of(f"crates/command_lines/{part}").split("\n") for part in ("stdin", "stdout"))
    lines, times, cut = collections.Counter(), collections.Counter(), None
    for at, (call, *words) in enumerate(line.split("\t") for line in calls):
        command = words[{"stops": 2, "faults": 1, "cut": 3}.get(call, 0) :]
        command = " ".join(command[: 1 + (command[1:2] in (["-"], ["--resolve"], ["ask"], ["take"]))])
        if call in ("stops", "faults"):
            place = command, 2 * (call == "faults") + (words[0] == "repo")
            lines[place] += 1
            # The last number from which on there is another outcome is that of the command as it ends.
            times[place] += int(answers[at + 1].rsplit(" ", 1)[1])
        elif call in ("root", "repo") and cut:
            lines[cut, 4] += 1
        cut = command if call == "cut" else None if call == "disks" else cut
    rows = [f"| command | {' | '.join(COLUMNS)} |", "|---|---|---|---|---|---|"]
    for command in sorted({command for command, _ in lines}):
        cells = [f"{times[command, at]:,} in {lines[command, at]}" if at < 4 else str(lines[command, at]) for at in range(5)]
        rows.append(f"| `{command}` | {' | '.join(cell if lines[command, at] else '' for at, cell in enumerate(cells))} |")
    return rows


def main():
    programs = {path.parent.name: calls_of(path) for path in sorted(pathlib.Path("crates").glob("*/stdin"))}
    for name, calls in programs.items():
        print(f"{sum(calls.values()):8} {name}")
        for call, count in calls.items() if "--calls" in sys.argv and name.endswith("_lines") else ():
            print(f"{count:16} {call}")
    tests = sum(len(re.findall(r"^\s*#\[test\]", text_of(path), re.M)) for path in files_in("src"))
    print(f"{sum(sum(calls.values()) for calls in programs.values())} cases of {len(programs)} programs, {tests} tests")
    inside, outside = len(edits_inside()), len(edits_outside())
    print(f"{inside + outside} edits: {inside} in the gate, {outside} outside it")


if __name__ == "__main__":
    main()
