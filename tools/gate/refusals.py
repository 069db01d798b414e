#!/usr/bin/env python3
"""Compares what docs/COMMANDS.md tells of refusals and statuses with the program's own texts. Ends with 1 where they differ.

The texts of refusals are those of crates/cny_report/src/refusals.rt, the statuses and their lines those of
crates/cli_call/src/reporting.rt. Of each refusal the document has a row that says what it means and what to do; of each status it says
what it means, what stands and what to do, and the line on standard error. It has no row of a text that the program doesn't write.
"""
import pathlib
import re
import sys

REFUSALS = pathlib.Path("crates/cny_report/src/refusals.rt")
STATUSES = pathlib.Path("crates/cli_call/src/reporting.rt")
DOCUMENT = pathlib.Path("docs/COMMANDS.md")


def plain(text):
    """A text with `_` for each part that differs from call to call: `{at}` in code, and AT, N or a number in the document."""
    return re.sub(r"\{\w+\}|\b[A-Z]+\b|\b\d+\b", "_", text)


def body_of(code, function):
    return re.search(rf"\nfn {function}\(.*?\n\{{\n(.*?)\n\}}\n", code, re.DOTALL)[1]


def refusal_texts():
    """The texts of all refusals."""
    code = REFUSALS.read_text(encoding="utf-8")
    quantities = re.findall(r'What::\w+ => "([^"]+)"', body_of(code, "text_of_what"))
    found = []
    for arm in re.findall(r"Refusal::\w+[^=]*=> ([^\n]+)", body_of(code, "written")):
        # The text stands in the arm, or in the function that the arm calls; `told` writes one more text behind it.
        made = arm if '"' in arm else body_of(code, arm.split("(")[0])
        text = re.search(r'"([^"]+)"', made)[1] + ("{text}" if arm.startswith("told(") else "")
        found += [text.replace("{what}", one) for one in quantities] if "{what}" in text else [text]
    return [plain(text) for text in found]


def status_lines():
    """The line on standard error of each status, but that of a refusal, which is its text."""
    code = STATUSES.read_text(encoding="utf-8")
    lines = {}
    for variant, text in re.findall(r'Failure::(\w+)[^=]*=> (?:Text::new|joined)\(alloc, "([^"]+)"', code):
        lines[variant] = text if not text.endswith(" ") else text + "{path}"
    numbers = re.findall(r"Failure::(\w+)[^=\n]*=> (\d+),", code)
    return {"0": None} | {number: lines.get(variant) and plain(lines[variant]) for variant, number in numbers}


def table(document, section):
    """The rows of the first table of a section, without its two first lines, each a list of cells."""
    part = document.split(f"\n## {section}\n")[1].split("\n## ")[0]
    rows = [line.strip("|").split("|") for line in part.splitlines() if line.startswith("|")]
    return [[cell.strip() for cell in row] for row in rows[2:]]


def quoted(cell):
    return [plain(text) for text in re.findall(r"`([^`]+)`", cell)]


def refusals_differ(document):
    wanted = refusal_texts()
    told = {text: row[1:] for row in table(document, "Refusals") for text in quoted(row[0])}
    yield from (f"{text}: COMMANDS doesn't say what it means and what to do" for text in wanted if not all(told.get(text, [""])))
    yield from (f"{text}: the program has no such text" for text in told if text not in wanted)


def statuses_differ(document):
    wanted = status_lines()
    told = {number: row for row in table(document, "Statuses") for number in row[0].split(", ")}
    lines = {row[0]: quoted(row[1])[0] for row in table(document, "Standard error")}
    usage = quoted(re.search(r"after 2 (`usage: [^`]+`)", document)[1])[0]
    for number, line in wanted.items():
        if len(told.get(number, [])) != 4 or not all(told[number]):
            yield f"status {number}: COMMANDS doesn't say what it means, what stands and what to do"
        said = usage if number == "2" else lines.get(number) and "conary: " + lines[number]
        if said != line:
            yield f"status {number}: the line is {line}, and COMMANDS has {said}"
    yield from (f"status {number}: the program has none" for number in [*told, *lines] if number not in wanted)


def main():
    document = DOCUMENT.read_text(encoding="utf-8")
    found = [*refusals_differ(document), *statuses_differ(document)]
    refusals, statuses = len(refusal_texts()), len(status_lines())
    print("\n".join(found) or f"{refusals} refusals and {statuses} statuses, each with what it means and what to do")
    return bool(found)


if __name__ == "__main__":
    sys.exit(main())
