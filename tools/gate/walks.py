#!/usr/bin/env python3
"""Makes the walks of documents, and compares what each command prints with what the document says. Ends with 1 where one differs.

A walk is all blocks of a document that begin with `    $ `: each such line is a command, a here-document in it goes up to its last line, and what
stands behind it is what it prints, on standard output and on standard error. The commands of a document are made in one shell, in their order, with
the top of the repository as the current directory and a new folder in place of /tmp. The line on standard error by which `./conary` says that a
program has no proofs is left out.

    tools/gate/walks.py [DOCUMENT...]"""
import difflib
import pathlib
import re
import subprocess
import sys
import tempfile

DOCUMENTS = ("README.md", "docs/TUTORIAL.md", "docs/COMMANDS.md")
BEGIN, MARK = "    $ ", "end of command"
NOTICE = re.compile(r"^conary(-manifest)?: (this build has|building).*\n", re.MULTILINE)


def commands_of(text):
    """The commands of a document, each with what it is to print."""
    found, end = [], None
    for block in re.findall(r"(?:^    .*\n|^\n(?=    ))+", text, re.MULTILINE):
        if not block.lstrip("\n").startswith(BEGIN):
            continue
        for line in block.strip("\n").split("\n"):
            line = line.removeprefix("    ")
            if end is not None:
                found[-1][0].append(line)
                end = None if line == end else end
            elif line.startswith("$ "):
                found.append(([line[2:]], []))
                here = re.search(r"<<(\w+)", line)
                end = here and here[1]
            else:
                found[-1][1].append(line)
    return [("\n".join(command), "".join(line + "\n" for line in printed)) for command, printed in found]


def printed_by(commands):
    """What each command prints, made in one shell."""
    with tempfile.TemporaryDirectory(prefix="conary-walk-") as room:
        script = "".join(f"{command}\necho '{MARK}'\n" for command, _ in commands).replace("/tmp/", room + "/")
        done = subprocess.run(["bash"], input=script, stdout=subprocess.PIPE, stderr=subprocess.STDOUT, text=True)
    printed = NOTICE.sub("", done.stdout).replace(room + "/", "/tmp/").split(MARK + "\n")
    return printed[:-1] + [""] * (len(commands) - len(printed) + 1)


def differences(document):
    commands = commands_of(pathlib.Path(document).read_text(encoding="utf-8"))
    for (command, wanted), found in zip(commands, printed_by(commands)):
        if found != wanted:
            lines = difflib.ndiff(wanted.splitlines(), found.splitlines())
            yield f"{document}: $ {command}\n" + "\n".join(lines)
    print(f"{document}: {len(commands)} commands")


def main(words):
    found = [it for document in words or DOCUMENTS for it in differences(document)]
    print("\n".join(found) or "each prints what the document says")
    return int(bool(found))


sys.exit(main(sys.argv[1:]))
