#!/usr/bin/env python3
"""Prints the parts of the manual pages that a document tells already: of docs/conary.1 docs/COMMANDS.md, of docs/conary-manifest.1
docs/MANIFESTS.md.

In the page such a part stands between two lines, `.\\" printed by tools/gate/manual.py: NAME` and `.\\" end`.

    tools/gate/manual.py            writes each part anew
    tools/gate/manual.py --check    ends with 1 where a part isn't what the document says, or stands nowhere
"""
import pathlib
import re
import sys

from refusals import DOCUMENT, table

MANIFESTS = pathlib.Path("docs/MANIFESTS.md")
PART = re.compile(r'(\.\\" printed by tools/gate/manual\.py: (\w+))\n.*?\.\\" end', re.DOTALL)


def roff(text):
    """A text of the document as one of the page: what is quoted there bold, what is slanted there slanted."""
    text = text.replace("\\", "\\e").replace("-", "\\-")
    slanted_or_bold = r"`([^`]+)`|\*\*([^*]+)\*\*|(?<![\w*])\*([^*]+)\*(?![\w*])"
    return re.sub(slanted_or_bold, lambda it: rf"\fI{it[3]}\fR" if it[3] else rf"\fB{it[1] or it[2]}\fR", text)


def sentence(text):
    return text[0].upper() + text[1:] + "."


def synopsis(document):
    lines = []
    for words, streams, does in table(document, "Words"):
        lines += [] if does else [f"{words}:"]
        lines += [f"  {one:<42}{streams}".rstrip().replace("-", "\\-") for one in re.findall(r"`([^`]+)`", words)]
    return lines


def commands(document):
    lines = []
    for words, streams, does in table(document, "Words"):
        lines += [".TP", roff(words), roff(sentence(does))] if does else []
        for mark, given in re.findall(r"([<>]) ([^<>]*\w)", streams):
            lines += [".br", roff(f"Standard {'input' if mark == '<' else 'output'}: {given}.")]
    return lines


def statuses(document):
    lines = []
    for number, meaning, stands, answer in table(document, "Statuses"):
        lines += [".TP", f".B {number}", roff(sentence(meaning)), ".br", roff(f"What stands: {stands}.")]
        lines += [] if answer == "nothing" else [".br", roff(f"What to do: {answer}.")]
    return lines


def refusals(document):
    lines = []
    for text, meaning, answer in table(document, "Refusals"):
        lines += [".TP", roff(text), roff(sentence(meaning))]
        lines += [] if answer == "nothing" else [".br", roff(f"What to do: {answer}.")]
    return lines


def paragraphs(document, section):
    """The paragraphs of a section, but the calls that stand there."""
    lines = document.split(f"\n## {section}\n")[1].split("\n## ")[0].splitlines()
    return [it for line in lines if line and not line.startswith("    ") for it in (".PP", roff(line.removeprefix("- ")))]


def disks(document):
    return paragraphs(document, "Real disks")


def entries(document):
    return paragraphs(document, "Entries")


def words(document):
    return [it for word, meaning in table(document, "Words") for it in (".TP", roff(word), roff(sentence(meaning)))]


def causes(document):
    told = lambda text, cause: roff(f"{text}: {cause}." if text and cause else sentence(text or cause))
    return [it for number, text, cause in table(document, "Refusals") for it in (".TP", f".B {number}", told(text, cause))]


PAGES = {
    pathlib.Path("docs/conary.1"): (DOCUMENT, {"synopsis": synopsis, "commands": commands, "statuses": statuses, "refusals": refusals, "disks": disks}),
    pathlib.Path("docs/conary-manifest.1"): (MANIFESTS, {"entries": entries, "words": words, "causes": causes}),
}


def main(arguments):
    wrong = []
    for page, (source, parts) in PAGES.items():
        document, old = source.read_text(encoding="utf-8"), page.read_text(encoding="utf-8")
        new = PART.sub(lambda match: "\n".join([match[1], *parts[match[2]](document), '.\\" end']), old)
        wrong += [f"{page} has no part {name}" for name in parts if f"manual.py: {name}\n" not in new]
        if new != old and arguments == ["--check"]:
            wrong.append(f"{page} isn't what {source} says: run tools/gate/manual.py")
        elif new != old:
            page.write_text(new, encoding="utf-8")
    print("\n".join(wrong) or "the manual pages have what the documents tell of words, statuses, refusals and real disks")
    return int(bool(wrong))


if __name__ == "__main__":
    sys.exit(main(sys.argv[1:]))
