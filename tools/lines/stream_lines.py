#!/usr/bin/env python3
"""The lines of the program stream_lines: calls on streams, relative troves, change sets, manifests and batches, of the files of tools/cases/ of these
names; tools/lines/stream_answers.py says what each has to answer."""
import re
import sys

from tools.cases import batches, manifests, relatives, streams
from tools.lines.stream_answers import answer
from tools.lines.words import Terms, digits, say, value_bytes

CASES = streams.CASES + relatives.CASES + manifests.CASES + batches.CASES


def argument_text(argument):
    if isinstance(argument, Terms):
        return argument.text()
    if isinstance(argument, str) and re.fullmatch(r"(?!0x|=)[^\t\n]*", argument):
        return argument
    data = value_bytes(argument)
    return digits(data) if data else ""


def answer_to(call, arguments):
    return answer(call, list(map(value_bytes, arguments)))


def check_by_hand():
    for (call, *arguments), wanted in streams.ITEMS_BY_HAND:
        if answer_to(call, arguments).rstrip() != wanted:
            sys.exit(f"{call} {arguments} is answered {answer_to(call, arguments)!r} and not {wanted!r}")


def lines():
    check_by_hand()
    for call, *arguments in (call for _, cases in CASES for call in cases()):
        yield (lambda: "\t".join([call, *map(argument_text, arguments)])), lambda: answer_to(call, arguments)


if __name__ == "__main__":
    say(lines())
