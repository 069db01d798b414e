#!/usr/bin/env python3
"""The calls that the program text_lines is run on, and the answers that it has to give.

A line of the calls is the name of a call and its arguments, with a tab before each: a text, or `0x` and the hexadecimal digits of its bytes. A line
of the answers is the answer to the call of its number. The answers come from tools/model/texts.py, which is made from docs/FORMATS.md alone. The
calls are those of tools/cases/texts.py, whose worked ones have their answers written out, then those on the texts that commands write, of
tools/cases/reports.py, and on the lowest libraries."""
import itertools
import sys
from functools import partial

from tools.cases.reports import low_lines, report_lines
from tools.cases.texts import further_calls, worked_cases
from tools.lines.words import say
from tools.model.texts import (
    CLASSES, FIXED, SENSES, NotOfForm, branch_of, check_path, check_target, count_text, dep_of, dep_text, flavor_of, flavor_text,
    id_bytes, id_of_text, id_text, is_forbidden, is_reserved, is_utf8, is_word, label_of, label_text, matches, name_kind, need, next_answer,
    satisfies, score, shadow_of, str_field, take_id, take_str, version_of, whole_dep_of, whole_flavor_of,
)

# ---- what each call answers: the fields of its answer, from the bytes of its arguments

def truth(holds):
    return b"yes" if holds else b"no"


def equality(first, second):
    return [b"same" if first == second else b"different"]


def order(first, second):
    return equality(first, second) + [b"less" if first < second else b"greater" if first > second else b"equal"]


def reader(parts, bad=b"bad"):
    """The answer of a reader: `ok` and the parts, or `bad`."""

    def answer(*arguments):
        try:
            return [b"ok", *parts(*arguments)]
        except NotOfForm:
            return [bad]

    return answer


def byte_reader(check):
    """The answer of a reader of bytes: `ok` and their digits, or `bad`."""

    def parts(data):
        need(is_utf8(data))
        check(data)
        return [data.hex().encode()]

    return reader(parts)


def path_parts(text):
    """The path, its last name, the path above it (twice; `/` has none), whether it is reserved, and whether it is fixed."""
    above, last = check_path(text).rsplit(b"/", 1)
    return [text, last, above or b"/", b"none" if text == b"/" else above or b"/", truth(is_reserved(text)), truth(text in FIXED)]


def mode_of_bits(bits):
    return [b"ok", b"%d" % bits, b"%04o" % bits] if bits <= 0o7777 else [b"none"]


def mode(text):
    return mode_of_bits(int(text, 8)) if matches(rb"[0-7]{4}", text) else [b"none"]


def schedule(calls, faults, more, *fails):
    """A letter for each further call: `f` where its number is among those that are to fail. Then the counts, which stay at 2^64 - 1."""
    calls, faults, letters = int(calls), int(faults), b""
    for _ in range(int(more)):
        calls = min(calls + 1, 2**64 - 1)
        fails_now = b"%d" % calls in fails
        faults = min(faults + fails_now, 2**64 - 1)
        letters += b"f" if fails_now else b"-"
    return [b"ok", letters, b"%d" % calls, b"%d" % faults]


def written_over(data, at, more, kept):
    """The first bytes of those that stand once some are written over by others from a place on."""
    at = int(at)
    return [(data[:at] + more + data[at + len(more) :])[: int(kept)].hex().encode()]


def next_str(data, at):
    """Where the value of the field at a place stands, from and to."""
    start = int(at) + 2
    return [b"%d" % start, b"%d" % (start + len(take_str(data[int(at) :])[0]))]


def next_id(data, at):
    identity, behind = take_id(data[int(at) :])
    return [id_text(identity), b"%d" % (len(data) - len(behind))]


version_at = partial(version_of, whole=False)


def version_parts(version):
    upstream, source, build = version.revision
    return [version.text, version.branch, version.label, b"%d" % version.depth, upstream, count_text(source), count_text(build)]


def made(version):
    size = len(version.text)
    return [b"too large: version %d" % size] if size > 512 else [b"ok", *version_parts(version)]


def flavor_parts(flavor):
    def listed(flags):
        return b"".join(SENSES[sense] + b" " + word + b";" for word, sense in flags)

    flags, sets = flavor
    text = flavor_text(flavor)
    return [text, listed(flags), b"".join(word + b"{" + listed(own) + b"}" for word, own in sets), text]


def dep_parts(dep):
    kind, name, flags = dep
    return [dep_text(dep), kind, name, b"".join(flag + b";" for flag in flags), dep_text(dep)]


ANSWERS = {
    **dict.fromkeys(("name_order", "path_order"), order),
    **dict.fromkeys(("target_equality", "label_equality"), equality),
    **dict.fromkeys(("names_copy", "paths_copy", "numbers_copy"), lambda *given: [b"ok", *given]),
    "path_bytes": byte_reader(check_path), "target_bytes": byte_reader(check_target), "name_bytes": byte_reader(name_kind),
    "text_bytes": byte_reader(lambda data: None),
    "word": lambda text: [truth(is_word(text))],
    "name": reader(lambda text: [text, name_kind(text)]),
    "path": reader(path_parts),
    "forbidden": lambda path: [truth(is_reserved(path)), truth(is_forbidden(path, False))],
    # What stands behind the last slash of a text, and before it; `/` where nothing does.
    "ends": lambda text: [b"ok", text.rpartition(b"/")[2], text.rpartition(b"/")[0] or b"/"],
    "join": reader(lambda path, last: [check_path(path.rstrip(b"/") + b"/" + last)]),
    "target": reader(lambda text: [check_target(text)]),
    "mode": mode,
    "mode_of_bits": lambda bits: mode_of_bits(int(bits)),
    "number": lambda text: [b"ok", text] if matches(rb"0|[1-9][0-9]{0,18}", text) else [b"none"],
    "decimal": lambda number: [b"%d" % int(number)],
    "put_str": lambda data, value: [(data + str_field(value)).hex().encode()],
    "next_str": reader(next_str, b"none"),
    "text_copy": lambda text: [b"same", text],
    "bytes_copy": lambda data, more: [(data + more).hex().encode()],
    "dir_copy": lambda bits: [b"dir", *mode(bits)[1:]],
    "file_copy": lambda data, bits=b"0600": [b"file", *mode(bits)[1:], data.hex().encode()],
    "link_copy": lambda target: [b"link", target],
    "stop_copy": lambda *stop: list(stop),
    "count_copy": lambda *numbers: [b"same", b".".join(numbers)],
    "write_over": written_over,
    "schedule": lambda calls, *fails: schedule(b"0", b"0", calls, *fails),
    "counted_schedule": schedule,
    "label": reader(lambda text: [label_text(label_of(text))]),
    "version": reader(lambda text: version_parts(version_at(text))),
    "whole_version": reader(lambda text: version_parts(version_of(text, True))),
    "version_equality": lambda first, second: equality(version_at(first).text, version_at(second).text),
    "shadow": lambda text, label: made(shadow_of(version_at(text), label)),
    "branch": lambda text, label: made(branch_of(version_at(text), label)),
    "revise": lambda text, other: made(version_at(text).revised(version_at(other).revision)),
    "next": lambda wanted, latest: next_answer(version_at(wanted).revision, version_at(latest).depth, version_at(latest).revision),
    "first": lambda wanted, depth: next_answer(version_at(wanted).revision, int(depth), None),
    "flavor": reader(lambda text: flavor_parts(flavor_of(text))),
    "whole_flavor": reader(lambda text: flavor_parts(whole_flavor_of(text))),
    "empty_flavor": lambda: [b"ok", b"", b"", b"", b""],
    "flavor_equality": lambda first, second: equality(flavor_of(first), flavor_of(second)),
    "score": lambda trove, system: [b"none"] if (worth := score(flavor_of(trove), flavor_of(system))) is None else [b"ok", b"%d" % worth],
    "dep": reader(lambda text: dep_parts(dep_of(text))),
    "whole_dep": reader(lambda text: dep_parts(whole_dep_of(text))),
    "of_trove": lambda name: [b"ok", *dep_parts((b"trove", name, []))],
    "class": lambda word: [b"ok", word] if word in CLASSES else [b"none"],
    "satisfies": lambda provide, require: [truth(satisfies(dep_of(provide), dep_of(require)))],
    "dep_order": lambda first, second: order(dep_text(dep_of(first)), dep_text(dep_of(second))),
    "id": reader(lambda text: [id_text(id_of_text(text)), *id_of_text(text), (b"\xfe\x00" + id_bytes(id_of_text(text))).hex().encode()]),
    "next_id": reader(next_id),
    "id_order": lambda first, second: order(id_of_text(first), id_of_text(second)),
}


# ---- the lines

def argument(data):
    """As a text, where that can be read in an editor."""
    shown = is_utf8(data) and data.decode().isprintable() and data.strip() == data != b"" and not data.startswith((b"0x", b"="))
    return data if shown else b"0x" + data.hex().encode()


def answer_of(call):
    return b"\t".join(ANSWERS[call[0]](*call[1:]))


def text_lines():
    """The calls on texts, each once and with its answer."""
    worked = list(worked_cases())
    for call, wanted in worked:
        if not answer_of(call).startswith(wanted):
            sys.exit(f"{call} is answered {answer_of(call)} and not {wanted}")
    for call in dict.fromkeys([call for call, _ in worked] + list(further_calls())):
        yield b"\t".join([call[0].encode(), *map(argument, call[1:])]), answer_of(call)


if __name__ == "__main__":
    say(itertools.chain(text_lines(), report_lines(), low_lines()))
