#!/usr/bin/env python3
"""The lines of the program disk_lines, and what each has to answer. The cases are in `cases/disks.py` (a disk in memory and a content store over it),
`cases/logs.py` (write sets and their logs), `cases/journals.py` (the journal), `cases/packs.py` (manifests of trees) and `cases/pieces.py`
(requests that come in pieces); the models that answer them are `model/trees.py`, `model/runs.py`, `model/packs.py` and `model/mirrors.py`.
Here is how a line is written."""
import itertools

from tools.cases import disks, journals, logs, packs, pieces
from tools.lines.words import (
    answered, digits, items, line, node_term, node_word, placed, puts_term, say, shown, standing, term, terms, tree_term, yes_or_no,
)  # fmt: skip
from tools.model import runs
from tools.model.mirrors import in_pieces
from tools.model.packs import packed
from tools.model.streams import is_path, rises, sha
from tools.model.trees import Collision, Disk, Failed, Journal, NotAllowed, Tree, clear, is_of, is_tree, joined, read_whole


# ---- the script of a disk

NAMERS = {b"sha1": sha, b"byte": lambda data: (data[:1] or b"\0") * 20}


def content_of(front, times, last):
    """A content is a word, how often it is repeated, and a word behind."""
    return front * int(times) + last


def told(value):
    """A part of an answer: a text, bytes or a node."""
    return value if isinstance(value, str) else value.hex() if isinstance(value, bytes) else node_word(value)


def quoted(value):
    """The same as in the worked cases."""
    if isinstance(value, tuple):
        return " ".join(map(quoted, value))
    if isinstance(value, bytes):
        return "".join(chr(byte) if 0x21 <= byte < 0x7F else f"%{byte:02x}" for byte in value) or "-"
    return {None: "nothing"}.get(value, value if isinstance(value, str) else f"{value:04o}" if value else "0000")


def disk_arguments(call, words):
    """The arguments of a step."""
    if call in ("at", "left", "seen"):
        first = call != "at"
        return [*(word.decode() for word in words[:first]), terms(words[first:])]
    if call == "edit":
        return [f"{node_term(disks.TABLE.node(b' '.join(words[1:]).decode()))} {term(words[0])}"]
    if call in ("store put", "store fill"):
        return [*map(term, words[:-3]), term(content_of(*words[-3:]))]
    return [word.decode() if word.isdigit() else term(word) for word in words]


class Steps:
    """The steps of disks, each of which has a name, words, and an answer: its first part, and the others; and their lines with these."""

    def __init__(self):
        self.lines, self.disk = [], None

    def new(self, nodes, fails):
        is_good = rises([path for path, _ in nodes]) and is_tree(dict(nodes))
        if is_good:
            self.disk = Disk(dict(nodes), fails)
        answer = "ok" if is_good else "no tree"
        self.lines.append((line("new", puts_term(nodes), items(fails)), answer))
        return answer

    def add(self, name, *words):
        """Says a step; answers what it answers as in the worked cases."""
        call, rest = (f"{name} {words[0].decode()}", words[1:]) if name in ("any", "store") else (name, words)
        try:
            first, *more = getattr(self, name, self.plain)(*words if hasattr(self, name) else (name, *words))
        except Failed:
            first, more = "failed", []
        except Collision as clash:
            first, more = f"collision {clash.args[0].decode()}", [str(clash.args[1])]
        parts = [told(one) for one in more]
        if first == "is":
            parts = [f"{part} {path.decode()}" for part, path in zip(parts, rest[call != "at" :], strict=True)]
        self.lines.append((line(call, *disk_arguments(call, rest)), line(first, *parts)))
        return " ".join([first, *map(quoted, more)])

    # ---- what is told or set without a call

    def edit(self, path, *node):
        return ["ok" if self.disk.edit(path, disks.TABLE.node(b" ".join(node).decode())) else "no tree"]

    def stop(self, calls):
        self.disk.left = int(calls)
        return ["ok"]

    def crash(self, pick):
        self.disk = self.disk.crash(int(pick))
        return ["ok"]

    def moment(self):
        return [str(len(self.disk.moments) - 1)]

    def at(self, *paths):
        return ["is", *map(self.disk.nodes.get, paths)]

    def left(self, pick, *paths):
        return ["is", *map(self.disk.crash(int(pick)).nodes.get, paths)]

    def seen(self, moment, *paths):
        return ["is", *map(self.disk.moments[int(moment)].get, paths)]

    # ---- calls

    def plain(self, *given):
        try:
            return self.made(*given)
        except NotAllowed:
            return ["refused"]

    def made(self, call, path=b"/", *more):
        if call in ("make_dir", "make_link"):
            call, more = "make", [("dir", int(more[0], 8)) if call == "make_dir" else ("link", more[0])]
        elif call == "set_mode":
            more = [int(more[0], 8)]
        elif call == "read":
            call, more = "read_at", list(map(int, more))
        answer = self.disk.call(call, path, *more)
        if call == "look":
            return ["ok", f"file {answer[1]:04o} {len(answer[2])}" if is_of(answer, "file") else answer]
        if call == "list":
            return ["ok", *(child.rpartition(b"/")[2] for child in answer)]
        return ["ok", str(len(answer)), answer.ljust(more[1], b"\xff")] if call == "read_at" else ["ok"]

    def any(self, name, path=b"/", *more):
        """The functions over any disk."""
        name = name.decode()
        if name in ("clear", "clear_step"):
            clear(self.disk, path)
            return ["ok"]
        if name in ("whole", "whole_step"):
            data = read_whole(self.disk, path, most=int(more[0]))
            return ["more"] if data is None else ["ok", data]
        if name in ("make", "write"):
            self.disk.append(path, more[1])
            self.disk.set_mode(path, int(more[0], 8))
            return self.made("sync") if name == "write" else ["ok"]
        return self.made(name, path, *more, *([b"4"] if name == "read" else []))

    def store(self, name, directory, *more):
        """The calls of a content store, and a file that is filled."""
        if name == b"find":
            return ["none"]
        if name == b"fill":
            self.disk.append(directory, content_of(*more))
            return ["ok"]
        if name in (b"put", b"put_file"):
            content = {"data": content_of(*more[1:])} if name == b"put" else {"source": more[1]}
            return ["ok " + self.disk.store_put(directory, NAMERS[more[0]], **content).decode()]
        answer = getattr(self.disk, "store_" + name.decode())(directory, *more)
        if name == b"get":
            return ["none" if answer is None else "ok " + shown(answer)]
        return ["ok"] if name == b"clear" else ["yes" if answer else "no"]


# ---- write sets and their logs, and the journal: how each call writes its arguments, and what it answers

def each_holds(answers):
    return line(*map(yes_or_no, answers))


def decoded(base, data):
    """What a log tells. Paths and targets stand as they are."""
    return answered(lambda: "".join(placed(*put) + ";" for put in Journal(base).read_log(data)) + "\t" + data.hex())


def staged_paths(directory, numbers):
    paths = [joined(directory, b"%d" % number) for number in numbers]
    return line(*(path if is_path(path) else "bad" for path in paths))


def run_text(run):
    calls = "".join("sync;" if path is None else f"{what} {path.decode()};" for what, path in run.tree.made)
    return line(run.end, calls, standing(run.tree.nodes))


def crash_text(nodes, puts, calls, pick):
    image = runs.applied(nodes, puts, calls).tree.crash(pick)
    ended = runs.recovered(image)
    before, after = (standing(runs.stored(one)) for one in (image, ended.tree))
    return line(before, ended.end, after)


def seen_text(nodes, path):
    return line(*(placed(path, node) for node in nodes))


def texts_word(texts):
    return items(map(bytes.decode, texts))


def deps_word(deps):
    return texts_word(map(b" ".join, deps))


def pack_text(name, version, flavor, config, requires, provides, skip, sink_fails, disk_fails, nodes):
    below = [(path, node) for path, node in nodes.items() if path != b"/"]
    written, answer = packed((name, version, flavor, requires, provides), config, skip, sink_fails, disk_fails, below)
    return shown(written) + "\t" + answer


CALLS = {
    "encode": ([puts_term], lambda puts: logs.logged(puts).hex() if rises([path for path, _ in puts]) else "none"),
    "decode": ([term, lambda data: digits(data) if data else ""], decoded),
    "rules": ([term, puts_term], lambda base, puts: each_holds([Journal(base).keeps_rules(puts)])),
    "named": ([term, terms], lambda base, paths: each_holds(map(Journal(base).can_be_named, paths))),
    "contains": ([puts_term, terms], lambda puts, paths: each_holds(path in dict(puts) for path in paths)),
    "kept": ([puts_term, terms], lambda puts, names: each_holds(name in Journal.kept(puts) for name in names)),
    "numbers": ([puts_term, items], lambda puts, numbers: each_holds(b"%d" % number in Journal.kept(puts) for number in numbers)),
    "staged": ([term, items], staged_paths),
    "is_staged": ([term, items], lambda base, numbers: each_holds(is_path(Journal(base).staged_path(number)) for number in numbers)),
    "apply": ([tree_term, puts_term, str], lambda nodes, puts, failing: run_text(runs.applied(nodes, puts, failing=failing))),
    "recover": ([tree_term, term, str], lambda nodes, *given: run_text(runs.recovered(Tree(nodes), *given))),
    "see": ([tree_term, puts_term, str, term], lambda *given: seen_text(runs.seen_in_apply(*given), given[-1])),
    "see_again": ([tree_term, puts_term, str, str, term], lambda *given: seen_text(runs.seen_in_recovery(*given), given[-1])),
    "crash_in": ([tree_term, puts_term, str, str], crash_text),
    "images": ([tree_term, puts_term, str, str], lambda *given: line(*runs.images_found(*given).values())),
    "pack": ([*3 * [bytes.decode], texts_word, deps_word, deps_word, lambda skip: "skip" * skip, str, str, tree_term], pack_text),
    "serve": ([tree_term, str, term], lambda nodes, size, stream: line(*in_pieces(Tree(nodes), size, stream))),
    "cuts": ([tree_term, puts_term, str, items], lambda *given: line(*journals.checked_cuts(*given))),
}


def lines():
    steps = Steps()
    disks.cases(steps)
    yield from steps.lines
    for call, *given in itertools.chain(logs.cases(), *(cases() for cases in journals.CASES), packs.cases(), pieces.cases()):
        written, answer = CALLS[call]
        yield line(call, *(write(one) for write, one in zip(written, given, strict=True))), lambda: answer(*given)


if __name__ == "__main__":
    say(lines())
