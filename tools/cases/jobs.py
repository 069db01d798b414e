"""Lines of list_lines on what updates and erasures make of installed lists; tools/model/lists.py answers, with the SHA-1 of each trove's stream."""
import sys

from tools.cases.rows import Rows
from tools.lines import words
from tools.lines.words import answered, digits
from tools.model.lists import by_name, changed, closed, erased, updated
from tools.model.reports import CHANGES
from tools.model.streams import id_text, sha, trove_bytes, trove_of

TABLE = Rows("jobs")


def listed(troves):
    return ";".join(digits(trove_bytes(one)) for one in troves)


def shown(troves):
    return "\t".join(["ok", *(f"{id_text(one.identity).decode()} {sha(trove_bytes(one, True)).hex()}" for one in troves)])


def line(call, installed, field, made):
    """A call over a list, its last field, and the answer, or the refusal."""
    installed = by_name(installed)
    return words.line(call, listed(installed), field), answered(made, installed)


def update(installed, come):
    return line("updated", installed, listed(come), lambda installed: shown(updated(installed, come)))


def erase(installed, *names):
    return line("erased", installed, b";".join(names).decode(), lambda installed: shown(erased(installed, names)))


def compare(before, after):
    after = by_name(after)
    texts = lambda before: [(CHANGES[kind] + id_text(one)).decode() for kind, one in changed(before, after)]
    return line("changed", before, listed(after), lambda before: "\t".join(["ok", *texts(before)]))


def close_without(installed, *names):
    return line("closed_without", installed, b";".join(names).decode(), lambda installed: closed(erased(installed, names)) or "ok")


def component(name, *requires, gives=(), revision=b"1.0-1-1", flavor=b"", files=(), refs=()):
    return trove_of(name, b"/conary.example.com@ex:devel/" + revision, files, set(refs), set(requires), set(gives), flavor)


def collection(name, *troves, revision=b"1.0-1-1"):
    return component(name, revision=revision, refs=[one.identity for one in troves])


CALLS = {"updated by": update, "erased": erase, "compared with": compare, "closed without": close_without}


def worked(kind):
    """The calls of rows of jobs.txt. An answer that was found by hand is the model's; `leaves` stands before the troves of one."""
    stream = bytes.fromhex(*TABLE.rows("stream"))
    for row in TABLE.rows(kind):
        given, _, wanted = row.partition(" > ")
        troves, call, more = given.split(" | ")
        more = [name.encode() for name in more.split(" ") if name != "-"] if call in ("erased", "closed without") else [TABLE.troves(more)]
        made = CALLS[call](TABLE.troves(troves), *more)
        if wanted.startswith("leaves "):
            wanted = shown(TABLE.troves(wanted[7:]))
        if wanted and made[1] != wanted.replace(", ", "\t").replace("BY_HAND", sha(stream).hex()):
            sys.exit(f"{made!r} and not {wanted!r}")
        yield made


def file_cases():
    """Troves of one id that differ in one file alone: by its path, kind, mode, flags, size, content, owner or target."""
    troves = list(map(TABLE.trove, TABLE.rows("files")))
    for mine in troves:
        yield from (update([mine, component(b"b:lib")], [component(b"b:lib", revision=b"2.0-1-1")]), update([], [mine, troves[2]]))
        yield from (compare([mine], [theirs]) for theirs in troves)


def lines():
    for topic in ("worked", "lists by chance", "differ", "list changes by chance", None, "requirements by chance"):
        yield from worked(topic) if topic else file_cases()
