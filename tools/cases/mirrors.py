"""Cases of `serve`, `mirror ask` and `mirror take` for command_lines: every request over repositories of all kinds, every fault of both
streams, and random repositories of which one takes over what it lacks."""
import re
from hashlib import sha1

from tools.cases import commands
from tools.cases.repositories import tree_of
from tools.cases.root_examples import WRONG
from tools.cases.rows import Rows, id_of
from tools.cases.samples import SET, V1, V2
from tools.lines.words import Spelled, digits, rows_of
from tools.model import repository
from tools.model.mirrors import CONTENT, LAST_REQUEST, MISSING, NAMED, REQUESTS, request_bytes
from tools.model.streams import id_bytes, item

# ---- what the rows name

NOTHING, LONG_NAME = (), commands.LONG_NAME
ID_F1, ID_F2 = id_bytes(V1.identity), id_bytes(V2.identity)
CUT_SET, LARGE_SET = SET[:-1], SET[:135] + b"\x12\x01\0\0\x15" + SET[140:]
TABLE = Rows("mirrors", globals(), commands.TABLE.names)
VALUES = {
    "name": (NAMED, TABLE.word), "content": (CONTENT, lambda text: sha1(TABLE.word(text)).digest()),
    "ids": (MISSING, lambda text: b"".join(map(id_bytes, sorted(map(id_of, text.split()))))),
}  # fmt: skip


def asked(text):
    """The stream of requests with `; ` between two: a name, a content by its bytes, or ids."""
    made = [(VALUES[kind], rest) for kind, _, rest in (one.partition(" ") for one in text.split("; ") if one)]
    return request_bytes(*((tag, value(rest)) for (tag, value), rest in made))


TABLE.names.update({name + "_ASKED": asked(text) for name, text in TABLE.fields("requests")})


def many_requests(count):
    """So many requests of a name."""
    head, one, end = REQUESTS, item(NAMED, b"a"), item(LAST_REQUEST, b"")
    return Spelled(head + count * one + end, "=" + "+".join((digits(head), f"{count}*{digits(one)}", digits(end))))


def most_request_cases(script):
    """As many requests as there may be, and one more."""
    script.disks().each(b"serve", *map(many_requests, (65_535, 65_536, 65_537)))


# ---- random repositories

TEXTS = [b"text %d" % place for place in range(6)]


def stored(commits):
    names = {record.name for troves in commits for trove in troves for _, record in trove.files}
    return sorted((path, node) for path, node in tree_of(commits, [text for text in TEXTS if sha1(text).digest() in names]).items() if path != b"/")


def random_mirrors(script):
    """One asks, the other one answers, and what comes is taken: then its own troves stand, and behind them all that it lacked."""
    for row in rows_of(TABLE.topics, "random mirrors"):
        *both, some, sent = re.split(r" ?\| ?", row)
        own, far = ([TABLE.troves(one) for one in text.split(" & ") if one] for text in both)
        asks, some = script.disks((), stored(own)).run(b"mirror", b"ask"), asked(some)
        replies = script.disks((), stored(far)).fed(asks, b"serve")
        script.each(b"serve", some[:-5] + asks[8:], some[: int(sent)])
        script.disks((), stored(own)).fed(replies, b"mirror", b"take")
        # Told by the lists alone.
        ids = {trove.identity for troves in own for trove in troves}
        wanted = [trove.identity for troves in own + far for trove in troves]
        wanted = wanted[: len(ids)] + [one for one in wanted[len(ids) :] if one not in ids]
        found = [trove.identity for trove in repository.load(script.trees["repo"].copy()).troves]
        if script.made.status or found != wanted:
            WRONG.append(f"a mirror of random repositories: {script.made.err}: {row}")
        again = script.run(b"mirror", b"ask")
        nothing = script.disks((), stored(far)).fed(again, b"serve")
        script.disks((), stored(own)).each(b"mirror take", replies, nothing)


CASES = ("serving", "requests that are none", most_request_cases, "replies that are none", "replies that are committed", "failing mirrors", "mirrors as lines", random_mirrors)
