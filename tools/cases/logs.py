"""Cases of write sets and their logs: calls and their arguments, which tools/lines/disk_lines.py says as lines.

What they have to answer is told by tools/model/trees.py, which reads a log by the rows of the table of docs/FORMATS.md ("The log of a write set"),
from the front, and then holds it against each rule for what it names; the program's reader, which is another one, has to give the same answers. The
cases worked by hand are held against the model before their lines are said.

A put is a pair: a path, and what is to stand there."""
import itertools

from tools.cases.rows import Rows, from_hex
from tools.model.streams import is_path, item
from tools.model.texts import of_form
from tools.model.trees import Journal

TABLE, BASE = Rows("logs", data=from_hex), b"/base"
JOURNAL = Journal(BASE)
ABCD = b"ABCDEFGHIJKLMNOPQRST"


def logged(puts):
    return JOURNAL.log_of(JOURNAL.numbered(puts))


def written(puts):
    """Puts that are written, and their log, which is read."""
    yield from (("encode", puts), ("decode", BASE, logged(puts)))


def file_of(place, size=0, name=ABCD, mode=0o600):
    return "staged", mode, place, size, name


# ---- cases worked by hand: the rows of logs.txt, each with what is wanted behind ` > `

def wanted_of(kind):
    return [row.split(" > ") for row in TABLE.rows(kind)]


(KINDS, LOG), (MIXED_PUTS, MIXED) = [(TABLE.nodes(puts), TABLE.word(log)) for puts, log in wanted_of("puts and their log")]
ABC_FILE = ("file", 0o644, b"abc")
is_log = of_form(JOURNAL.read_log)


def long_path(length):
    """A path of so many bytes, in parts of 199 bytes."""
    return b"".join(b"b" if place % 200 else b"/" for place in range(length))


def held(answer, wanted):
    assert answer == wanted, (answer, wanted)


def by_hand():
    """The log of one put of each kind and of none, written and read; logs that are none; what a log can name, and what its puts may be;
    the numbers of files between staged ones, and the last names and the numbers of these; paths of staged files, also where private
    directories are so long that some numbers have none."""
    for puts, log in ((KINDS, LOG), ([], JOURNAL.MAGIC + item(JOURNAL.END, bytes(4)))):
        held((logged(puts), JOURNAL.read_log(log)), (log, puts))
        yield from [("encode", puts), ("decode", BASE, log)]
    for data, good in wanted_of("read"):
        held(is_log(TABLE.word(data)), good == "a log")
        yield "decode", BASE, TABLE.word(data)
    for two, named in wanted_of("named"):
        base, path = map(str.encode, two.split(" "))
        held(Journal(base).can_be_named(path), named == "yes")
        yield "named", base, [path]
    held((JOURNAL.keeps_rules(KINDS), Journal(b"/a/c").keeps_rules(KINDS)), (True, False))
    yield from [("rules", BASE, KINDS), ("rules", b"/a/c", KINDS), ("contains", KINDS, [b"/a/c", BASE]), ("encode", KINDS[::-1])]
    names = list(map(TABLE.word, TABLE.rows("kept")[0].split()))
    held((logged(MIXED_PUTS), [name for name in names if name in JOURNAL.kept(MIXED_PUTS)]), (MIXED, [b"0", b"2"]))
    yield from [("encode", MIXED_PUTS), ("decode", BASE, MIXED), ("kept", MIXED_PUTS, names), ("numbers", MIXED_PUTS, [2, 3])]
    for directory, number, path in ((b"/base/p", 4_294_967_295, b"/base/p/4294967295"), (b"/p", 0, b"/p/0")):
        held(Journal(directory[:-2]).staged_path(number), path)
        yield "staged", directory, [number]
    for two, stands in wanted_of("long"):
        length, number = map(int, two.split(" "))
        base = long_path(length)
        held(is_path(Journal(base).staged_path(number)), stands == "yes")
        yield from (("is_staged", base, [number]), ("staged", base + b"/p", [number]))


def changed_logs():
    """Every beginning of the two logs, and what has a byte behind it. Each byte of them changed: the next and the last number, with another
    lowest or highest bit, and three bytes that tell. Then each byte of the first log taken out, and each twice."""
    for data in (LOG, MIXED):
        yield from (data[:length] for length in range(len(data)))
        yield from (data + bytes([byte]) for byte in (0, 0x30, 0x3F))
        yield data + data
    for data in (LOG, MIXED):
        for place, byte in enumerate(data):
            others = {(byte + 1) % 256, byte ^ 0x10} | ({(byte - 1) % 256, byte ^ 0x80, 47, 0, 97} if data is LOG else set())
            yield from (data[:place] + bytes([other]) + data[place + 1 :] for other in sorted(others - {byte}))
    for place in range(len(LOG)):
        yield from (LOG[:place] + LOG[place + 1 :], LOG[: place + 1] + LOG[place:])


WANTS = [None, ("dir", 0o755), ABC_FILE, ("link", b"b"), file_of(1, 5, mode=0o4755)]
# What stands between a put at `/a` and one below it, and the path of that one.
BETWEEN = [([], b"/a/b"), ([], b"/a/b/c"), ([], b"/a/b/c/d"), ([], b"/a/b/c/d/e"), ([(b"/a-b", None)], b"/a/b")]
BETWEEN += [([(b"/a-b", None)], b"/a/b/c/d"), ([(b"/a/b", None)], b"/a/b/c"), ([(b"/a/b", ("dir", 0))], b"/a/b/c")]


def orders():
    """Puts of the five kinds in each order, written; and read, the file staged. Each kind below each other one, directly and further down,
    with a path that stands between them in path order and without. Puts by chance. Paths that rise and that don't, by the order of bytes."""
    for wants in itertools.permutations(WANTS):
        puts = list(zip([b"/a", b"/b", b"/c", b"/d", b"/e"], wants))
        encode, decode = written(puts)
        yield from [encode, ("rules", BASE, puts), decode, ("rules", BASE, JOURNAL.numbered(puts))]
    some = itertools.product(WANTS, WANTS, BETWEEN)
    some = [JOURNAL.numbered([(b"/a", above), *between, (last, below)]) for above, below, (between, last) in some]
    # Only `/a/c` of these is below `/a`.
    some += [[(b"/a", ("link", b"b")), (last + b"c", ("dir", 0o700))] for last in (b"/a!", b"/a-", b"/a/", b"/a0", b"/ab")]
    for puts in some:
        yield from [("rules", BASE, puts), ("decode", BASE, JOURNAL.log_of(puts))]
    for puts in map(TABLE.nodes, TABLE.rows("puts by chance")):
        yield from [("rules", BASE, puts), *written(puts)]
    paths = [b"/", b"/a", b"/a b", b"/a-b", b"/a/b", b"/a0", b"/aa", b"/b", b"/\xc3\xa9", b"/\xf0\x9f\x98\x80"]
    for two in itertools.product(paths, paths):
        yield from written([(path, None) for path in two])
    for three in itertools.permutations([b"/a", b"/a-b", b"/a/b"]):
        yield from written([(path, ("dir", 0o755)) for path in three])


# ---- the rows of logs_made.txt: a call and its arguments

def path(text):
    """`@` and a number stand for a path of so many bytes."""
    length, slash, last = text[1:].partition("/")
    return long_path(int(length)) + (slash + last).encode() if text.startswith("@") else TABLE.word(text)


def several(read):
    return lambda text: list(map(read, text.split()))


READ = {
    "encode": [TABLE.nodes], "decode": [path, from_hex], "rules": [path, TABLE.nodes], "named": [path, several(path)],
    "contains": [TABLE.nodes, several(path)], "kept": [TABLE.nodes, several(path)], "numbers": [TABLE.nodes, several(int)],
    "staged": [path, several(int)], "is_staged": [path, several(int)],
}  # fmt: skip


def made():
    for call, *fields in (row.split(" | ") for row in Rows("logs_made").rows()):
        yield call, *(read(field) for read, field in zip(READ[call], fields))


def cases():
    """All calls with their arguments."""
    for some in (by_hand, changed_logs, orders, made):
        yield from (("decode", BASE, one) if isinstance(one, bytes) else one for one in some())
