"""Lines of root_lines on databases, rollback records, saved contents and jobs that are taken back: calls, and what they have to answer.

The answers come from tools/model/records.py and tools/model/stacks.py, readings of docs/FORMATS.md that share nothing with the program."""
import itertools

from tools.cases.rows import LABEL, ONE, OTHER as TWO, Rows
from tools.lines.words import answered, bytes_word, line, node_word, placed, rows_of, tree_word
from tools.model import stacks
from tools.model.records import (
    BASE, CAME, DATABASE, EMPTY, LISTED, MAGIC, NOTHING, NUMBER, TURNED, WAS, Db, Record, content_path, database_bytes, delta_bytes, entry_bytes, four,
    mark_of, read_database, read_record, record_bytes, saved_path, sha,
)  # fmt: skip
from tools.model.relatives import relative_of
from tools.model.stacks import file
from tools.model.streams import Owner, directory, file_of, id_bytes, id_text, item, relative_bytes, trove_bytes, trove_of
from tools.model.trees import DIR, Refused

# The directories in which a root has its files.
FIXED = {path: DIR for path in (b"/", b"/var", b"/var/lib", BASE)}


def tree_text(nodes):
    return tree_word({**FIXED, **nodes})


# ---- databases

V1, V2 = b"/" + LABEL + b"/1.0-1-1", b"/" + LABEL + b"/2.0-1-1"
OTHER = Owner(b"web", b"www")
ABC = file_of(b"abc")
ETC = (b"/etc", directory(0o755))
# Two contents of one SHA-1.
ABC_NAME, CUT_NAME = sha(b"abc"), sha(b"abc")[:-1]


def trove(name, *files, version=V1):
    return trove_of(name, version, files)


OWNED = trove(b"web:runtime", (b"/etc", directory(0o755, OTHER)), (b"/srv", file_of(b"abc", 0o600, 1, OTHER)))
TABLE = Rows("states", globals())
FOO, FOO_2, BAR, PACKAGE = TABLE.named("FOO FOO_2 BAR PACKAGE")

# The bytes of a database with the one component `foo:runtime`, `/etc` and `/etc/foo`, after one job; written by hand.
BY_HAND_2 = TABLE.by_hand("database of the component after one job")


def databases(topic):
    """Formats of databases, and what they have: the troves, and the numbers of jobs."""
    return [(int(kind), TABLE.named(troves), *map(int, numbers.split())) for kind, troves, numbers in TABLE.fields(topic)]


def db_text(db):
    text = database_bytes(2, *db)
    ids = "".join(" " + id_text(trove.identity).decode() for trove in db.troves)
    return f"{db.oldest} {db.newest}{ids}\t{len(text)} {sha(text).hex()}"


def decode(text):
    return answered(lambda: db_text(read_database(text)))


def load_line(node):
    """The database where this stands at its name."""
    answer = db_text(EMPTY) if node is None else decode(node[2]) if node[0] == "file" else "bad"
    nodes = {} if node is None else {DATABASE: node}
    return line("load", 0, tree_text(nodes)), f"damaged {DATABASE.decode()}" if answer == "bad" else answer


def decode_line(text):
    return line("decode", bytes_word(text)), decode(text)


def database_lines():
    yield decode_line(BY_HAND_2)
    yield from ((line("encode", bytes_word(text)), BY_HAND_2.hex()) for text in (database_bytes(1, [FOO], 1, 1), BY_HAND_2))
    # No trove, a component, several, a directory of two troves, a full stack, one that dropped jobs, a name below another one.
    for row in databases("databases"):
        yield from (decode_line(database_bytes(*row)), load_line(file(database_bytes(*row), 0o600)))
    yield decode_line(database_bytes(2, [trove(b"a:b", (b"/var/lib", directory(0o700)))], 1, 1))
    yield from map(load_line, (None, ("dir", 0o600), ("link", b"elsewhere")))
    yield line("load", 1, tree_word(FIXED)), "failed"
    for text in map(TABLE.bytes, TABLE.steps(rows_of(TABLE.topics, "databases that are none"))):
        yield decode_line(text)
        if len(text) % 16 == 0 or len(text) > 180:
            yield load_line(file(text, 0o600))


# ---- rollback records

# The record of the job that installed the component `foo:runtime` with `/etc` and `/etc/foo`; written by hand.
RECORD_BY_HAND = TABLE.by_hand("record of the job that installed the component")
EDITED = ("file", 0o644, 3, sha(b"abX"))
UPDATE = (TURNED, relative_of(FOO_2, FOO))
MARKS = [NOTHING, LISTED, ("dir", 0o7777), ("dir", 0), EDITED, ("file", 0, 4_294_967_295, ABC_NAME), ("link", b"x"), ("link", b"y" * 1_024)]

# Formats, and records that they have.
RECORDS = [(2, Record(1, [(CAME, FOO.identity)], [(b"/etc", NOTHING, LISTED), (b"/etc/foo", NOTHING, LISTED)]))]
RECORDS += [(kind, Record(2, [UPDATE], [(b"/etc/foo", EDITED, LISTED)])) for kind in (2, 1)]
RECORDS += [(1, Record(2, [(WAS, FOO)], [(b"/etc/foo", LISTED, NOTHING)])), (2, Record(2, [(WAS, OWNED)], []))]
RECORDS += [(2, Record(4_294_967_295, [], [])), (2, Record(0, [(CAME, BAR.identity), (WAS, PACKAGE), (WAS, FOO)], []))]
RECORDS += [(2, Record(7, [], [(b"/%02d" % at, MARKS[at // 8], MARKS[at % 8]) for at in range(64)]))]


# What stands in rows of bytes that are no record.
UPDATE_RECORD, FULL_FOO, ID_FOO = record_bytes(RECORDS[1][1], 2), trove_bytes(FOO, True), id_bytes(FOO.identity)
HEAD, CAME_BAR, WAS_FOO = MAGIC[2] + item(NUMBER, four(1)), delta_bytes((CAME, BAR.identity), 2), delta_bytes((WAS, FOO), 2)
AT_ETC, AT_FOO = (entry_bytes((path, NOTHING, LISTED)) for path in (b"/etc", b"/etc/foo"))
FULL_UPDATE, COMPACT_UPDATE = relative_bytes(UPDATE[1], True), relative_bytes(UPDATE[1], False)
OWNED_UPDATE = relative_bytes(relative_of(FOO_2._replace(identity=OWNED.identity._replace(version=V2)), OWNED), False)


def delta_text(tag, value):
    if tag == TURNED:
        return f"turned {id_text(value.old).decode()} {id_text(value.new).decode()}"
    return "came " + id_text(value).decode() if tag == CAME else "was " + id_text(value.identity).decode()


def record_line(kind, text):
    def made():
        record = read_record(text, kind)
        entries = (f"{path.decode()} from {node_word(before)} to {node_word(after)}" for path, before, after in record.entries)
        return line(record.number, *(delta_text(*delta) for delta in record.deltas), *entries)

    return line("record", kind, bytes_word(text)), answered(made)


def record_lines():
    texts = [(kind, record_bytes(one, kind), record_bytes(one, 2)) for kind, one in RECORDS]
    for kind, text, again in [*texts, (2, RECORD_BY_HAND, RECORD_BY_HAND)]:
        yield from (record_line(kind, text), (line("rewritten", kind, bytes_word(text)), again.hex()))
    for kind, _, text in (row.partition(" ") for row in TABLE.steps(rows_of(TABLE.topics, "records that are none"))):
        yield record_line(int(kind), TABLE.bytes(text))


# ---- saved contents

def entries_word(job):
    """The paths of a job, each with what it found there and the fingerprint of what it left."""
    return ";".join(f"{placed(path, was, bytes_word)}|{node_word(now)}" for path, was, now in job)


def stashable_lines(table):
    """Contents that are to be saved at once."""
    for nodes in ([], *([table.node(part) for part in row.split("; ")] for row in table.topics["contents"])):
        answer = answered(lambda: stacks.check_stashable(nodes) or "ok")
        yield line("stashable", entries_word([(b"/%02d" % at, node, NOTHING) for at, node in enumerate(nodes)])), answer


def old_line(nodes, number, mark):
    return line("old", 0, tree_text(nodes), number, node_word(mark)), answered(lambda: node_word(stacks.old_node(nodes, number, mark)))


def saved_lines():
    yield from stashable_lines(TABLE)
    target, abx, none = ("link", b"x"), file(b"abX"), file(b"")
    number, mark = 4_294_967_295, mark_of(abx)
    place = content_path(number, sha(b"abX"))
    good = {saved_path(number): DIR, place: file(b"abX", 0o600), content_path(number, sha(b"")): file(b"", 0o777)}
    for one in (NOTHING, ("dir", 0), ("dir", 0o7777), target, mark, mark_of(file(b"abX", 0o4755)), mark_of(none), mark_of(file(b"other"))):
        yield from [old_line(good, number, one), old_line({}, 1, one), old_line(good, 1, one)]
    yield from (old_line({**good, place: node}, number, mark) for node in TABLE.all_nodes("damaged contents"))
    yield old_line(good, number, ("file", 0o644, 4, sha(b"abX")))
    yield from ((line("old", fails, tree_text(good), number, node_word(mark)), "failed") for fails in (1, 2))


# ---- jobs taken back

def undo_line(nodes, newest, *jobs, fails=0):
    """The jobs, the newest first, are lists of a path, what the job found there and the fingerprint of what it left."""
    answer = "1\tfailed" if fails else undo({**FIXED, **nodes}, newest, jobs)
    return line("undo", fails, tree_text(nodes), newest, *map(entries_word, jobs)), answer


def undo(nodes, newest, jobs):
    marks, found = stacks.marks_of(nodes), {}
    for number, job in zip(range(newest, 0, -1), jobs):
        changes = [(path, mark_of(was), now) for path, was, now in job]
        try:
            marks = stacks.undone(marks, changes)
        except Refused as why:
            return f"{number}\t{why}"
        found.update({path: (number, was) for path, was, _ in changes})
    return "\t".join(["ok"] + [f"{number} {placed(path, was)}" for path, (number, was) in sorted(found.items())])


def change_of(words):
    """What a job found, and the fingerprint of what it left."""
    was, now = map(TABLE.node, words.split(" to "))
    return was, mark_of(now)


def undo_lines():
    """Rows of nodes, the newest number, the call of the disk that fails, and jobs, the newest first. Most were drawn by chance; in others a job takes
    names away, and then an edit the directories of some of them."""
    for nodes, newest, fails, *jobs in TABLE.fields("jobs taken back"):
        changes = [[(path, *change) for path, change in TABLE.nodes(job, change_of)] for job in jobs]
        yield undo_line(dict(TABLE.nodes(nodes)), int(newest), *changes, fails=int(fails))


def lines():
    assert RECORD_BY_HAND == record_bytes(RECORDS[0][1], 2)
    assert read_database(BY_HAND_2) == Db([FOO], 1, 1) and BY_HAND_2 == database_bytes(2, [FOO], 1, 1)
    return itertools.chain(database_lines(), record_lines(), saved_lines(), undo_lines())
