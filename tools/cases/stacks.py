"""Lines of root_lines on rollback stacks: calls, and what they have to answer.

The answers come from tools/model/stacks.py, a reading of docs/ by the files of a root; the roots from tools/model/root.py, which keeps whole trees
and whole lists. What both make of a job is compared. None of them shares anything with the program."""
import itertools

from tools.cases.rows import Rows
from tools.cases.states import (
    BASE, BY_HAND_2, DATABASE, ETC, FIXED, FOO, FOO_2, ONE, RECORD_BY_HAND, TWO, V2, stashable_lines, tree_text, trove,
)  # fmt: skip
from tools.lines.words import answered, bytes_word, line, placed, standing, tree_word
from tools.model import stacks
from tools.model.records import (
    CAME, LISTED, NOTHING, TURNED, WAS, Db, Record, content_path, database_bytes, mark_of, read_record, record_bytes, record_path,
    saved_path, sha,
)  # fmt: skip
from tools.model.relatives import relative_of
from tools.model.root import PINNED, Root
from tools.model.runs import PICKS
from tools.model.stacks import file
from tools.model.streams import Id, Owner, directory, file_of, id_text
from tools.model.trees import DIR

# ---- calls

def ids_text(name, troves, others=()):
    """The ids of the troves that aren't among the others."""
    return " ".join([name] + [id_text(trove.identity).decode() for trove in troves if trove not in others])


def puts_text(puts):
    return "".join(["puts"] + [f"; {placed(path, node)}" for path, node in sorted(puts.items())])


def back_text(puts, db):
    return f"{puts_text(puts)}\t{ids_text(f'db {db.oldest} {db.newest}', db.troves)}"


def note_text(job):
    return f"{job.number} {ids_text('before', job.before, job.after)} {ids_text('after', job.after, job.before)} paths {len(job.changes)}"


def nodes_of(root):
    return {b"/": DIR, **root.nodes()}


def db_of(root):
    return Db(root.troves, *root.numbers())


def called(call, fails, arguments, made, *given):
    """A call whose disk fails, or doesn't."""
    return line(call, fails, *arguments), "failed" if fails else answered(made, *given)


def push_line(root, troves, targets, fails=0):
    """What comes before the write of a job is made, and its record told."""
    after, paths = root.job(troves, targets), root.changed(targets)
    olds = [root.outer.get(path) for path in paths]
    changes = [(path, mark_of(node), mark_of(targets[path])) for path, node in zip(paths, olds)]
    puts, nodes = stacks.push(nodes_of(root), db_of(after), root.troves, changes, olds)
    written = {**nodes, **puts, **targets, DATABASE: file(database_bytes(2, *db_of(after)))}
    assert {path: node for path, node in written.items() if node is not None} == nodes_of(after)
    answer = f"failed\t{standing(nodes_of(root))}" if fails else f"{puts_text(puts)}\t{standing(nodes)}"
    return line("push", fails, tree_word(root.nodes()), tree_word(after.nodes())), answer


# What reads a root: all jobs, and what takes those down to a number back.
READERS = {
    "all": lambda nodes, db: "\t".join(["notes", *map(note_text, stacks.jobs_of(nodes, db))]),
    "back": lambda nodes, db, number: back_text(*stacks.inverse_to(nodes, db, number)),
}


def read_line(call, root, *more, fails=0):
    return called(call, fails, [tree_word(root.nodes()), *more], lambda: READERS[call](nodes_of(root), db_of(root), *more))


def newest_line(root):
    """What takes the newest job back; the stack is empty where the root has none."""
    return read_line("back", root, root.numbers()[1])


def migrated_line(nodes, fails=0):
    def made():
        puts = stacks.migrated({**FIXED, **nodes})
        return "none" if puts is None else puts_text(puts)

    return called("migrated", fails, [tree_word(nodes)], made)


# ---- histories

OWNED = trove(b"web:runtime", (b"/srv", directory(0o755, Owner(b"web", b"www"))))
ABX, NEW, SAVED = file(b"abX"), Root(), content_path(2, sha(b"abX"))
TABLE = Rows("stacks", globals())
EMPTY_FILE, FOO_AGAIN, BAR, SUB = TABLE.named("EMPTY_FILE FOO_AGAIN BAR SUB")
INSTALL, ABCD, ERASE = map(dict, TABLE.named("INSTALL ABCD ERASE"))


def job_of(step):
    """The troves after a job, and what is to stand then."""
    troves, _, nodes = step.removeprefix("job ").partition("; ")
    return TABLE.named(troves), dict(TABLE.nodes(nodes))


def grown(start, *steps):
    """A root after jobs, and after edits of others."""
    root = TABLE.names[start]
    for step in steps:
        root = root.edits(*TABLE.nodes(step.removeprefix("edit "))) if step.startswith("edit ") else root.job(*job_of(step))
    return root


for name, *history in TABLE.fields("roots"):
    TABLE.names[name] = grown(*history)
# The component, an edit of its file, and the update that replaces the edit; jobs that make directories of files and files of directories,
# and links; a directory that two troves record with two modes.
HISTORIES = TABLE.named("INSTALLED RESTORING SAME_ID ERASED WITH_KINDS TWO_OWNERS WITH_OWNER")
INSTALLED, RESTORING, SAME_ID, ERASED, WITH_KINDS, _, _ = HISTORIES
EMPTY_ROOTS = [Root(), Root(troves=[FOO]).with_database()]

# ---- jobs

def push_lines():
    # What stands at the names is cleared, whatever it is.
    yield from (push_line(grown(start, *steps[:-1]), *job_of(steps[-1])) for start, *steps in TABLE.fields("pushed"))
    # The oldest job is dropped: what is cleared is the number two below the oldest that is left.
    names = {BASE: DIR}
    for number in (1, 2, 3, 4_094, 4_095, 4_096, 4_097, 4_098, 4_099):
        names |= {record_path(number): file(b"r"), saved_path(number): DIR, saved_path(number) + b"/c": file(b"c")}
    for numbers in ((1, 4_095), (1, 4_096), (2, 4_097), (3, 4_098), (2, 5), (3, 5), (4, 4)):
        yield push_line(Root().edits(*names.items()).numbered(*numbers), [FOO], INSTALL)
    yield push_line(Root(), [FOO], INSTALL, fails=1)
    yield from (read_line("all", root) for root in EMPTY_ROOTS + HISTORIES)
    yield from (read_line("all", root, fails=fails) for root in (INSTALLED, RESTORING) for fails in (1, 2, 3))


def back_lines():
    """Rows of a root, edits, the numbers down to which jobs are taken back, and the calls of the disk that fail."""
    roots = {**TABLE.names, "LISTED": EMPTY_ROOTS[1], "DROPPED": ERASED._replace(jobs=ERASED.jobs[1:]).with_database()}
    for name, edits, numbers, failing in (row.split(" | ") for row in TABLE.rows("taken back")):
        root = roots[name].edits(*TABLE.nodes(edits))
        yield from (read_line("back", root, int(number), fails=int(fails)) for number in numbers.split() for fails in failing.split())
    # Jobs that meet at a path, and edits between them, which count against the first job alone; paths that came and went; an older record
    # that is damaged, and its content, for which the newer job comes first; and a parent that goes, in which a file stood.
    for root in (grown(*history) for history in TABLE.fields("several jobs")):
        yield from (read_line("back", root, number) for number in range(1, root.numbers()[1] + 1))


# ---- damage

def damaged_records():
    """Records of the second job that aren't in the grammar, or fail a cross-check."""
    text = RESTORING.own[record_path(2)][2]
    good = read_record(text, 2)
    yield from [b"", record_bytes(good, 1), text[:-1]]
    again = FOO_AGAIN._replace(identity=FOO_2.identity)
    bare, no_file = BAR._replace(identity=FOO_2.identity), FOO_2._replace(identity=Id(b"nil:runtime", V2, b""))
    # Deltas that lead to no list.
    deltas = [[], *([(CAME, one.identity)] for one in (FOO, FOO_2)), [(CAME, BAR.identity)] + good.deltas]
    deltas += [[(WAS, one)] for one in (FOO, FOO_2, again)]
    deltas += [[(TURNED, relative_of(*two))] for two in ((FOO, FOO_2), (bare, FOO), (no_file, EMPTY_FILE))]
    # Lists that may not be installed.
    deltas.append(good.deltas + [(WAS, SUB)])
    deltas += [[(WAS, one)] + good.deltas for one in TABLE.named("ON_FILE ON_DIR ON_BASE LINK_VAR DIR_VAR")]
    # Fingerprints: `=` exactly where the list records it.
    foo, abc = good.entries[0], mark_of(file(b"abc"))
    marks = itertools.product((LISTED, NOTHING, abc, mark_of(ABX), DIR), (LISTED, NOTHING, abc, mark_of(file(b"abcd")), ("link", b"x")))
    entries = [[(b"/etc/foo", *two)] for two in marks]
    entries += [[(b"/new", *two)] for two in ((NOTHING, LISTED), (LISTED, NOTHING), (NOTHING, DIR))]
    # Paths that no job changes.
    entries += [[(path, NOTHING, DIR)] for path in (BASE, DATABASE, b"/", b"/var", b"/var/lib", b"/var/lib/conarydb-other")]
    entries += [[foo, (b"/new", NOTHING, NOTHING)], []]
    some = [{"number": 1}, {"number": 3}, *({"deltas": one} for one in deltas), *({"entries": one} for one in entries)]
    yield from (record_bytes(good._replace(**fields), 2) for fields in some)


def damage_lines():
    root, link_1 = RESTORING, ("link", b"r.1")
    for text in damaged_records():
        damaged = root.edit(record_path(2), file(text))
        yield from [newest_line(damaged), read_line("all", damaged), read_line("back", damaged, 1)]
    # What stands is what the record tells of a path after the job: the writes are by what it tells of it before.
    good = read_record(root.own[record_path(2)][2], 2)
    files = itertools.product((LISTED, NOTHING, mark_of(ABX), DIR), (None, file(b"abc"), ("link", b"x")))
    others = [(path, NOTHING, DIR) for path in (b"/new", b"/var/lib/conarydb-other")]
    for path, was, node in [*((b"/etc/foo", *two) for two in files), *others]:
        text = record_bytes(good._replace(entries=[(path, was, mark_of(node))]), 2)
        yield newest_line(root.edit(record_path(2), file(text)).edit(path, node))
    for node in (None, DIR, link_1):
        yield from (newest_line(root.edit(record_path(2), node)), read_line("all", root.edit(record_path(1), node)))
        yield newest_line(root.edit(record_path(1), node))
    for node in TABLE.all_nodes("a damaged saved content"):
        yield from [read_line("all", root.edit(SAVED, node)), newest_line(root.edit(SAVED, node))]
    yield newest_line(root.edit(SAVED).edit(saved_path(2)))
    # The first content that is damaged, in path order.
    two, gone = TABLE.named("TWO_FILES TWO_SAVED")
    first, second = (content_path(1, sha(data)) for data in (b"1", b"2"))
    yield from map(newest_line, (gone, gone.edit(second), gone.edit(first).edit(second)))
    # So it is also where the first path is that of the newer of two jobs, and where it is that of the older one.
    for older, newer in ((b"/b", b"/a"), (b"/a", b"/b")):
        both = two.job([EMPTY_FILE], {older: file(b"3"), b"/nil": file(b"")}).job([EMPTY_FILE], {newer: file(b"4")})
        yield read_line("back", both, 1)
        contents = [content_path(number, sha(two.outer[path][2])) for number, path in ((1, older), (2, newer))]
        yield from (read_line("back", one, 1) for one in (*map(both.edit, contents), both.edit(contents[0]).edit(contents[1])))
    # An older record is read against what the newer one gives back.
    yield from (read_line("all", ERASED.edit(record_path(number), file(b"damaged"))) for number in (1, 2, 3))
    yield read_line("all", ERASED.edit(record_path(3), ERASED.own[record_path(2)]).edit(record_path(2), ERASED.own[record_path(3)]))


# ---- format 1

# By hand: after one job, and its record; then after the second job, which replaced an edit of the file by the file of another version, and
# the record of that job, in format 1 and in format 2.
OLD_DATABASE_BY_HAND = TABLE.by_hand("database of format 1 after one job")
OLD_RECORD_BY_HAND = RECORD_BY_HAND.replace(b"CNYRB02", b"CNYRB01")
OLD_DATABASE_2_BY_HAND = TABLE.by_hand("database of format 1 after the second job")
OLD_RECORD_2_BY_HAND = TABLE.by_hand("record of format 1 of the second job")
RECORD_2_BY_HAND = TABLE.by_hand("record of the second job")
CUT_DATABASE, OWNED_DATABASE = OLD_DATABASE_BY_HAND[:-1], database_bytes(1, [OWNED], 0, 0)

# The roots of format 1 with the job of the component, and after an edit and the update that replaced it, from bytes written by hand.
OLD = {**PINNED, BASE: DIR, DATABASE: file(OLD_DATABASE_BY_HAND), record_path(1): file(OLD_RECORD_BY_HAND), **INSTALL}
OLD_EDITED = {**OLD, DATABASE: file(OLD_DATABASE_2_BY_HAND), record_path(2): file(OLD_RECORD_2_BY_HAND), saved_path(2): DIR}
OLD_EDITED |= {SAVED: file(b"abX", 0o600), **ABCD}


def old_roots():
    yield from [OLD, OLD_EDITED, stacks.in_format_1(ERASED.nodes())]
    yield stacks.in_format_1(Root().job([BAR, FOO], {**INSTALL, b"/etc/bar": ("link", b"foo")}).nodes())
    yield from ({**FIXED, DATABASE: file(database_bytes(1, troves, 0, 0))} for troves in ([], [FOO]))


def migration_lines():
    yield from (migrated_line(nodes, fails) for nodes in old_roots() for fails in (0, 1, 2))
    yield from (migrated_line(root.nodes()) for root in HISTORIES)
    yield from [migrated_line(PINNED), migrated_line({**PINNED, BASE: file(b"")})]
    texts = TABLE.all_bytes("databases that aren't brought to format 2")
    yield from (migrated_line({**OLD_EDITED, DATABASE: node}) for node in [*map(file, texts), DIR, ("link", b"db")])
    for path in map(record_path, (1, 2)):
        record = OLD_EDITED[path][2]
        nodes = (DIR, file(record[:-1]), file(record.replace(b"CNYRB01", b"CNYRB02")))
        yield migrated_line({other: node for other, node in OLD_EDITED.items() if other != path})
        yield from (migrated_line({**OLD_EDITED, path: node}) for node in nodes)
    owned = relative_of(FOO_2, trove(b"foo:runtime", ETC, (b"/etc/foo", file_of(b"abc", owner=Owner(b"web", b"www")))))
    yield migrated_line({**OLD_EDITED, record_path(2): file(record_bytes(Record(2, [(TURNED, owned)], []), 1))})
    # Stopped after each number of calls, of which the greatest is enough for all of it, and begun again after a crash.
    for nodes in (OLD, OLD_EDITED):
        after = standing({**nodes, **stacks.migrated({**FIXED, **nodes})})
        yield from ((line("within", tree_word(nodes), calls), end) for calls, end in ((0, "failed"), (59, "ended")))
        yield from ((line("migrate", pick, tree_word(nodes), calls), after) for calls in range(60) for pick in PICKS)


def next_lines():
    for numbers, answer in TABLE.fields("next numbers"):
        yield line("next", bytes_word(database_bytes(2, [], *map(int, numbers.split())))), answer


def lines():
    assert INSTALLED.own[record_path(1)][2] == RECORD_BY_HAND
    records = [read_record(root.own[record_path(2)][2], 2) for root in (RESTORING, SAME_ID)]
    assert [[tag for tag, _ in record.deltas] for record in records] == [[TURNED], [WAS]]
    assert RESTORING.own[SAVED] == file(b"abX", 0o600)
    assert OLD_DATABASE_BY_HAND == database_bytes(1, [FOO], 1, 1)
    assert stacks.in_format_1(RESTORING.nodes()) == OLD_EDITED
    assert stacks.migrated(OLD) == {DATABASE: file(BY_HAND_2), record_path(1): file(RECORD_BY_HAND)}
    assert stacks.migrated(OLD_EDITED)[record_path(2)] == file(RECORD_2_BY_HAND) == RESTORING.own[record_path(2)]
    return itertools.chain(push_lines(), back_lines(), damage_lines(), migration_lines(), next_lines(), stashable_lines(TABLE))


def large_root(troves, jobs, changed, files):
    """The nodes of a root with so many troves of so many files, of which each job turned so many into others, with one file of each."""

    def trove_at(place, revision):
        some = [(b"/usr/share/%05d/%03d" % (place, at), file_of(b"%d" % (0 if at else revision))) for at in range(files)]
        return trove(b"name%05d:runtime" % place, *some, version=b"/conary.example.com@ex:devel/1.0-%d-1" % (revision + 1))

    revisions, nodes = [0] * troves, {BASE: DIR}
    for number in range(1, jobs + 1):
        deltas, entries = [], []
        for place in sorted((number * changed + at) % troves for at in range(changed)):
            revisions[place] += 1
            now = trove_at(place, revisions[place])
            deltas.append((TURNED, relative_of(now, trove_at(place, revisions[place] - 1))))
            entries.append((now.files[0][0], LISTED, LISTED))
        nodes[record_path(number)] = file(record_bytes(Record(number, deltas, entries), 2))
    nodes[DATABASE] = file(database_bytes(2, [trove_at(place, revisions[place]) for place in range(troves)], 1, jobs))
    return tree_text(nodes)
