"""Lines of root_lines on jobs on roots: trees in memory with calls, and what comes of each.

A line has what is done, what it shows, the nodes of the root, and calls. `run` makes the calls one after the other; `stop` cuts one off after each
number of calls of the disk, takes the crash that a number picks, makes the root ready and makes the call again; `fail` lets each call of the disk
fail in turn; `seen` tells what others read at paths meanwhile. The answers come from tools/model/root.py, which shares nothing with the program
that is tested. A row is a line of `run`: what it shows, the root, and calls. Most rows are those of systems.txt."""
import itertools

from tools.cases.jobs import collection, component
from tools.cases.rows import Rows, content
from tools.cases.stacks import OLD_DATABASE_2_BY_HAND, OLD_RECORD_2_BY_HAND, OLD_RECORD_BY_HAND
from tools.lines.system_lines import (
    ROLLBACK, Call, Edit, adopt, damaged, erase, fail_line, rollback, run_line, seen_line, stop_lines, unready_failures, unready_line,
    update, verify,
)  # fmt: skip
from tools.lines.words import bytes_word
from tools.model.records import BASE, DATABASE, record_path
from tools.model.root import Root, cut_off
from tools.model.runs import PICKS
from tools.model.stacks import file, in_format_1
from tools.model.streams import Owner, directory, file_of, trove_bytes
from tools.model.trees import DIR

TABLE = Rows("systems", data=content)

# ---- troves and roots

REPLACE, FOO, RUNTIME = ("replace",), b"/etc/foo", b"foo:runtime"


def trove(name, files=(), revision=b"1.0-1-1", requires=(), **more):
    return component(name, *requires, revision=revision, files=dict(files).items(), **more)


def after(system, *calls):
    for call in calls:
        system, _ = call.on(system)
    return system


EMPTY, TROVES = Root(), {}


def trove_of_row(head, *rest):
    name, *revision = (word.encode() for word in head.split())
    told = {word: [one.partition(" ")[2].encode() for one in rest if one.startswith(word)] for word in ("requires", "provides", "of")}
    if told["of"]:
        troves = (TROVES[one.decode()] for one in told["of"][0].split())
        return collection(name, *troves, **({"revision": revision[0]} if revision else {}))
    files = TABLE.nodes(";".join(one for one in rest if not one.startswith(("requires", "provides"))), TABLE.record)
    return trove(name, files, *revision, requires=told["requires"], gives=told["provides"])


for made, text in (row.split(" = ") for row in TABLE.rows("named troves")):
    TROVES[made] = trove_of_row(*text.split("; "))
CALLS = dict(row.split(" = ") for row in TABLE.topics["calls"])


def call_of(text, staged=False):
    """A call that is named so, or written out: with the troves, names or number it takes, its contents, staged or not, and its options."""
    said, *more = CALLS.get(text, text).split(", ")
    what, *words = said.split()
    given = dict(one.partition(" ")[::2] for one in more)
    contents, far = list(map(content, given.pop("carried", "").split())), given.pop("far", "")
    far = far if far in ("fails", "damaged") else list(map(content, far.split()))
    if what == "edit":
        return Edit(*TABLE.nodes(said[5:])[0])
    if what == "numbered":
        # A stack of jobs of which nothing stands.
        return Call(text, lambda system: (system.numbered(*map(int, words)).with_database(), "numbered"))
    if what == "rollback":
        return rollback(*map(int, words))
    if what == "damaged":
        return damaged(call_of(" ".join(words[1:])), words[0].encode())
    if what == "update":
        return update([TROVES[word] for word in words], contents, far, tuple(given), staged)
    if what == "adopt":
        return adopt([TROVES[word] for word in words], far, tuple(given))
    names = [word.encode() for word in words]
    return verify(names, far) if what == "verify" else erase(names, tuple(given))


def system_of(text):
    """A system that is named so, after calls."""
    named, *calls = text.split(" > ")
    return after(SYSTEMS[named], *map(call_of, calls))


def rows(topic, staged=False):
    for label, system, *calls in (row.split(" | ") for row in TABLE.rows(topic)):
        yield label, system_of(system), *(call_of(call, staged) for call in calls)


SYSTEMS = {"EMPTY": EMPTY}
for made, text in (row.split(" = ") for row in TABLE.topics["systems"]):
    SYSTEMS[made] = system_of(text)
INSTALLED, EDITED = SYSTEMS["INSTALLED"], SYSTEMS["EDITED"]
M, M2, M3, OTHER = (TROVES[made] for made in ("M", "M2", "M3", "OTHER"))
WEB = Owner(b"web", b"www")
for made, data, revision in (("M_OF_WEB", b"abc", b"1.0-1-1"), ("M2_OF_WEB", b"abcd", b"1.0-2-1")):
    TROVES[made] = trove(RUNTIME, {b"/etc": directory(0o755, WEB), FOO: file_of(data, owner=WEB)}, revision)
TROVES["M_SSL"] = trove(RUNTIME, M.files, flavor=b"ssl")
ABC, ABCD = [b"abc"], [b"abcd"]
INSTALL, UPDATE, ERASE = map(call_of, ("INSTALL", "UPDATE", "ERASE"))
BACK_TWICE = (ROLLBACK, ROLLBACK)


# ---- more jobs

def large_rows():
    """Troves that each provide a thousand names, and so many of them that the database doesn't hold them."""
    names = [b"soname: %04d" % number + b"a" * 1020 for number in range(1_000)]
    troves = [trove(b"t%d:lib" % number, gives=names) for number in range(10_000, 10_518)]
    front, back = trove_bytes(troves[0], True).split(b"10000")
    words = f"update||numbered {len(troves)} {bytes_word(front, 40)} {bytes_word(back, 40)}||"
    yield "too large", INSTALLED, Call(words, lambda system: system.update(troves))


# ---- cut off and failing

def step_lines():
    for row in TABLE.rows("steps"):
        label, system, call, *more = row.split(" | ")
        system, call = system_of(system), call_of(call)
        yield seen_line(label, system, call)
        picks = (int(pick) for one in more if one.startswith("picks ") for pick in one.split()[1:])
        yield from stop_lines(label, system, call, [PICKS[pick] for pick in picks])
        if "fails" in more:
            # (a job that changes nothing looks at no path)
            yield fail_line(label, system, call, looks=label != "nothing changes")


def half_done_lines():
    """Roots whose commit flag is set: what was written of the last job is brought to its end first."""
    replaced = update([M2], ABCD, options=REPLACE)
    for before, call, next_, picks in (
        (EMPTY, INSTALL, ROLLBACK, ()), (EDITED, replaced, ROLLBACK, PICKS[2:]), (EDITED, replaced, update([M3], ABC), ()),
        (INSTALLED, ERASE, INSTALL, PICKS[1:2]), (after(EDITED, replaced), ROLLBACK, replaced, ()),
    ):  # fmt: skip
        made = after(before, call)
        nodes = cut_off(before, made)
        yield run_line("half done", made, next_, nodes=nodes)
        yield from stop_lines("half done", made, next_, picks, nodes)
    yield fail_line("half done", made, erase([]), nodes, looks=False)


def fixed_dirs_lines():
    """Roots without one of their fixed directories, which are only read."""
    label, calls = "fixed directories", [INSTALL, ERASE, adopt([M], ABC), ROLLBACK, rollback(1), verify()]
    outer = {b"/etc": DIR, FOO: file(b"abc")}
    for node in (None, file(b"no directory"), ("link", b"etc")):
        for above, path in (({}, b"/var"), ({b"/var": DIR}, b"/var/lib")):
            nodes, why = {**outer, **above, **({} if node is None else {path: node})}, f"parent {path.decode()}"
            yield unready_line(label, nodes, why, *calls)
            yield from unready_failures(label, nodes, why, calls[0], PICKS)
    # Any mode does.
    yield from (run_line(label, EMPTY.edits((b"/var", mode), (b"/var/lib", mode)), INSTALL, ROLLBACK) for mode in (("dir", 0o700), ("dir", 0o1777)))


def migrated_lines():
    """Roots of format 1: the first call on them brings them to format 2, whatever it is and whatever it answers."""
    label, replaced = "format 1", system_of("EDITED > update M_NEWER, carried abcd, replace")
    nodes = in_format_1(replaced.nodes())
    assert nodes[DATABASE][2] == OLD_DATABASE_2_BY_HAND
    assert [nodes[record_path(number)][2] for number in (1, 2)] == [OLD_RECORD_BY_HAND, OLD_RECORD_2_BY_HAND]
    # Calls that are refused by the list or the stack alone, among others.
    unlooking = [rollback(3), erase([b"absent:lib"])]
    calls = [ROLLBACK, rollback(1), unlooking[0], update([M3], ABC), update([M2]), ERASE, unlooking[1], adopt([OTHER]), verify()]
    yield run_line(label, replaced, nodes=nodes)
    for call in calls:
        yield run_line(label, replaced, call, *BACK_TWICE, nodes=nodes)
        yield fail_line(label, replaced, call, nodes, looks=call not in unlooking)
    for call in (ROLLBACK, update([M3], ABC)):
        yield from stop_lines(label, replaced, call, PICKS, nodes)
        yield seen_line(label, replaced, call, nodes)
    for system, some in ((INSTALLED, [UPDATE, *BACK_TWICE]), (SYSTEMS["NO_TROVES"], [INSTALL, ROLLBACK])):
        yield run_line(label, system, *some, nodes=in_format_1(system.nodes()))
    # Its files are read before anything is written.
    bad = [(record_path(number), text) for number in (1, 2) for text in (OLD_RECORD_BY_HAND[:-1], replaced.nodes()[record_path(number)][2])]
    for path, text in [*bad, (DATABASE, nodes[DATABASE][2][:-1])]:
        yield unready_line(label, {**nodes, path: file(text)}, f"damaged {path.decode()}", *calls)


def hostile_lines():
    """Edits before a root is made ready, and damaged files."""
    opt = EMPTY.edits((b"/opt", DIR), (b"/opt/a", DIR))
    made = update([trove(b"x:lib", {b"/opt/a/x": file_of(b"x")})], [b"x"])
    calls, label = [made, erase([b"x:lib"]), adopt([]), ROLLBACK], "open_log_after_edit"
    done = after(opt, made)
    nodes = cut_off(opt, done)
    yield unready_line(label, {**nodes, b"/opt/a": file(b"file")}, "parent /opt/a/x", *calls)
    kept = done.edit(b"/opt/a/other", file(b"other"))
    yield run_line(label, kept, *calls[1:], nodes={**nodes, b"/opt/a/other": file(b"other")})
    yield run_line(label, done, *calls[1:], nodes={**nodes, b"/opt/a/x": file(b"mine")})
    staged = next(path for path in sorted(nodes) if path.startswith(BASE + b"/p/"))
    for path, node in ((staged, file(b"torn")), (staged, DIR), (BASE + b"/log", file(b""))):
        yield unready_line("damaged", {**nodes, path: node}, f"damaged {path.decode()}", *calls)
    # A commit flag that isn't one leaves the root as it is.
    yield from (run_line("no commit flag", opt, made, nodes={**nodes, BASE + b"/gate": file(flag)}) for flag in (b"OO", b"", b"o"))
    # The database and the newest record.
    nodes = done.nodes()
    data = nodes[DATABASE][2]
    for node in (file(data[:-1]), file(data + b"\0"), file(b""), DIR, ("link", b"r.1")):
        yield unready_line("damaged_database", {**nodes, DATABASE: node}, f"damaged {DATABASE.decode()}", *calls)
    record = done.edit(record_path(1), file(b"torn"))
    yield run_line("damaged_record", record, damaged(ROLLBACK, record_path(1)))
    yield run_line("damaged_record", record, made, erase([b"x:lib"]), ROLLBACK)


def chance_lines():
    """Small troves, jobs and edits that were drawn by chance."""
    yield from (run_line(*row) for row in rows("by chance"))
    for label, system, call, pick in (row.split(" | ") for row in TABLE.rows("cut off by chance")):
        yield from stop_lines(label, system_of(system), call_of(call), [int(pick)])


# ---- several jobs, and what takes them back

def several_lines():
    yield from (run_line(*row) for row in rows("several jobs"))
    label, turned = "kinds of several jobs", SYSTEMS["TURNED"]
    yield from (seen_line(label, turned, rollback(number)) for number in (1, 2, 3))
    yield from stop_lines(label, turned, rollback(1), PICKS[2:])
    yield fail_line(label, turned, rollback(2))


ROWS = (
    "worked", "verified", "dropped", "places", "refused jobs", "refused erasures", "erasures", "too large", large_rows, "sources",
    "two contents of one SHA-1", "a mode that changes takes the bytes that stand", "nothing", "kinds that change",
    "several jobs that are taken back at once",
)
STAGED = ("worked", "refused jobs", "sources", "nothing", "kinds that change")
LINES = (step_lines, half_done_lines, fixed_dirs_lines, migrated_lines, hostile_lines, chance_lines, several_lines)


def lines():
    made = (row for some in ROWS for row in (rows(some) if isinstance(some, str) else some()))
    staged = (row for topic in STAGED for row in rows(topic, True) if any(call.words.startswith("update_staged") for call in row[2:]))
    return itertools.chain((run_line(*row) for row in (*made, *staged)), *(some() for some in LINES))
