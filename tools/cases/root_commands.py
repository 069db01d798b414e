"""Cases of the commands of a root for command_lines: `install`, `update`, `erase`, `rollback`, `q`, `rblist`, `verify`, `localcs`. A script
(tools/lines/script.py) says their lines, behind the worked examples of tools/cases/root_examples.py; what they are made of stands in
root_commands.txt.
"""
import hashlib
import itertools

from tools.cases import root_examples
from tools.cases.root_examples import M, M2, WRONG, Examples
from tools.cases.rows import Rows
from tools.cases.samples import (
    GROUP, LABEL, LONGER_SPEC, LONG_SPEC, NO_VAR, SET, V1, carried, component, content_at, cooked, file, log_of, manifest, plain,
)  # fmt: skip
from tools.model import program
from tools.model.records import DATABASE, database_bytes
from tools.model.relatives import relative_of
from tools.model.streams import asked_by, set_bytes
from tools.model.trees import DIR

NEW_1, NEW_2 = b"1.0-1-1", b"1.0-2-1"
LONG_LABEL, A_AND_B = b"/" + b"h" * 200 + b"@n:t", [b"file 0644 1 /a", b"1", b"file 0644 1 /b", b"2"]
LONG_VERSION = manifest(b"foo:runtime", b"1" * 60 + b"-1-1", A_AND_B, label=LONG_LABEL + b"/1.0-1-1" + LONG_LABEL)
LONG_NAME, LONGEST_NAME, LONG_SPEC_WORD, LONGEST_WORD = b"n" * 256, b"n" * 255, LONG_SPEC.encode(), LONGER_SPEC.encode()
GOOD, AT_ABC = database_bytes(2, [V1], 1, 1), content_at(b"abc")
CUT_GOOD, GOOD_3 = GOOD[:-1], GOOD.replace(b"CNYDB02", b"CNYDB03")
GOOD_4097, GOOD_0 = (database_bytes(2, [V1], *numbers) for numbers in ((1, 4097), (0, 1)))
DATABASE_LOG = log_of([(DATABASE, file(GOOD, 0o644))])
TABLE = Rows("root_commands", globals(), root_examples.TABLE.names)
BAR, FREE_BAR = TABLE.named("BAR FREE_BAR")

# ---- words


def word_cases(script):
    """Words are looked at before anything else: neither the missing `/var` nor a call that would fail is noticed."""
    some = Examples(script)
    some.name = "words"
    for row in TABLE.topics["words"] + TABLE.topics["long words"]:
        script.disks(NO_VAR, (), 1, 1).input(b"x", 1, 1).sinks(1, 0)
        TABLE.say(script, row)
        some.compare(row, (2, b"", program.USAGE))


def most_word_cases(script):
    """The most words of a call, and one more."""
    for count in (64, 65, 1023, 1024):
        script.disks().runs(*([word] + [b"foo"] * count for word in (b"verify", b"erase", b"update")))


# ---- refusals of jobs, each alone and each two at once

# What a manifest of new:runtime has more, by the refusal that comes of it, in the order of the tests.
REFUSED_LINES = {fault: (path.encode(), TABLE.lines(some)) for fault, path, *some in TABLE.fields("lines that are refused")}
UNEDITED = (b"/edited", [b"file 0644 1 /edited", b"a"])


def some_of(names, most=2):
    return [some for count in range(1, most + 1) for some in itertools.combinations(names, count)]


def new_manifest(faults, revision=NEW_2):
    parts = sorted([REFUSED_LINES[fault] for fault in faults] + ([] if "edited" in faults else [UNEDITED]))
    return manifest(b"new:runtime", revision, [line for _, part in parts for line in part])


def refused_root(script, repo_edits=()):
    """A root on which each of these refusals can come."""
    script.disks((), repo_edits).installs(*TABLE.named("OWNS"), new_manifest((), NEW_1))
    return script.edit("root", [(b"/stands", file(b"s", 0o644)), (b"/edited", file(b"b", 0o644))])


def expect_first(script, faults):
    said = script.made.err.decode()
    if faults[0].replace("-", " ") not in said:
        WRONG.append(f"refusals {faults}: {said}")


def install_refusals(script):
    for faults in some_of(REFUSED_LINES):
        refused_root(script).installs(new_manifest(faults))
        # The table of paths goes by path: what is edited comes before what is unowned.
        expect_first(script, ("edited",) if faults == ("unowned", "edited") else faults)
        script.each(b"install --replace", new_manifest(faults)).each(b"install --keep --replace", new_manifest(faults)).run(b"rblist")
    refused_root(script).installs(b"", b"manifest 2\n", new_manifest(("reserved",)) + b"x")


def new_trove(faults):
    files = {b"/edited": plain(b"c" if "edited" in faults else b"a")}
    files |= {TABLE.bytes(path): plain(data.encode()) for fault, path, data in TABLE.fields("files that are refused") if fault in faults}
    made = component(b"new:runtime", NEW_2, sorted(files.items()))
    return made._replace(requires=[b"trove: none"]) if "unmet" in faults else made


def change_set_parts(faults):
    """Parts that meet with these refusals, the one of the missing base first."""
    missing = component(b"a:b", NEW_1), component(b"a:b", NEW_2)
    parts = [relative_of(*missing)] if "missing-base" in faults else []
    parts.append(new_trove(faults))
    return parts + ([component(b"new:runtime", b"1.0-3-1")] if "exists" in faults else [])


SET_FAULTS = ("missing-base", "reserved", "exists", "unmet", "owned", "edited", "unowned", "parent", "missing-content")


def change_set_refusals(script):
    for faults in some_of(SET_FAULTS):
        refused_root(script)
        parts = change_set_parts(faults)
        asked = {name for part in parts for name, _ in asked_by(part)}
        contents = carried(*(data for data in (b"a", b"c", b"o", b"n", b"x") if hashlib.sha1(data).digest() in asked))
        script.fed(set_bytes(parts, contents), b"update", b"-")
        expect_first(script, faults)
        script.fed(set_bytes(parts, contents), b"update", b"--replace", b"-")
    refused_root(script).each(b"update -", b"", SET[:50], SET + b"x", set_bytes([], []))


def collision_cases(script):
    """Old bytes that share their name with other ones."""
    TABLE.say_all(script, "collision")
    expect_first(script, ("collision",))


SPEC_CONFIGS = {"too-large": b"#" * 65_537, "bad-config": b"flavor ((\n", "": b""}


def spec_refusals(script):
    """Refusals of `update SPEC`: the configuration, then each specification, then the expansion, then the tests of a job."""
    nodes = cooked(*TABLE.named("OWN_1 OWN_2 OWN_BOTH"))
    specs = {fault: TABLE.bytes(spec) for fault, spec in TABLE.fields("specifications that are refused")}
    for fault, data in SPEC_CONFIGS.items():
        # What stands in the large file is a part of each answer.
        for some in [*some_of(specs), ("missing-trove", "no-label")][: 1 if fault == "too-large" else None]:
            refused_root(script, nodes).edit("root", [(b"/etc", DIR), (b"/etc/conaryrc", file(data, 0o644))])
            script.run(b"update", *(specs[one] for one in some))
    # Two specifications that are right alone, and one that leads to two troves of a name only with the other.
    for words in TABLE.all_words("specifications at once"):
        refused_root(script, nodes).run(b"update", *words)
    for faults in some_of([fault for fault in REFUSED_LINES if fault != "reserved"]):
        refused_root(script, cooked(new_manifest(faults)))
        for options in ([], [b"--replace"], [b"--keep"]):
            script.run(b"update", *options, b"new:runtime=" + LABEL)


def erase_refusals(script):
    """Refusals of `erase`, and what stays of what is erased."""
    edits = {name: TABLE.nodes(nodes) for name, nodes in TABLE.fields("edits before an erasure")}
    for some in some_of(["missing", "unmet", *edits]):
        script.disks().installs(*TABLE.named("SPELLED USES" if "unmet" in some else "SPELLED"))
        for one in some:
            if one in edits:
                script.edit("root", edits[one])
        names = [b"new:runtime"] + ([b"none", b"nor"] if "missing" in some else [])
        script.runs([b"erase", *names], [b"erase", b"--replace", *names], [b"rollback"])


def rollback_refusals(script):
    """Edits, names in a directory that a job made, damage of records and saved contents, alone and two at once."""
    faults = {name: TABLE.nodes(nodes) for name, nodes in TABLE.fields("edits and damage before a rollback")}
    for some in some_of(faults):
        for words in ([b"rollback"], [b"rollback", b"r.1"], [b"rblist"], [b"q"])[: 4 if len(some) == 1 else 2]:
            script.disks().installs(M, M2).edit("root", [edit for one in some for edit in faults[one]]).run(*words)


def reading_cases(script):
    """`q`, `rblist`, `verify` and `localcs`, of which nothing stands, of several troves, and refused."""
    edits = [[], *map(TABLE.nodes, TABLE.topics["edits that are read"])]
    for installed, edit in [(False, []), *((True, edit) for edit in edits)]:
        script.disks((), cooked(M, BAR)).installs(*([M, BAR, GROUP] if installed else [])).edit("root", edit)
        for row in ([] if edit else TABLE.topics["calls that read, without edits"]) + TABLE.topics["calls that read"]:
            made = script.run(*TABLE.lines(row.split()))
            if row.startswith("localcs") and made:
                script.fed(made, b"showcs")


CASES = (
    word_cases, "the longest words", most_word_cases, "kinds that change at a path", "packages and groups", install_refusals, change_set_refusals,
    "sets over another base", "sources of contents", collision_cases, spec_refusals, erase_refusals, "erasures of packages and groups", rollback_refusals,
    "parents that are gone", reading_cases, "local changes", "damaged databases", "other databases", "crashes of calls", "late changes",
    "failing jobs", "failing inputs",
)  # fmt: skip
