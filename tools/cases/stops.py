"""Cases of command_lines on stops, failing calls and late edits, of each command that writes, of a recovery of either disk, of the migration of a root
and of a batch that changes both disks: cut off behind each number of calls of either disk, with crashes that are picked by fixed numbers and by chance;
each call of either disk failing once; and edits of others between a stop and the recovery, of each kind, at each path of the log, above it, below it
and beside it. What counts is found as before the command or behind it."""
import itertools
import random

from tools.cases import commands, mirrors, root_commands, root_examples, samples, several, syncs
from tools.cases.rows import Rows
from tools.lines.script import JOURNALS, recovered
from tools.model import repository
from tools.model.batches import lines_of, read_batch
from tools.model.records import BASE, DATABASE
from tools.model.trees import DIR, is_tree, is_within, joined, parent_of

# Numbers that pick what a crash leaves: three that are asked for, all as synced, nothing, and torn files; and ten by chance.
CHANCE = random.Random(20261203)
PICKS = (*samples.PICKS, 0x5555555555555555, 0xAAAAAAAAAAAAAAAA, 2**64 - 1, *(CHANCE.getrandbits(64) for _ in range(10)))
READERS = {"root": b"q", "repo": b"rq"}


# A root of format 1 with two jobs.
OLD_ROOT = root_examples.one_format(root_examples.two_jobs())
TABLE = Rows("stops", globals(), *(one.TABLE.names for one in (syncs, root_commands, commands, mirrors, several)))
CHANGES = [
    (sides, row)
    for topic, *sides in (("the root", "root"), ("the repository", "repo"), ("both", "root", "repo"))
    for row in TABLE.fields("changes of " + topic)
]
DEMO = [(("root", "repo"), ["", "", "", "demo 1", "NONE"])]  # too many stops for the stored lines: tools/lines/demo_stops.py makes them


def begun(script, row):
    """What is before a command, of whose input each call takes a piece, and its words."""
    before, edit, repo, words, data = row
    TABLE.say_rows(script, [f"disks | {repo}", before, f"edit {edit}", f"input 50 0 {{{data}}}"])
    return TABLE.lines(words.split())


# ---- what counts


def counting(side, nodes):
    """Of a root all but its private directory, and of that the database; of a repository all but its contents and the journal's names."""
    if side == "root":
        return {path: node for path, node in nodes.items() if path == DATABASE or not is_within(path, BASE)}
    base = repository.BASE
    return {path: node for path, node in nodes.items() if path != base and not JOURNALS[side].is_own(path) and not is_within(path, joined(base, b"c"))}


def states(script, side, words):
    """What counts before a command, and behind it; of the batch and of the demo behind each line."""
    trees, data = script.copies(side), script.streams.data
    recovered(side, trees[side])
    yield counting(side, trees[side].nodes)
    for line, script.streams.data in read_batch(data) if words == [b"batch"] else lines_of(1) if words[0] == b"demo" else [(words, data)]:
        script.called(line, trees)
        yield counting(side, trees[side].nodes)


def stop_cases(script, rows=CHANGES):
    """Of a disk that isn't changed each crash leaves the same."""
    for (changed, row), side in itertools.product(rows, READERS):
        words = begun(script, row)
        found = script.all_stops(side, PICKS if side in changed else PICKS[:1], *words) + script.faults(side, *words)
        allowed = list(states(script, side, words))
        if not all(counting(side, nodes) in allowed for nodes in found):
            root_examples.WRONG.append(f"a stop or a failing call of {words}")


# ---- edits of others


def edits_at(nodes, path):
    """Trees in which others have put, changed or taken away what stands at a path, below it or beside it."""
    bare = {other: node for other, node in nodes.items() if not is_within(other, path)}
    below, beside, stands = joined(path, b"x"), path + b"-x", nodes.get(path)
    kinds = ("dir", 0o700), ("file", 0o644, b"other"), ("link", b"x")
    yield bare
    yield from ({**bare, path: node} for node in kinds)
    yield {**bare, path: DIR, below: kinds[1]}
    yield from ({**nodes, beside: node} for node in kinds)
    if stands is not None and stands[0] != "link":
        yield {**nodes, path: (stands[0], 0o711, *stands[2:])}
    if stands == DIR:
        yield {**nodes, below: kinds[1]}


def places(journal, nodes):
    """The paths of the log, those above them, and those that the journal has for itself."""
    found = {path for path, _ in journal.read_log(nodes[journal.log][2])}
    while more := {parent_of(path) for path in found} - found:
        found |= more
    return sorted(found - {b"/"} | {journal.log, journal.gate, journal.work, journal.staged_path(0)})


def changes(nodes, wanted):
    """The edits that lead from some nodes to others: what is in the way goes first."""
    gone = sorted((path for path in nodes if path not in wanted or nodes[path][0] != wanted[path][0]), reverse=True)
    return [(path, None) for path in gone] + sorted((path, node) for path, node in wanted.items() if path in gone or nodes.get(path) != node)


def late_cases(script):
    """Behind the flag of a command that is cut off, or of the change that it was to bring to its end; before each edit there stands what was left."""
    for side, row in ((side, row) for changed, row in CHANGES for side in changed):
        words, journal = begun(script, row), JOURNALS[side]
        if journal.gate in script.trees[side].nodes:
            script.cut(side, 1, 0, *words)
        else:
            script.cut_at(side, 0, 1, "append", journal.gate, *words)
        left = dict(script.trees[side].nodes)
        for nodes in itertools.chain.from_iterable(edits_at(left, path) for path in places(journal, left)):
            if is_tree(nodes):
                script.edit(side, changes(script.trees[side].nodes, nodes)).run(READERS[side])


CASES = (stop_cases, late_cases)
