"""Cases of the journal: write sets that are applied to trees in memory, cut off, left as a crash may leave them, and recovered.

A case is a call and its arguments; tools/lines/disk_lines.py says them as lines, and computes the answers by the runs of tools/model/runs.py. Where
a case was worked out by hand, its wanted answer stands beside it, and the model is held against that.

A tree is a map from paths to nodes; a write set is a list of pairs of a path and what is to stand there."""
from tools.cases.logs import held
from tools.cases.rows import Rows, from_hex
from tools.lines import words
from tools.model.runs import (
    BASE, JOURNAL, PICKS, applied, applied_cuts, calls_until, cuts_found, images_found, recovered, seen_in_apply, seen_in_recovery, stored,
)  # fmt: skip
from tools.model.trees import DIR, Tree

TABLE = Rows("journals", data=from_hex)
GATE = JOURNAL.gate

# All unsynced names are torn.
ALL_TORN = 2**64 - 1

# ---- worked cases: the rows of journals.txt, each a tree, a write set and more fields, where it has them, and behind ` > ` what is wanted

def worked(row):
    """What is wanted, the nodes of a tree, below `/` of mode 0755, a write set, and the fields behind."""
    given, _, wanted = row.partition(" > ")
    tree, *rest = given.split(" | ")
    puts, *more = rest or [""]
    return wanted, {b"/": DIR, **dict(TABLE.nodes(tree))}, TABLE.nodes(puts), *more


def whole(data):
    """The bytes of a file in a worked case, however many they are."""
    return data.hex() or "-"


def shown_tree(nodes):
    return words.standing(nodes, whole)


# Nine times 16,000 bytes `a` and a zero byte.
LONG_BYTES = (b"a" * 16_000 + b"\0") * 9

# A recovery begins with looks at the journal's names and a sync, also where the flag isn't set, and decides on what it reads after that.
FIRST_CALLS = [("look", BASE), ("look", GATE), ("look", JOURNAL.log), ("look", JOURNAL.work), ("sync", None)]


def by_hand():
    """Write sets over other nodes at the journal's own names, and a file that is copied in pieces. Recoveries of disks that no crash left,
    and with a base below which no flag can stand: four parts of 255 bytes."""
    for row in TABLE.rows("applied"):
        wanted, nodes, puts = worked(row.replace("BYTES", LONG_BYTES.hex()))
        run = applied(nodes, puts)
        held((run.end, shown_tree(run.tree.nodes)), ("ok", wanted))
        yield "apply", nodes, puts, 0
    for row in TABLE.rows("recovered"):
        wanted, nodes, _ = worked(row)
        run = recovered(Tree(nodes))
        held(run.end + (shown_tree(run.tree.nodes) if run.tree.nodes != nodes else ""), wanted)
        held(run.tree.made[:5], FIRST_CALLS)
        yield "recover", nodes, BASE, 0
    long = (b"/" + b"x" * 255) * 4
    held(recovered(Tree(), long).end, "no")
    yield "recover", {b"/": DIR}, long, 0


def seen():
    """What stands at a path after each call of an application, and of the recovery right after its commit flag was written. Then two crashes."""
    for row in TABLE.rows("seen"):
        wanted, nodes, puts, path = worked(row)
        path, calls = path.encode(), calls_until(nodes, puts, GATE) + 1
        both = seen_in_apply(nodes, puts, 0, path), seen_in_recovery(nodes, puts, calls, 0, path)
        there, again = ("".join(words.node_word(node, whole) + "," for node in some) for some in both)
        held(there + (again if again != there else ""), wanted)
        yield from [("see", nodes, puts, 0, path), ("see_again", nodes, puts, calls, 0, path)]
    wanted, nodes, puts, path = worked(*TABLE.rows("torn"))
    assert wanted in [words.node_word(node, whole) for node in seen_in_recovery(nodes, puts, 0, ALL_TORN, path.encode())]
    yield "see_again", nodes, puts, 0, ALL_TORN, path.encode()
    # Before the picks stands the path, and how many calls after the one that makes it.
    for row in TABLE.rows("crashed"):
        wanted, nodes, puts, path, calls, pick = worked(row)
        calls, pick = calls_until(nodes, puts, path.encode()) + int(calls), int(pick)
        cut = applied(nodes, puts, calls)
        image = cut.tree.crash(pick)
        ended = recovered(image)
        held((cut.is_done, ended.is_done), (False, True))
        held(",".join([shown_tree(stored(image)), ended.end, shown_tree(stored(ended.tree))]), wanted)
        yield "crash_in", nodes, puts, calls, pick


def images():
    """All images after each number of calls. Up to the write of the flag four names are unsynced, the base, the directory of staged files,
    the staged file and the log, so 256 numbers pick all images by their digits; from it on at most three are, and 64 do. None recovers to
    the tree after up to the write of the flag; a quarter does after it, since the flag's file is the one unsynced name, and one of its four
    digits leaves it as it reads; and all do from its sync on."""
    wanted, nodes, puts = worked(*TABLE.rows("images"))
    held(shown_tree(stored(applied(nodes, puts).tree)), wanted)
    flag = calls_until(nodes, puts, GATE)
    for calls, cut in enumerate(applied_cuts(nodes, puts)):
        picks = 256 if calls <= flag else 64
        held(len(cut.tree.unsynced) <= (4 if calls <= flag else 3), True)
        found = images_found(nodes, puts, calls, picks)
        held((found["after"], found["other"]), (0 if calls <= flag else 16 if calls == flag + 1 else 64, 0))
        yield "images", nodes, puts, calls, picks


# Each write set makes at least 16 calls that change something or sync. From the sync of the flag to that of the targets, at least 7 of
# them, the flag is set in the image, whatever is picked, and a recovery makes at least 20 calls: it is cut off after each of fewer, and
# each time four crashes are recovered from. Until the 4th the flag isn't set, and a recovery makes six calls.
def checked_cuts(nodes, puts, pick, picks):
    """The counts of the cuts of a write set, which are enough."""
    applies, recoveries, found, kept = cuts_found(nodes, puts, pick, picks)
    assert applies >= 16 and recoveries >= 7 * 20 and kept == len(picks)
    assert found["after"] >= 7 * 20 * 4 and found["before"] >= 4 * 6 * 4 and found["other"] == 0
    return [applies, recoveries, *found.values(), kept]


def cuts():
    """Three write sets, each with the numbers that pick the crashes of the runs that are cut off."""
    for row in TABLE.rows("cut off"):
        wanted, nodes, puts = worked(row)
        held(shown_tree(stored(applied(nodes, puts).tree)), wanted)
        yield from (("cuts", nodes, puts, pick, PICKS) for pick in PICKS)


def failing():
    """Each call of an application failing, and each of a recovery."""
    for row in TABLE.rows("cut off")[::2]:
        _, nodes, puts = worked(row)
        yield from (("apply", nodes, puts, call) for call in range(1, applied(nodes, puts).tree.calls + 1))
        set_up = applied(nodes, puts, calls_until(nodes, puts, GATE) + 1).tree.nodes
        yield from (("recover", set_up, BASE, call) for call in range(1, recovered(Tree(set_up)).tree.calls + 1))


def by_chance():
    """Trees and write sets that were drawn by chance: applied, cut off and crashed, and what is seen meanwhile."""
    for row in TABLE.rows("by chance"):
        _, nodes, puts, *calls = worked(row)
        yield "apply", nodes, puts, 0
        for call, *numbers in map(str.split, calls):
            yield call, nodes, puts, *(int(word) if word.isdigit() else word.encode() for word in numbers)


CASES = (by_hand, seen, images, cuts, failing, by_chance)
