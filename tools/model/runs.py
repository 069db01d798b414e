"""Runs of the journal on trees in memory: cut off, left as a crash may leave them, and recovered; and what is found then.

They are those of tools/model/trees.py, of a journal in one private directory. A number picks the image of a crash."""
import itertools

from tools.model.records import BASE
from tools.model.trees import Damaged, Failed, Journal, Refused, Tree

JOURNAL = Journal(BASE)

# Numbers that pick crashes. All unsynced names as they read; the first, and each 32nd after it, as at the last sync, and the rest as they read; the
# first 16, and 16 of each 32 after them, torn, and the rest as they read; and, since each digit of the number is 1, all as at the last sync.
PICKS = (0, 1, 4_294_967_295, 0x5555_5555_5555_5555)

# More calls than any of the runs makes.
MANY = 1000


class Run:
    """The tree that a run left, and how it ended: `ok`, of a recovery whether the commit flag was set, `failed`, or why it stopped."""

    def __init__(self, tree, step):
        self.tree = tree
        try:
            self.end = {None: "ok", True: "yes", False: "no"}[step(tree)]
        except Failed:
            self.end = "failed"
        except Damaged as stop:
            self.end = f"damaged {stop.args[0].decode()}"
        except Refused as stop:
            self.end = str(stop)
        self.is_done = self.end != "failed"


def applied(nodes, puts, calls=MANY, failing=0):
    return Run(Tree(nodes, calls, failing), lambda tree: JOURNAL.apply(tree, puts))


def recovered(tree, base=BASE, failing=0, pick=0, calls=MANY):
    """The recovery of what a crash leaves."""
    return Run(Tree(tree.crash(pick).nodes, calls, failing), Journal(base).recover)


def stored(tree):
    """What stands but for the journal's own files and an empty directory in which they are."""
    return {path: node for path, node in tree.nodes.items() if path != BASE and not JOURNAL.is_own(path)}


def cuts_of(run):
    """Runs that are cut off after each number of calls, up to the first that comes to its end."""
    for calls in range(MANY):
        cut = run(calls)
        yield cut
        if cut.is_done:
            return
    raise AssertionError("a run without end")


def applied_cuts(nodes, puts):
    return cuts_of(lambda calls: applied(nodes, puts, calls))


def calls_until(nodes, puts, path):
    """How many calls of an application come before the first after which something stands at a path."""
    return next(calls for calls, cut in enumerate(applied_cuts(nodes, puts)) if cut.tree.nodes.get(path) is not None) - 1


def changes(found):
    """What is found, each that differs from the one before."""
    return [one for one, _ in itertools.groupby(found)]


def seen_in_apply(nodes, puts, pick, path):
    """What a crash leaves at a path after each call of an application."""
    return changes(cut.tree.crash(pick).nodes.get(path) for cut in applied_cuts(nodes, puts))


def seen_in_recovery(nodes, puts, calls, pick, path):
    """The same of the recovery of the tree that an application left which was cut off after so many calls."""
    tree = applied(nodes, puts, calls).tree
    return changes(cut.tree.crash(pick).nodes.get(path) for cut in cuts_of(lambda calls: recovered(tree, calls=calls)))


class Counts:
    """What is found after crashes and their last recoveries."""

    def __init__(self, nodes, puts):
        self.before, self.after = stored(Tree(nodes)), stored(applied(nodes, puts).tree)
        self.found = {"before": 0, "after": 0, "other": 0}
        # What is found is told by the image alone.
        self.known = {}

    def find(self, tree, pick):
        """Recovers what a crash leaves of a tree, and counts which of the two trees that is: the one after where the commit flag was set."""
        image = tree.crash(pick)
        key = frozenset(image.nodes.items())
        if key not in self.known:
            ended = recovered(image)
            found, differ = stored(ended.tree), self.before != self.after
            is_before = differ and ended.end == "no" and found == self.before
            self.known[key] = "after" if differ and ended.is_done and found == self.after else "before" if is_before else "other"
        self.found[self.known[key]] += 1


def images_found(nodes, puts, calls, picks):
    """What the images recover to that the first numbers pick, of an application that was cut off."""
    counts, tree = Counts(nodes, puts), applied(nodes, puts, calls).tree
    for pick in range(picks):
        counts.find(tree, pick)
    return counts.found


def cuts_found(nodes, puts, pick, picks):
    """An application is cut off after each number of calls, with the crash that a number picks, and its recovery again, with each of four
    crashes: how often each was cut off, and what is found. And of how many crashes after the whole run the image is the tree after, with
    no flag and nothing at the work name."""
    counts, applies, recoveries = Counts(nodes, puts), 0, 0
    for cut in applied_cuts(nodes, puts):
        applies += not cut.is_done
        for again in cuts_of(lambda calls: recovered(cut.tree, pick=pick, calls=calls)):
            recoveries += not again.is_done
            for later in picks:
                counts.find(again.tree, later)
    images = [cut.tree.crash(later) for later in picks]
    kept = [stored(image) == counts.after and JOURNAL.gate not in image.nodes and JOURNAL.work not in image.nodes for image in images]
    return applies, recoveries, counts.found, sum(kept)
