"""A model of a root and of jobs on it, made from docs/FORMATS.md, docs/MODEL.md and docs/COMMANDS.md alone: its files, with the whole trees and
lists of each job kept beside them; the tests of an update, an erasure and a whole new list in their order, what each makes of the tree, the list
and the stack; the newest jobs taken back; and roots compared with their troves. Nothing is shared with the program."""
import itertools
from collections import namedtuple

from tools.model import lists, plans
from tools.model.records import (
    BASE, DATABASE, GREATEST_NUMBER, MOST_BYTES, MOST_JOBS, content_path, database_bytes, mark_of, mark_of_record, record_bytes, record_of,
    record_path, saved_path, sha,
)  # fmt: skip
from tools.model.reports import CHANGES, finding_line
from tools.model.runs import JOURNAL, applied
from tools.model.streams import Refused, id_text, trove_bytes
from tools.model.trees import DIR, is_of, is_within, parent_of

PINNED = {b"/var": DIR, b"/var/lib": DIR}

# A job that is on the stack: the tree outside the private directory before and after it, the list before it, and its paths.
Job = namedtuple("Job", "number before after troves paths")


class Root(namedtuple("Root", "outer own troves jobs", defaults=[PINNED, {}, [], []])):
    """The nodes outside the private directory and in it, the list, and the jobs on the stack. Each call makes another root."""

    def edit(self, path, node=None):
        side = "own" if path.startswith(BASE) else "outer"
        nodes = {other: old for other, old in getattr(self, side).items() if other != path}
        return self._replace(**{side: nodes if node is None else {**nodes, path: node}})

    def edits(self, *nodes):
        for path, node in nodes:
            self = self.edit(path, node)
        return self

    def numbered(self, oldest, newest):
        """With a stack of jobs of which nothing is known but their numbers."""
        return self._replace(jobs=[Job(number, None, None, None, []) for number in range(oldest, newest + 1)])

    def numbers(self):
        return (self.jobs[0].number, self.jobs[-1].number) if self.jobs else (0, 0)

    def with_base(self):
        return self if is_of(self.own.get(BASE), "dir") else self.edit(BASE, DIR)

    def with_database(self):
        return self.with_base().edit(DATABASE, ("file", 0o644, database_bytes(2, self.troves, *self.numbers())))

    def changed(self, targets):
        """The paths at which these targets aren't what stands."""
        return sorted(path for path in targets if self.outer.get(path) != targets[path])

    def job(self, troves, targets, number=None):
        """The root after a job with this list and these targets."""
        paths, number = self.changed(targets), self.numbers()[1] + 1 if number is None else number
        troves = sorted(troves, key=lambda trove: trove.identity.name)
        outer = {path: node for path, node in {**self.outer, **targets}.items() if node is not None}
        # The oldest job leaves a full stack. Its record and its contents stay until the next one leaves.
        jobs = (self.jobs + [Job(number, self.outer, outer, self.troves, paths)])[-MOST_JOBS:]
        cleared = [above(one) for one in (number, jobs[0].number - 2) if one > 0 for above in (record_path, saved_path)]
        own = {path: node for path, node in self.own.items() if not any(is_within(path, above) for above in cleared)}
        for node in map(self.outer.get, paths):
            if is_of(node, "file"):
                own |= {saved_path(number): DIR, content_path(number, sha(node[2])): ("file", 0o600, node[2])}
        changes = [(path, mark_of(self.outer.get(path)), mark_of(outer.get(path))) for path in paths]
        own[record_path(number)] = ("file", 0o644, record_bytes(record_of(number, self.troves, troves, changes), 2))
        return Root(outer, own, troves, jobs).with_database()

    def nodes(self):
        return {**self.outer, **self.own}

    def db_text(self):
        return "%d %d%s" % (*self.numbers(), "".join(" " + id_text(trove.identity).decode() for trove in self.troves))

    # ---- jobs by the tests of their lists and of the tree: the root after each, and what it did

    def job_to(self, troves, options=(), carried=(), far=()):
        """A job with this list after it."""
        lists.closed(troves)
        nodes = {b"/": DIR, **self.outer}
        old, fresh = ({lists.name_of(one): dict(one.files) for one in some} for some in (self.troves, troves))
        _, targets, _ = plans.write_set(nodes, plans.plan_changes(nodes, old, fresh, options), nodes, carried, far, options)
        # The database has one item more for each trove, whatever the numbers of its jobs.
        size = len(database_bytes(2, [], 0, 0)) + sum(5 + len(trove_bytes(one, True)) for one in troves)
        if size > MOST_BYTES:
            raise Refused(f"too large: database {size}")
        told = b", ".join(CHANGES[kind] + id_text(one) for kind, one in lists.changed(self.troves, troves)).decode() or "nothing changes"
        if not targets and told == "nothing changes":
            return self, "no job: " + told
        number = self.numbers()[1] + 1
        if number > GREATEST_NUMBER:
            raise Refused(f"too large: jobs {GREATEST_NUMBER}")
        return self.job(troves, targets), f"r.{number}: {told}"

    def update(self, come, options=(), carried=(), far=()):
        return self.job_to(lists.updated(self.troves, come), options, carried, far)

    def erase(self, names, options=()):
        return self.job_to(lists.erased(self.troves, names), options)

    def adopt(self, troves, options=(), far=()):
        return self.job_to(lists.by_name(troves), options, (), far)

    def rollback(self, number=None):
        """All jobs from the newest down to this number are taken back at once, without one the newest."""
        if self.jobs and number not in (None, *(job.number for job in self.jobs)):
            raise Refused(f"no job r.{number}")
        root, newest = self, self.numbers()[1]
        while root is self or root.jobs and root.numbers()[1] >= (newest if number is None else number):
            root = root.before_newest()
        count = len(self.jobs) - len(root.jobs)
        return root.with_database(), f"{count} taken back" if number is not None else f"r.{newest} taken back"

    def verify(self, names=(), far=()):
        """What is found at the recorded paths of the troves of these names, or of all. `far` are contents that are found, or how a search ends."""
        there = lists.names_of(self.troves)
        for name in names:
            if name not in there:
                raise Refused(f"not installed {name.decode()}")
        asked = [file for one in self.troves if not names or lists.name_of(one) in names for file in one.files]
        found = [(found_at(mark_of_record(record), self.outer.get(path), far), path) for path, record in asked]
        texts = [finding_line(*one).decode()[:-1] for one in found if one[0] is not None]
        return self, ", ".join([*texts, f"verified {len(asked)} paths, {len(texts)} changed"])

    def before_newest(self):
        """The root with the newest job taken back, but for its database."""
        if not self.jobs:
            raise Refused("stack empty")
        job = self.jobs[-1]
        for path in job.paths:
            made = is_of(job.after.get(path), "dir") and not is_of(job.before.get(path), "dir")
            foreign = any(parent_of(other) == path and other not in job.paths for other in self.outer)
            if mark_of(self.outer.get(path)) != mark_of(job.after.get(path)) or made and foreign:
                raise Refused("edited " + path.decode())
        outer = {path: node for path, node in self.outer.items() if path not in job.paths}
        outer |= {path: job.before[path] for path in job.paths if path in job.before}
        for path in sorted(outer):
            if parent_of(path) != b"/" and not is_of(outer.get(parent_of(path)), "dir"):
                raise Refused("parent " + path.decode())
        return Root(outer, self.own, job.troves, self.jobs[:-1]).edit(record_path(job.number))


def found_at(wanted, node, far):
    """What a verification finds at a path, by the fingerprint that is recorded: a word, or how many bytes differ; None where it is as recorded."""
    if node is None:
        return "missing"
    if wanted[0] == node[0] == "dir" or mark_of(node) == wanted:
        return None
    content = None
    if wanted[0] == node[0] == "file":
        if isinstance(far, str):
            raise Refused({"fails": "far failed", "damaged": "far damaged /c/damaged"}[far])
        content = next((data for data in far if (len(data), sha(data)) == wanted[2:]), None)
    return "changed" if content is None else sum(a != b for a, b in zip(content, node[2])) + abs(len(content) - len(node[2]))


def cut_off(before, after):
    """The nodes of a root whose journal is half done: a crash left them once the commit flag of the step to another root was set and synced."""
    late, wanted = (record_path(after.numbers()[1]), DATABASE), after.nodes()
    nodes = {**before.nodes(), **{path: node for path, node in after.own.items() if path not in late}}
    puts = [(path, wanted.get(path)) for path in sorted(nodes.keys() | wanted.keys()) if nodes.get(path) != wanted.get(path)]
    cuts = (applied({b"/": DIR, **nodes}, puts, calls).tree for calls in itertools.count())
    crashed = next(tree for tree in cuts if JOURNAL.gate in tree.synced).crash(1).nodes
    return {path: node for path, node in crashed.items() if path != b"/"}
