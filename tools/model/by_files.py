"""A model of a whole call: the words, the order of all tests, and the commands of a root, made from docs/COMMANDS.md, docs/FORMATS.md and
docs/MODEL.md alone. The commands of a repository are those of model/program.py.

Nothing is remembered between calls: the database, the records and the saved contents are read from the root's files. How many calls of
the root a command makes, and in which order, is told here, for the lines `from`.
"""
import re

from tools.model import completion, lists, mirrors, plans, program, repository, stacks
from tools.model.local_changes import LONGEST, local_changes, local_id, reached
from tools.model.program import JOURNAL, Ended, is_spec, manifest_of
from tools.model.records import (
    BASE, DATABASE, DATABASE_MAGIC, EMPTY, GREATEST_NUMBER, MAGIC as RECORD_MAGIC, MOST_JOBS, NOTHING, Db, by_name, content_path, database_bytes, mark_of, mark_of_record,
    read_database, record_bytes, record_of, record_path, saved_path,
)
from tools.model.relatives import all_made, check_allowed
from tools.model.reports import change_lines, finding_line, id_lines, note_text, or_nothing, trove_text
from tools.model.streams import NotOfForm, different_bytes, is_label, is_name, read_set, set_text, sha
from tools.model.trees import Damaged, Refused, clear, is_of, is_read, make_dir, parent_of, read_whole

PIECE, MOST_BYTES = 65_536, stacks.LIMIT[2]
MODEL, LARGEST_MODEL = b"/etc/conary/system-model", 65_536

# ---- the words


# A command takes at most so many names or specifications.
MOST_NAMES = 64

RESOLVE = b"--resolve"
OPTIONS = {
    b"cook": (b"--next",), b"install": (b"--replace", b"--keep"), b"update": (b"--replace", b"--keep", RESOLVE), b"sync": (b"--replace", b"--keep"),
    b"erase": (b"--replace",), b"verify": (b"--full",),
}  # fmt: skip


def job_number(word):
    """The number that `r.N` names; None where the word is none."""
    digits = re.fullmatch(rb"r\.([1-9][0-9]{0,9})", word)
    return int(digits[1]) if digits and int(digits[1]) <= GREATEST_NUMBER else None


# Behind a command and its options stand at least and at most so many words, each of which is one by the test.
WORDS = {
    b"rq": (0, 1, is_name), b"q": (0, 1, is_name), b"rollback": (0, 1, job_number), b"localcs": (1, 1, is_name),
    b"changeset": (1, 2, is_spec), b"erase": (1, MOST_NAMES, is_name), b"verify": (0, MOST_NAMES, is_name),
    b"update": (1, MOST_NAMES, is_spec), **dict.fromkeys(b"install cook commit serve showcs rblist sync".split(), (0, 0, None)),
}


def are_words_of(command, options, rest):
    """Whether these words may stand behind the command and its options."""
    if command in (b"shadow", b"branch"):
        return len(rest) == 2 and is_label(rest[0]) and is_spec(rest[1])
    if (command, rest) == (b"update", [b"-"]):
        return RESOLVE not in options
    if command == b"mirror":
        return rest in ([b"ask"], [b"take"])
    least, most, is_word = WORDS.get(command, (1, 0, None))
    return least <= len(rest) <= most and all(map(is_word, rest))


def command_of(words):
    """The command, its options and what stands behind them."""
    if not words:
        raise Ended(2, b"")
    command, rest = words[0], list(words[1:])
    options = []
    while rest and rest[0] in OPTIONS.get(command, ()):
        if rest[0] in options:
            raise Ended(2, b"")
        options.append(rest.pop(0))
    short = len(words) <= program.MOST_WORDS and all(len(word) <= program.LONGEST_WORD for word in words)
    if not short or not are_words_of(command, options, rest):
        raise Ended(2, b"")
    return command, options, rest


def takes_input(command, rest):
    return command in program.TAKES_INPUT or (command, rest) in ((b"update", [b"-"]), (b"mirror", [b"take"]))


# ---- nodes and files

def read_pieces(tree, path, size=None):
    for _ in range(0, len(tree.nodes[path][2]) if size is None else size, PIECE):
        tree.read_at(path)


def read_file(tree, path, read=read_whole):
    """A look, and where a file stands its bytes."""
    node = tree.look(path)
    if is_of(node, "file"):
        read(tree, path)
    return node


def read_record_file(tree, path, kind=2):
    """A look at the file of a record in a format, and its bytes, where it is read."""
    if is_of(tree.look(path), "file") and is_read(tree, path, RECORD_MAGIC[kind], b"\x60\x64\x65\x66\x67\x6f"):
        read_whole(tree, path)


def read_saved(tree, path, size):
    """A look at a saved content, and its bytes, where there are as many as its fingerprint tells."""
    node = tree.look(path)
    if is_of(node, "file") and len(node[2]) == size:
        read_whole(tree, path)


# ---- opening a root that is recovered

def write_all(tree, puts):
    JOURNAL.apply(tree, sorted(puts.items()))


def open_database(tree):
    """The database, once a root of format 1 was brought to format 2."""
    node = tree.look(DATABASE)
    if is_of(node, "file"):
        # Its first bytes tell the format, and one that isn't of format 2 is read whole.
        tree.read_at(DATABASE)
        if not node[2].startswith(DATABASE_MAGIC[2]):
            read_whole(tree, DATABASE)
    puts = stacks.migrated(tree.nodes)
    if puts is not None:
        for path in sorted(puts.keys() - {DATABASE}, key=lambda path: -int(path.rpartition(b".")[2])):
            read_record_file(tree, path, 1)
        write_all(tree, puts)
    node = read_file(tree, DATABASE)
    if node is None:
        return EMPTY
    try:
        return Db(*read_database(node[2] if node[0] == "file" else b""))
    except NotOfForm:
        raise Damaged(DATABASE) from None


class Plan:
    """What a job makes of the paths that it changes, by the tests of the lists and of the tree, in the order of the calls."""

    def __init__(self, tree, before, after, options):
        self.tree, self.options = tree, [option.removeprefix(b"--").decode() for option in options if option != RESOLVE]
        self.old, self.fresh = ({trove.identity.name: dict(trove.files) for trove in troves} for troves in (before, after))
        self.nodes = dict(tree.nodes)
        plans.check_owned(self.fresh)
        left, refusal = self.tested(), None
        try:
            self.changes = plans.plan_changes(self.nodes, self.old, self.fresh, self.options)
        except Refused as why:
            self.changes, refusal = {}, why
        # Each directory that may be left empty is listed, but where something comes directly into it.
        for path in reversed(left):
            if not any(want is not None and parent_of(other) == path for other, want in self.changes.items()):
                tree.list(path)
        self.look_at_parents()
        if refusal is not None:
            raise refusal

    def tested(self):
        """Looks at each path that isn't settled by the lists. Answers the directories that may be left empty."""
        left = []
        for path in plans.all_paths(self.old, self.fresh):
            old, fresh = plans.record(self.old, path), plans.record(self.fresh, path)
            if path in program.FIXED or mark_of_record(old) == mark_of_record(fresh):
                continue
            stands = read_file(self.tree, path, read_pieces)
            plans.check_target(path, plans.row(path, old, fresh, stands, False, self.options))
            if fresh is None and old.kind == "d" and is_of(stands, "dir"):
                left.append(path)
        return left

    def look_at_parents(self):
        def stays_dir(path):
            return self.changes[path] is not None and self.changes[path].kind == "d"

        for path, want in sorted(self.changes.items()):
            was, above = self.nodes.get(path), parent_of(path)
            if want is not None and above in self.changes and not stays_dir(above):
                continue
            if want is not None and above not in self.changes and was is None and not is_of(self.tree.look(above), "dir"):
                continue
            if is_of(was, "dir") and not stays_dir(path):
                self.tree.list(path)


class Job:
    """A job on the root of a call, whose contents are carried, found in the repository, or stand at their paths."""

    def __init__(self, call, carried, searched):
        self.call, self.tree, self.db, self.carried, self.searched = call, call.root, call.db, dict(carried), searched

    def made(self, after, options):
        """Makes the job, or doesn't where nothing changes; answers the lines of it."""
        lists.closed(after)
        plan = Plan(self.tree, self.db.troves, after, options)
        find = self.call.found if self.searched else lambda name: None
        olds, wants = plans.targets(plan.nodes, plan.changes, self.carried.values(), find, lambda path: read_whole(self.tree, path))
        size = len(database_bytes(2, after, 0, 0))
        if size > MOST_BYTES:
            raise Refused(b"too large: database %d" % size)
        changes = list(lists.changed(self.db.troves, after))
        if wants or changes:
            self.write(after, wants, olds)
        return or_nothing(change_lines(changes))

    def write(self, after, wants, olds):
        """Saves the old contents, and puts targets, record and database by one write set."""
        number = self.db.newest + 1
        if number > GREATEST_NUMBER:
            raise Refused(b"too large: jobs %d" % GREATEST_NUMBER)
        oldest = max(self.db.oldest, number - MOST_JOBS + 1, 1)
        for one in ([oldest - 2] if oldest > 2 else []) + [number]:
            clear(self.tree, record_path(one))
            clear(self.tree, saved_path(one))
        make_dir(self.tree, BASE)
        for data in (node[2] for _, node in sorted(olds.items()) if is_of(node, "file")):
            make_dir(self.tree, saved_path(number))
            path = content_path(number, sha(data))
            if self.tree.look(path) is None:
                self.tree.append(path, data)
            else:
                read_pieces(self.tree, path, len(data))
        marks = [(path, mark_of(olds[path]), mark_of(wants[path])) for path in sorted(wants)]
        record = record_bytes(record_of(number, self.db.troves, after, marks), 2)
        own = {record_path(number): record, DATABASE: database_bytes(2, after, oldest, number)}
        write_all(self.tree, {**wants, **{path: ("file", 0o644, data) for path, data in own.items()}})


def check_undo(tree, found, changes):
    """The looks at the paths of a job that is to be taken back, up to its first refusal, which isn't told here."""
    paths = {path for path, _, _ in changes}
    for path, was, now in changes:
        node = found[path] if path in found else mark_of(read_file(tree, path, read_pieces))
        if node != now:
            return
        if was[0] != "dir" and now[0] == "dir" and is_of(tree.look(path), "dir"):
            children = tree.list(path)
            if any(child not in paths and found.get(child) != NOTHING for child in children):
                return
    for path, was, _ in changes:
        above = parent_of(path)
        if was != NOTHING and above not in paths and above not in found:
            tree.look(above)


def taken_back(tree, db, number):
    """The writes that take back all jobs from the newest down to a number, and the database after them."""
    if db.newest and db.oldest <= number <= db.newest:
        found, after, marks = {}, db.troves, stacks.marks_of(tree.nodes)
        for one in range(db.newest, number - 1, -1):
            read_record_file(tree, record_path(one))
            job = stacks.read_job(tree.nodes, 2, one, after)
            check_undo(tree, {path: was for path, (_, was) in found.items()}, job.changes)
            marks = stacks.undone(marks, job.changes)
            found.update({path: (one, was) for path, was, _ in job.changes})
            after = job.before
        for path, (one, was) in sorted(found.items()):
            if was == NOTHING:
                tree.look(path)
            if was[0] == "file":
                read_saved(tree, content_path(one, was[3]), was[2])
    return stacks.inverse_to(tree.nodes, db, number)


class Call(program.Call):
    """A whole call of the program, with the commands of the root as jobs."""

    def open(self):
        """Recovers both disks, and reads the database and the catalogue."""
        for path in program.FIXED:
            if not is_of(self.root.look(path), "dir"):
                raise Refused(b"parent " + path)
        JOURNAL.recover(self.root)
        self.db = open_database(self.root)
        repository.JOURNAL.recover(self.repo)
        self.catalogue = repository.load(self.repo)

    def perform(self):
        command, options, rest = command_of(self.words)
        self.open()
        return self.answer(command, options, rest, self.read_input() if takes_input(command, rest) else None)

    def answer(self, command, options, rest, data):
        calls = {
            b"showcs": lambda: set_text(read_set(data)),
            b"rq": lambda: self.list_troves(*rest),
            b"changeset": lambda: self.change_set(rest),
            b"shadow": lambda: self.move("shadow", *rest),
            b"branch": lambda: self.move("branch", *rest),
            b"cook": lambda: self.cook(data, options),
            b"commit": lambda: self.committed(read_set(data)),
            b"serve": lambda: mirrors.replies(self.repo, self.catalogue, data),
            b"mirror": lambda: mirrors.ask(self.catalogue) if data is None else self.committed(mirrors.take(data)),
            b"install": lambda: self.install(data, options),
            b"update": lambda: self.update(rest, options) if data is None else self.update_to(data, options),
            b"sync": lambda: self.sync(options),
            b"erase": lambda: Job(self, [], False).made(lists.erased(self.db.troves, rest), options),
            b"rollback": lambda: self.roll_back(job_number(rest[0]) if rest else self.db.newest),
            b"rblist": self.jobs,
            b"q": lambda: self.installed(rest),
            b"verify": lambda: self.verify(rest, bool(options)),
            b"localcs": lambda: self.local(*rest),
        }
        return calls[command]()

    # ---- jobs

    def job_with(self, troves, carried, searched, options):
        return Job(self, carried, searched).made(lists.updated(self.db.troves, troves), options)

    def install(self, data, options):
        troves, contents = manifest_of(data)
        for trove in troves:
            check_allowed(trove)
        return self.job_with(troves, contents, False, options)

    def update(self, specs, options):
        config = self.config()
        roots = [repository.resolve(self.catalogue, repository.spec_of(text), config) for text in specs]
        completes = RESOLVE in options
        come = completion.completed(self.catalogue, self.db.troves, roots, config) if completes else repository.expand(self.catalogue, *roots)
        return self.job_with(come, [], True, options)

    def sync(self, options):
        config = self.config()
        return Job(self, [], True).made(completion.wanted(self.catalogue, self.model(), config), options)

    def model(self):
        """What the root's model file says."""
        stands = self.root.look(MODEL)
        if not is_of(stands, "file"):
            raise Refused(b"no model")
        if len(stands[2]) > LARGEST_MODEL:
            raise Refused(b"too large: model %d" % len(stands[2]))
        return completion.read_model(read_whole(self.root, MODEL))

    def update_to(self, data, options):
        change = read_set(data)
        return self.job_with(all_made(change.parts, self.db.troves), change.contents, True, options)

    def found(self, name):
        """The content of this name in the repository."""
        return repository.content_of(self.repo, self.catalogue, name)

    def roll_back(self, number):
        puts, left = taken_back(self.root, self.db, number)
        write_all(self.root, {**puts, DATABASE: ("file", 0o644, database_bytes(2, *left))})
        return b"".join(b"rolled back r.%d\n" % one for one in range(self.db.newest, number - 1, -1))

    # ---- what is only read

    def jobs(self):
        out, after = b"", self.db.troves
        for number in range(self.db.newest, self.db.oldest - 1, -1) if self.db.newest else ():
            read_record_file(self.root, record_path(number))
            job = stacks.read_job(self.root.nodes, 2, number, after)
            out += note_text(number, len(job.changes), lists.changed(job.before, after))
            after = job.before
        return out

    def check_installed(self, names):
        there = by_name(self.db.troves)
        for name in names:
            if name not in there:
                raise Refused(b"not installed " + name)
        return there

    def installed(self, names):
        there = self.check_installed(names)
        return trove_text(there[names[0]]) if names else id_lines(one.identity for one in self.db.troves)

    def verify(self, names, full):
        self.check_installed(names)
        files = [file for trove in self.db.troves if not names or trove.identity.name in names for file in trove.files]
        found = [(self.found_at(path, record, full), path) for path, record in files]
        found = [finding_line(*one) for one in found if one[0] is not None]
        return b"".join(found) + b"verified %d paths, %d changed\n" % (len(files), len(found))

    def found_at(self, path, record, full):
        """What is found at a path: nothing where it is as recorded, a word, or how many bytes differ from the content in the repository."""
        node = read_file(self.root, path, read_pieces)
        if node is None:
            return "missing"
        if record.kind == "d" and node[0] == "dir" or mark_of(node) == mark_of_record(record):
            return None
        content = self.found(record.name) if full and record.kind == "f" and node[0] == "file" else None
        if content is None or len(content) != record.size:
            return "changed"
        self.root.look(path)
        read_pieces(self.root, path, min(len(content), len(node[2])))
        return different_bytes(content, node[2])

    def local(self, name):
        there = by_name(self.db.troves)
        troves = reached(there, name)
        if all(len(local_id(trove.identity).version) <= LONGEST for trove in troves):
            for path in (path for trove in troves for path, _ in trove.files):
                read_file(self.root, path)
        return local_changes(self.root.nodes, there, name)
