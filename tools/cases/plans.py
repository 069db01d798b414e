"""Lines of list_lines on fingerprints, plans, their write sets and verifications, and the answers by tools/model/plans.py; how often a plan looks
at the disk and reads it, and how often a write set asks for contents and files, from what docs/DESIGN.md says of their cost. In plans.txt there are
cases that are told one by one: what stands, and the troves before and, but for verifications, after, as tools/cases/rows.py reads them, and then
what else is given."""
import itertools

from tools.cases.rows import ONE, OTHER, Rows, content
from tools.lines.words import answered, digits, line, node_word, tree_word, word, yes_or_no
from tools.model.plans import FIXED, all_paths, owned, plan_changes, record, write_set
from tools.model.records import mark_of, mark_of_record
from tools.model.reports import finding_line
from tools.model.root import found_at
from tools.model.streams import different_bytes, flag_letters, sha, trove_bytes, trove_of
from tools.model.trees import DIR, parent_of

PIECE = 65_536
TABLE = Rows("plans", data=content)
TABLE.names.update(row.split(" = ") for row in TABLE.topics["names"])

# ---- nodes, records and texts

def data(text):
    """Bytes, of a text where they aren't given."""
    return text if isinstance(text, bytes) else content(text)


def node(text="x", mode=0o644):
    return "file", mode, data(text)


def tree_of(text):
    return dict(TABLE.nodes(text))


def troves_of(text):
    """The files of troves by their names, with ` & ` between two: those of `a:lib` where no name stands before them."""
    troves = (one.rpartition(": ") for one in text.split(" & ") if one != "nothing")
    return {(name or "a:lib").encode(): dict(TABLE.nodes(files, TABLE.record)) for name, _, files in troves}


def mark_text(node):
    return node_word(mark_of(node))


def want_text(record):
    """The fingerprint of what is recorded, and the flags of a file."""
    text = node_word(mark_of_record(record))
    return f"{text} {flag_letters(record.flags)}" if record is not None and record.kind == "f" else text


def trove_field(name, files):
    return digits(trove_bytes(trove_of(name, b"/h@n:t/1.0-1-1", files.items())))


def record_field(path, record):
    """A record, as the first one of a trove."""
    return trove_field(b"a:lib", {path: record})


def troves_field(troves):
    return ";".join(trove_field(name, files) for name, files in sorted(troves.items()))


def rooted(tree):
    return {b"/": DIR, **tree}


def given_in(row, lists):
    """What stands in a row, so many lists of troves, and what else is given, by its first word."""
    stands, *rest = row.split(" | ")
    more = dict(one.partition(" ")[::2] for one in rest[lists:])
    return tree_of(stands), *(troves_of(one) for one in rest[:lists]), more


# ---- plans

def compared(old, fresh):
    """The paths whose fingerprint is taken: those of which the two lists record something else."""
    for path in all_paths(old, fresh):
        if path not in FIXED and mark_of_record(record(old, path)) != mark_of_record(record(fresh, path)):
            yield path


def kind_at(tree, path):
    return (tree.get(path) or ("nothing",))[0]


def calls(tree, old, fresh, changes):
    """The looks, the reads of files in pieces, and the lists of directories."""
    looks = reads = lists = 0
    for path in compared(old, fresh):
        looks += 1
        if kind_at(tree, path) == "file":
            reads += -(-len(tree[path][2]) // PIECE)
        made = any(other != b"/" and parent_of(other) == path and want is not None for other, want in changes.items())
        # What is left is a directory that the old list alone records.
        is_left = mark_of_record(record(old, path))[0] == "dir" and record(fresh, path) is None
        lists += kind_at(tree, path) == "dir" and not made and is_left
    for path, want in changes.items():
        looks += want is not None and path not in tree and parent_of(path) not in changes
        lists += kind_at(tree, path) == "dir" and (want is None or want.kind != "d")
    return f"{looks} looks, {reads} reads, {lists} lists"


def plan_line(tree, old, fresh, *options):
    tree = rooted(tree)
    asked = line("plan", " ".join(options), tree_word(tree, word), troves_field(old), troves_field(fresh))
    if "fail" in options and not any(owned(fresh, path) for path in all_paths(fresh)) and any(compared(old, fresh)):
        return asked, "failed"

    def made():
        changes = plan_changes(tree, old, fresh, options)
        parts = [f"{path.decode()}: {mark_text(tree.get(path))} -> {want_text(changes[path])}" for path in sorted(changes)]
        return line("ok", *parts, *([calls(tree, old, fresh, changes)] if "calls" in options else []))

    return asked, answered(made)


EVERY = [[], ["replace"], ["keep"], ["keep", "replace"]]


def plan_lines(topic, choices):
    """The rows of a topic, each with each choice of options."""
    for row, options in itertools.product(TABLE.steps(TABLE.rows(topic)), choices):
        *case, more = given_in(row, 2)
        yield plan_line(*case, *more, *options)


# ---- fingerprints and differences

def mark_at(tree, path):
    return mark_of(rooted(tree_of(tree)).get(path.encode()))


def mark_recorded(text):
    return mark_of_record(TABLE.file(text)[1])


# The arguments of a call, and what it answers.
MARKS = {
    "mark_file": lambda text: (["0644", word(data(text))], mark_text(node(text))),
    "mark": lambda tree, path: ([tree_word(tree_of(tree), word), path], node_word(mark_at(tree, path))),
    "matches": lambda tree, file: (
        [tree_word(tree_of(tree), word), record_field(*TABLE.file(file))], yes_or_no(mark_at(tree, file.rpartition(" ")[2]) == mark_recorded(file))
    ),
    "same": lambda one, other: ([record_field(*TABLE.file(text)) for text in (one, other)], yes_or_no(mark_recorded(one) == mark_recorded(other))),
    "alike": lambda tree, one, other: ([tree_word(tree_of(tree), word), one, other], yes_or_no(mark_at(tree, one) == mark_at(tree, other))),
    "differing": lambda tree, path, text: (
        [tree_word(tree_of(tree), word), path, word(data(text))], str(different_bytes(tree_of(tree)[path.encode()][2], data(text)))
    ),
    "verified": lambda path: ([path], path + " 1"),
}


def mark_lines():
    """Rows of a call and its arguments, of one on a tree also `fail`; some have their answer."""
    for row in TABLE.rows("marks"):
        given, _, wanted = row.partition(" > ")
        call, *fields = given.split(" | ")
        words = [fields.pop()] if fields[-1] == "fail" else [] if call in ("mark_file", "same", "verified") else [""]
        arguments, answer = MARKS[call](*fields)
        assert wanted in ("", answer), row
        yield line(call, *words, *arguments), "failed" if words == ["fail"] else answer


# ---- verifications

def verify_line(tree, troves, names=(), known=(), fails=False):
    known = list(map(data, known))
    given = tree_word(tree, word), troves_field(troves), b";".join(names), ";".join(map(word, known))
    asked = line("verify", "fail" if fails else "", *given)
    absent = [name for name in names if name not in troves]
    if absent:
        return asked, f"not installed {absent[0].decode()}"
    paths = [(path, record) for name in sorted(troves) if not names or name in names for path, record in sorted(troves[name].items())]
    if fails and paths:
        return asked, "failed"
    found = [(found_at(mark_of_record(record), rooted(tree).get(path), known), path) for path, record in paths]
    texts = [finding_line(*one).decode()[:-1] for one in found if one[0] is not None]
    return asked, "|".join(texts + [f"verified {len(paths)} paths, {len(texts)} changed", "", ""])


def verify_row(row):
    tree, troves, more = given_in(row, 1)
    return verify_line(tree, troves, more.get("names", "").encode().split(), more.get("known", "").split(), "fail" in more)


# ---- write sets

def checksum(data):
    """Of the first 4,096 bytes."""
    total = 0
    for byte in data[:4096]:
        total = (total * 31 + byte) % 2**32
    return total


def node_text(node):
    """What stands or is to stand: its fingerprint, and of a file the checksum of its bytes."""
    return mark_text(node) + (f" {checksum(node[2])}" if node is not None and node[0] == "file" else "")


def targets_line(options, tree, old, fresh, carried=(), far=(), now=None):
    """A write set, where `now` stands."""
    tree, carried, far = rooted(tree), list(map(data, carried)), list(map(data, far))
    far_field = "!fails" if "far-fails" in options else "!damaged" if "far-damaged" in options else ";".join(map(word, far))
    contents = ";".join(map(word, sorted(set(carried), key=sha)))
    given = tree_word(tree, word), troves_field(old), troves_field(fresh), "=" if now is None else tree_word(now, word), contents, far_field
    asked = line("targets", " ".join(one for one in options if not one.startswith("far-")), *given)

    def made():
        changes = plan_changes(tree, old, fresh, options)
        stood, wants, counts = write_set(tree, changes, now or tree, carried, far, options)
        marks = {path: node_word(mark_of_record(want)) for path, want in changes.items()}
        parts = (f"{path.decode()}: {node_text(stood[path])} -> {node_text(wants[path])} ({marks[path]})" for path in sorted(changes))
        return line("ok", *parts, f"{counts['finds']} finds, {counts['files']} files")

    return asked, answered(made)


def targets_rows(topic, options=(), carried=(), far=()):
    """The rows of a topic, which may have options, contents and what stands later with them."""
    for row in TABLE.rows(topic):
        tree, old, fresh, more = given_in(row, 2)
        some, others = (more.pop(name).split() if name in more else given for name, given in (("carried", carried), ("far", far)))
        now = tree_of(more.pop("now")) if "now" in more else None
        yield targets_line([*options, *more], tree, old, fresh, some, others, now)


LATE = "edits between the plan and its write set, which a disk that tells nothing may show"


def targets_lines():
    for carried, far in itertools.product(([], ["new"], ["newer"], ["x", "new", "y"]), ([], ["new"], ["x", "y"], ["other", "new"])):
        yield from targets_rows("sources", (), carried, far)
    for carried, far in itertools.product(([], [ONE], [OTHER]), repeat=2):
        yield from targets_rows("one SHA-1", (), carried, far)
    for words, carried in itertools.product(([], ["far-fails"], ["far-damaged"], ["fail"]), ([], ["new"], ["new", "n"])):
        yield from targets_rows("contents that fail or are damaged", words, carried)
    for topic in ("missing contents", "order", "equal old contents", "collisions", LATE, "write sets by chance"):
        yield from targets_rows(topic)


def lines():
    yield from itertools.chain(plan_lines("named", [[]]), plan_lines("every record", EVERY), plan_lines("several flags", EVERY), plan_lines("shapes", EVERY))
    yield from plan_lines("what both lists record so isn't looked at", [[]])
    yield from plan_lines("calls", [["calls"], ["calls", "replace"]])
    yield from itertools.chain(plan_lines("plans by chance", [[]]), mark_lines(), map(verify_row, TABLE.rows("verify")), targets_lines())
