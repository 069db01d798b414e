"""An independent reading of docs/FORMATS.md: databases and rollback records, their grammar and their one spelling in each format.

It shares nothing with the programs that are tested with it. The grammar of troves comes from tools/model/streams.py."""
from collections import namedtuple

from tools.model.relatives import relative_of
from tools.model.streams import (
    ROOT, NotOfForm, cached, forbidden_path, id_bytes, inner_items, is_path, is_target, item, need, number, read_id, read_relative, read_trove,
    relative_bytes, rises, sha, str_field, take_str, trove_bytes,
)  # fmt: skip

BASE = b"/var/lib/conarydb"
DATABASE = BASE + b"/db"
MAGIC = {1: b"CNYRB01\n", 2: b"CNYRB02\n"}
DATABASE_MAGIC = {1: b"CNYDB01\n", 2: b"CNYDB02\n"}
NUMBER, CAME, WAS, TURNED, ENTRY, END = 0x60, 0x64, 0x65, 0x66, 0x67, 0x6F
TROVE, NUMBERS, DATABASE_END = 0x50, 0x51, 0x5F
MOST_JOBS, GREATEST_NUMBER, MOST_BYTES = 4_096, 4_294_967_295, 536_870_912

Db = namedtuple("Db", "troves oldest newest")
EMPTY = Db([], 0, 0)
# A delta is a tag with an id, a trove or a relative trove; an entry a path with two fingerprints, each of which may be `=`.
Record = namedtuple("Record", "number deltas entries")
LISTED, NOTHING = ("=",), ("nothing",)


def record_path(place):
    return BASE + b"/r.%d" % place


def saved_path(place):
    return BASE + b"/s.%d" % place


def content_path(place, name):
    return saved_path(place) + b"/" + name.hex().encode()


def four(value):
    return value.to_bytes(4, "big")


def is_roots(files):
    return all(record.owner == ROOT for _, record in files)


def share_dirs_alone(troves):
    seen = {}
    for path, record in (file for trove in troves for file in trove.files):
        if path in seen and not (seen[path] and record.kind == "d"):
            return False
        seen[path] = record.kind == "d"
    return True


@cached
def read_database(text):
    """The troves and the numbers; or NotOfForm where the file fails its grammar or a cross-check."""
    full = text.startswith(DATABASE_MAGIC[2])
    need(full or text.startswith(DATABASE_MAGIC[1]))
    found = inner_items(text[8:])
    need(len(found) >= 2 and found[-1] == (DATABASE_END, b"") and all(tag == TROVE for tag, _ in found[:-2]))
    tag, numbers = found[-2]
    need(tag == NUMBERS and len(numbers) == 8)
    troves = [read_trove(value, full) for _, value in found[:-2]]
    oldest, newest = number(numbers[:4]), number(numbers[4:])
    need((oldest, newest) == (0, 0) or 1 <= oldest <= newest < oldest + MOST_JOBS)
    need(full or all(is_roots(trove.files) for trove in troves))
    need(rises([trove.identity.name for trove in troves]))
    need(all(forbidden_path(trove) is None for trove in troves) and share_dirs_alone(troves))
    return Db(troves, oldest, newest)


def database_bytes(kind, troves, oldest, newest):
    body = b"".join(item(TROVE, trove_bytes(trove, kind == 2)) for trove in troves)
    return DATABASE_MAGIC[kind] + body + item(NUMBERS, four(oldest) + four(newest)) + item(DATABASE_END, b"")


def mark_of(node):
    """The fingerprint of a node."""
    return NOTHING if node is None else (*node[:2], len(node[2]), sha(node[2])) if node[0] == "file" else node


def mark_of_record(record):
    """The fingerprint that a record wants; NOTHING where there is none."""
    if record is None:
        return NOTHING
    if record.kind == "f":
        return "file", record.mode, record.size, record.name
    return ("dir", record.mode) if record.kind == "d" else ("link", record.target)


def mark_bytes(mark):
    kind, *fields = mark
    if kind == "link":
        return b"l" + str_field(*fields)
    mode = fields[0].to_bytes(2, "big") if fields else b""
    return kind[:1].encode() + mode + (four(fields[1]) + fields[2] if kind == "file" else b"")


def take_mark(text):
    """The fingerprint, or `=`, at the front, and what stands behind it."""
    if text[:1] == b"l":
        target, rest = take_str(text[1:])
        need(is_target(target))
        return ("link", target), rest
    kinds = {b"=": ("=", 0, 0), b"n": ("nothing", 0, 0), b"d": ("dir", 1, 2), b"f": ("file", 3, 26)}
    need(text[:1] in kinds)
    (kind, count, size), rest = kinds[text[:1]], text[1:]
    need(len(rest) >= size and (size == 0 or number(rest[:2]) <= 0o7777))
    return (kind, *[number(rest[:2]), number(rest[2:6]), rest[6:26]][:count]), rest[size:]


def delta_name(delta):
    tag, value = delta
    return value.name if tag == CAME else value.identity.name if tag == WAS else value.old.name


def delta_bytes(delta, kind):
    tag, value = delta
    return item(tag, id_bytes(value) if tag == CAME else (trove_bytes if tag == WAS else relative_bytes)(value, kind == 2))


def read_delta(tag, value, kind):
    full = kind == 2
    need(tag in (CAME, WAS, TURNED))
    if tag == CAME:
        return tag, read_id(value)
    made = (read_trove if tag == WAS else read_relative)(value, full)
    need(full or is_roots(made.files if tag == WAS else made.lists[0x24]))
    return tag, made


def read_entry(value):
    path, rest = take_str(value)
    need(is_path(path))
    before, rest = take_mark(rest)
    after, rest = take_mark(rest)
    need(rest == b"")
    return path, before, after


def read_record(text, kind):
    """The record that the bytes spell in the format; or NotOfForm."""
    need(text.startswith(MAGIC[kind]))
    found = inner_items(text[8:])
    need(len(found) >= 2 and found[0][0] == NUMBER and len(found[0][1]) == 4 and found[-1] == (END, b""))
    count = next((at for at, (tag, _) in enumerate(found) if tag == ENTRY), len(found) - 1)
    need(all(tag == ENTRY for tag, _ in found[count:-1]))
    deltas, entries = [read_delta(*one, kind) for one in found[1:count]], [read_entry(value) for _, value in found[count:-1]]
    need(rises([delta_name(delta) for delta in deltas]) and rises([path for path, _, _ in entries]))
    return Record(number(found[0][1]), deltas, entries)


def entry_bytes(entry):
    path, before, after = entry
    return item(ENTRY, str_field(path) + mark_bytes(before) + mark_bytes(after))


def record_bytes(record, kind):
    deltas = b"".join(delta_bytes(delta, kind) for delta in record.deltas)
    return MAGIC[kind] + item(NUMBER, four(record.number)) + deltas + b"".join(map(entry_bytes, record.entries)) + item(END, b"")


def by_name(troves):
    return {trove.identity.name: trove for trove in troves}


def recorded(troves, path):
    """The fingerprint of the first trove by name that records the path."""
    return next((mark_of_record(record) for trove in troves for other, record in trove.files if other == path), None)


def delta_between(now, was):
    if was is None:
        return CAME, now.identity
    return (WAS, was) if now is None or now.identity == was.identity else (TURNED, relative_of(now, was))


def record_of(place, before, after, changes):
    """The record of a job, by the lists before and after it, and the fingerprints at its paths."""
    was, now = by_name(before), by_name(after)
    names = sorted(name for name in was.keys() | now.keys() if was.get(name) != now.get(name))
    tells = lambda mark, troves, path: LISTED if recorded(troves, path) == mark else mark
    entries = [(path, tells(old, before, path), tells(new, after, path)) for path, old, new in changes]
    return Record(place, [delta_between(now.get(name), was.get(name)) for name in names], entries)
