"""File records, troves, relative troves and change sets, each with its grammar and its one stream, and what a reader of change sets answers for
bytes that are none, by the rules of docs/FORMATS.md alone. The texts in them are those of tools/model/texts.py.

It shares nothing with the programs that are tested with it."""
import hashlib
from collections import namedtuple

from tools.model.texts import (  # some of these are for those who read streams
    Id, NotOfForm, Refused, cached, check_id, check_path, has_build, id_bytes, id_of_text, id_text, is_forbidden, is_label, is_name, is_path,
    is_target, is_word, name_kind, need, read_id, rises, str_field, take_str, whole_dep_of,
)

MOST_FILES, MOST_DEPS, MOST_PARTS = 65_535, 4_096, 4_096
LARGEST_CONTENT, LARGEST_SET = 16_777_216, 268_435_456


class FaultAt(NotOfForm):
    """No item stands at a place: the place of the fault."""


class Fault(Refused):
    """Bytes that are no change set, with the text of the refusal."""


def malformed(at):
    return Fault(f"malformed at {at}")


def sha(data):
    return hashlib.sha1(data).digest()


def difference(one, other):
    """The first place at which bytes differ, or at which the shorter end."""
    return next((at for at, (a, b) in enumerate(zip(one, other)) if a != b), min(len(one), len(other)))


def different_bytes(one, other):
    """How many bytes differ; what one is longer counts too."""
    return sum(a != b for a, b in zip(one, other)) + abs(len(one) - len(other))


def keep(kept, data):
    """Keeps a content by its name, but where another one of that name is kept."""
    other = kept.setdefault(sha(data), data)
    if other != data:
        raise Refused(f"collision {sha(data).hex()} at {difference(other, data)}")


def number(text):
    return int.from_bytes(text, "big")


# ---- items

def item(tag, value):
    return bytes([tag]) + len(value).to_bytes(4, "big") + value


def items(tag, values):
    return b"".join(item(tag, value) for value in values)


def next_item(text, at, tags):
    """The tag of the item at a place, and where its value stands, from and to.

    Another tag than these is at fault where it stands; else the fault of an item that isn't all there is where the bytes end."""
    if at < len(text) and text[at] not in tags:
        raise FaultAt(at)
    end = at + 5 + number(text[at + 1 : at + 5])
    if len(text) < at + 5 or len(text) < end:
        raise FaultAt(len(text))
    return text[at], at + 5, end


def inner_items(text):
    """The items inside the value of another item, of which nothing may be left over."""
    found, at = [], 0
    while at < len(text):
        tag, start, at = next_item(text, at, range(256))
        found.append((tag, text[start:at]))
    return found


def read_lists(found, readers):
    """The items of each list, which stand in the order of their tags."""
    tags = [tag for tag, _ in found]
    need(tags == sorted(tags) and all(tag in readers for tag in tags))
    return {tag: [readers[tag](value) for one, value in found if one == tag] for tag in readers}


def read_dependency(text):
    whole_dep_of(text)
    return text


# ---- file records

Owner = namedtuple("Owner", "user group")
ROOT = Owner(b"root", b"root")
# `kind` is a letter; of a link there is the target alone, of a directory no flags, size and name.
Record = namedtuple("Record", "kind mode owner flags size name target")
FLAGS = ((1, b"config"), (2, b"initial"), (4, b"transient"))


def directory(mode, owner=ROOT):
    return Record("d", mode, owner, 0, 0, b"", b"")


def regular(mode, flags, size, name, owner=ROOT):
    return Record("f", mode, owner, flags, size, name, b"")


def file_of(data, mode=0o644, flags=0, owner=ROOT):
    """The record of a file with these bytes."""
    return regular(mode, flags, len(data), sha(data), owner)


def flag_letters(flags):
    """The first letter of each flag of a file, or `-` where it isn't set."""
    return "".join(chr(word[0]) if flags & bit else "-" for bit, word in FLAGS)


def flags_of_letters(letters):
    return sum(bit for bit, word in FLAGS if chr(word[0]) in letters)


def link(target):
    return Record("l", 0, ROOT, 0, 0, b"", target)


def is_owner(owner):
    return all(is_word(word) and len(word) <= 32 for word in owner)


def names_owner(record, full):
    """Whether the owner stands in the record: never for a link, in the compact encoding where it isn't root."""
    return record.kind != "l" and (full or record.owner != ROOT)


def record_bytes(record, full=False):
    named = names_owner(record, full)
    head = bytes([2 if named else 1]) + record.kind.encode() + bytes([record.flags]) + record.mode.to_bytes(2, "big")
    rest = {"d": b"", "f": record.size.to_bytes(4, "big") + record.name, "l": str_field(record.target)}[record.kind]
    return head + (b"".join(map(str_field, record.owner)) if named else b"") + rest


def read_record(text, full=False):
    need(len(text) >= 5 and text[0] in (1, 2))
    kind, flags, mode, rest, owner = text[1:2], text[2], number(text[3:5]), text[5:], ROOT
    need(mode <= 0o7777)
    if text[0] == 2:
        user, rest = take_str(rest)
        group, rest = take_str(rest)
        owner = Owner(user, group)
        need(is_owner(owner))
    if kind == b"d":
        need(flags == 0 and rest == b"")
        record = directory(mode, owner)
    elif kind == b"f":
        need(flags <= 7 and len(rest) == 24 and number(rest[:4]) <= LARGEST_CONTENT)
        record = regular(mode, flags, number(rest[:4]), rest[4:], owner)
    else:
        need(kind == b"l" and flags == 0 and mode == 0)
        target, behind = take_str(rest)
        need(is_target(target) and behind == b"")
        record = link(target)
    need((text[0] == 2) == names_owner(record, full))
    return record


def file_value(file, full=False):
    """A str path, and a file record."""
    path, record = file
    return str_field(path) + record_bytes(record, full)


@cached
def read_file(text, full=False):
    path, record = take_str(text)
    need(is_path(path))
    return path, read_record(record, full)


# ---- troves

Trove = namedtuple("Trove", "identity files refs requires provides")


def trove_of(name, version, files=(), refs=(), requires=(), provides=(), flavor=b""):
    """A trove of these parts in any order."""
    return Trove(Id(name, version, flavor), sorted(files), sorted(refs), sorted(requires), sorted(provides))


def check_trove(trove):
    """The rules of troves."""
    (name, version, flavor), files, refs, requires, provides = trove
    need(len(files) <= MOST_FILES and len(refs) <= MOST_FILES and len(requires) <= MOST_DEPS and len(provides) <= MOST_DEPS)
    need(all(map(rises, ([path for path, _ in files], refs, requires, provides))))
    need(all(record.size <= LARGEST_CONTENT for _, record in files))
    # Only what is built has a build count, and a component called `source` isn't.
    need(has_build(version) != name.endswith(b":source"))
    kind = name_kind(name)
    need(refs == [] if kind == b"component" else files == [] and requires == [] and provides == [])
    need(kind != b"package" or all(ref.name.startswith(name + b":") and ref[1:] == (version, flavor) for ref in refs))
    need(kind != b"group" or all(ref.name != name for ref in refs))
    return trove


def trove_bytes(trove, full=False):
    head = b"".join(item(tag, text) for tag, text in zip((1, 2, 3), trove.identity))
    files = items(4, [file_value(file, full) for file in trove.files])
    return head + files + items(5, map(id_bytes, trove.refs)) + items(6, trove.requires) + items(7, trove.provides)


@cached
def read_trove(text, full=False):
    """The stream of a whole trove."""
    found = inner_items(text)
    need([tag for tag, _ in found[:3]] == [1, 2, 3])
    identity = check_id(Id(*(value for _, value in found[:3])))
    lists = read_lists(found[3:], {4: lambda value: read_file(value, full), 5: read_id, 6: read_dependency, 7: read_dependency})
    return check_trove(Trove(identity, *lists.values()))


def forbidden_path(trove):
    """The first path that no trove may record."""
    return next((path for path, record in trove.files if is_forbidden(path, record.kind == "d")), None)


# ---- relative troves

# What is gone and what is set or added, by tag from 0x23 to 0x2A: paths, files, and twice each references, requirements and provides.
Relative = namedtuple("Relative", "old new lists")
TAGS = range(0x23, 0x2B)


def check_relative(relative):
    old, new, lists = relative
    need(old.name == new.name and old != new)
    keys = {**lists, 0x24: [path for path, _ in lists[0x24]]}
    need(all(record.size <= LARGEST_CONTENT for _, record in lists[0x24]))
    # Nothing is both gone and set, or both gone and added.
    need(all(rises(keys[tag]) for tag in TAGS) and not any(set(keys[tag]) & set(keys[tag + 1]) for tag in TAGS[::2]))
    return relative


def relative_bytes(relative, full=False):
    out = item(0x21, id_bytes(relative.old)) + item(0x22, id_bytes(relative.new))
    spell = {0x24: lambda file: file_value(file, full), 0x25: id_bytes, 0x26: id_bytes}
    return out + b"".join(items(tag, map(spell.get(tag, bytes), relative.lists[tag])) for tag in TAGS)


def read_relative(text, full=False):
    """The stream of a relative trove."""
    found = inner_items(text)
    need([tag for tag, _ in found[:2]] == [0x21, 0x22])
    old, new = [read_id(value) for _, value in found[:2]]
    readers = [check_path, lambda value: read_file(value, full), read_id, read_id] + [read_dependency] * 4
    return check_relative(Relative(old, new, read_lists(found[2:], dict(zip(TAGS, readers)))))


# ---- change sets

MAGIC = b"CNYCS01\n"
WHOLE, RELATIVE, CONTENT, END = 0x10, 0x11, 0x12, 0x1F
ChangeSet = namedtuple("ChangeSet", "parts contents")


def asked_by(part):
    """The name and the size of each content that a file record of the part names."""
    files = part.files if isinstance(part, Trove) else part.lists[0x24]
    return {(record.name, record.size) for _, record in files if record.kind == "f"}


def read_set(text):
    """The change set, or the first fault. The text is read item by item, from the front."""
    # An item that isn't all there is at fault where the text ends, whatever is wrong with it but its tag and a content's length.
    if text[:8] != MAGIC:
        raise malformed(0 if len(text) >= 8 else len(text))
    at, asked, found = 8, set(), ChangeSet([], [])
    while True:
        # No part stands behind a content, and there are 4,096 of them at most.
        full = found.contents or len(found.parts) == MOST_PARTS
        if at == len(text) or text[at] not in ((CONTENT, END) if full else (WHOLE, RELATIVE, CONTENT, END)):
            raise malformed(at)
        length = number(text[at + 1 : at + 5])
        # A content that is too large is refused by its length alone: 20 bytes of it are its name.
        if len(text) >= at + 5 and text[at] == CONTENT and length > LARGEST_CONTENT + 20:
            raise Fault(f"too large: content {length - 20}")
        if len(text) < at + 5 + length:
            raise malformed(len(text))
        tag, start, end = next_item(text, at, range(256))
        value = text[start:end]
        try:
            if tag == END:
                need(value == b"")
            elif tag == CONTENT:
                # The name is the SHA-1 of the bytes, a record asks for it and their size, and the names strictly rise.
                name, data = value[:20], value[20:]
                need(len(value) >= 20 and sha(data) == name and (name, len(data)) in asked)
                need(not found.contents or found.contents[-1][0] < name)
                found.contents.append((name, data))
            else:
                found.parts.append(read_trove(value) if tag == WHOLE else read_relative(value))
                asked.update(asked_by(found.parts[-1]))
        except NotOfForm:
            raise malformed(at) from None
        at = end
        if tag == END:
            if at != len(text):
                raise malformed(at)
            return found


def set_bytes(parts, contents):
    """The stream, or the fault of a set that is too large."""
    if len(parts) > MOST_PARTS:
        raise Fault(f"too large: change set {len(parts)}")
    made = [item(WHOLE, trove_bytes(part)) if isinstance(part, Trove) else item(RELATIVE, relative_bytes(part)) for part in parts]
    text = MAGIC + b"".join(made) + items(CONTENT, [name + text for name, text in contents]) + item(END, b"")
    if len(text) > LARGEST_SET:
        raise Fault(f"too large: change set {len(text)}")
    return text


def set_text(found):
    lines = []
    for part in found.parts:
        whole = isinstance(part, Trove)
        lines.append(b"absolute " + id_text(part.identity) if whole else b"relative " + id_text(part.new) + b" from " + id_text(part.old))
    lines += [b"content %s %d" % (name.hex().encode(), len(text)) for name, text in found.contents]
    return b"".join(line + b"\n" for line in lines)
