"""The cases of relative troves, and of troves that come with a change set: calls and their arguments, by topic.

An argument is bytes or Terms (tools/lines/words.py)."""
import functools

from tools.cases.rows import Rows, id_of
from tools.lines.words import Terms
from tools.model.streams import TAGS, Id, Relative, Trove, file_of, id_bytes, item, record_bytes, relative_bytes, set_bytes, trove_bytes, trove_of

TABLE = Rows("relatives")
OLD, NEW = [b"/a@b:c/1-%d-1" % count for count in (1, 2)]


def between(old, new):
    """All that two troves of one name and two ids can be asked."""
    return ((call, trove_bytes(old), trove_bytes(new)) for call in ("relative_of", "round", "to_send"))


# ---- the rows of relatives.txt

def relative_in(text):
    """Two ids with ` to ` between them, and behind ` with ` the changes: files, references, requirements and what is provided, those that
    go behind `gone`."""
    ids, _, parts = text.partition(" with ")
    made = Relative(*map(id_of, ids.split(" to ")), {tag: [] for tag in TAGS})
    for part in filter(None, parts.split(", ")):
        is_gone, part = part.startswith("gone "), part.removeprefix("gone ")
        word, _, rest = part.partition(" ")
        tag, read = {"ref": (0x25, id_of), "requires": (0x27, TABLE.word), "provides": (0x29, TABLE.word)}.get(word, (0x23, None))
        value = read(rest) if read else TABLE.word(part) if is_gone else TABLE.file(part)
        made.lists[tag + (not is_gone)].append(value)
    return made


def stream_of(call, text):
    """The stream of a trove, of a relative trove or of a change set without contents; or bytes."""
    if text.startswith("bytes "):
        return bytes.fromhex(text[6:])
    parts = [relative_in(one) if " to " in one else TABLE.trove(one) for one in text.split(" + ") if one]
    if call in ("allowed", "applied"):
        return set_bytes(parts, [])
    return trove_bytes(*parts) if isinstance(parts[0], Trove) else relative_bytes(*parts)


def written(topic):
    """The calls of a topic of the table, each with the streams of its troves."""
    for call, *given in (row.split(" | ") for row in TABLE.rows(topic)):
        yield from between(*map(TABLE.trove, given)) if call == "between" else [(call, *(stream_of(call, text) for text in given))]


def limits():
    """As many requirements as a trove may have, and one more."""
    ids = b"".join(item(tag, id_bytes(Id(b"a:b", version, b""))) for tag, version in ((0x21, OLD), (0x22, NEW)))
    for count in (4_095, 4_096, 4_097):
        relative = Terms(ids, (b"\x2a\x00\x00\x00\x0dtrove: a", count, b""))
        yield from (("apply", trove_bytes(trove_of(b"a:b", OLD, provides=deps)), relative) for deps in ([], [b"trove: b"]))


def long_lists():
    """Some thousands of files, all of them changed, kept, gone in part, or gone."""

    def counted(version, count, data):
        front = b"".join(item(tag, text) for tag, text in ((1, b"a:b"), (2, version), (3, b"")))
        record = record_bytes(file_of(data))
        many = (b"\x04" + (9 + len(record)).to_bytes(4, "big") + b"\x00\x07/f", count, record)
        return Terms(front, many) if count else Terms(front)

    for count, data in ((2_000, b"abd"), (2_000, b"abc"), (1_000, b"abc"), (0, b"abc")):
        yield from ((call, counted(OLD, 2_000, b"abc"), counted(NEW, count, data)) for call in ("relative_of", "round", "to_send"))


TOPICS = (
    "worked relative troves; flavors; records; lists; packages; gone, set, replaced and kept; bases; rules of troves; limits; long lists; "
    "contents to send; forbidden paths; change sets over installed troves"
)
MADE = {"limits": limits, "long lists": long_lists}
CASES = [(title, MADE.get(title) or functools.partial(written, title)) for title in TOPICS.split("; ")]
