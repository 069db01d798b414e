"""How values stand in the lines of all programs, and in what these answer: bytes, nodes, fingerprints and trees.

A node is one of tools/model/trees.py, a fingerprint one of tools/model/records.py."""
import functools
import hashlib
import itertools
import pathlib
import re
import sys

from tools.model.streams import NotOfForm, Refused
from tools.model.trees import Damaged, Failed

LONGEST_SHOWN, LONGEST_NAMED = 40, 1_000_000
MOST_TIMES, LONG_RUN = 1_000_000, 1_000
PLAIN = re.compile(rb"(?!0x)[A-Za-z0-9/][A-Za-z0-9/._-]*")


def digits(data):
    return "0x" + data.hex()


def plain(data):
    """Bytes as a text that has no sign of the language, or in hexadecimal digits."""
    return data.decode() if not data or PLAIN.fullmatch(data) else digits(data)


def term(data):
    """Bytes, of which long runs of one byte are told by their number, or as they know themselves."""
    if isinstance(data, Spelled):
        return data.term
    runs = [(byte, len(list(run))) for byte, run in itertools.groupby(data)] if len(data) > 64 else []
    if not 0 < len(runs) <= 64:
        return plain(data)
    return "=" + "+".join(f"{count}*{plain(bytes([byte]))}" if count > 1 else plain(bytes([byte])) for byte, count in runs)


def plain_or_hex(data):
    return data.decode() if data.isalnum() and not data.startswith(b"0x") else digits(data)


def bytes_word(data, least=LONG_RUN):
    """Bytes as an argument of root_lines or a part of one, each run of at least so many equal ones as terms."""
    terms = []
    for is_long, runs in itertools.groupby((bytes(run) for _, run in itertools.groupby(data)), lambda run: len(run) >= least):
        if not is_long:
            terms.append(plain_or_hex(b"".join(runs)))
            continue
        for run in runs:
            counts = [MOST_TIMES] * (len(run) // MOST_TIMES) + [len(run) % MOST_TIMES]
            terms += [f"{count}*{plain_or_hex(run[:1])}" for count in counts if count]
    return "=" + "+".join(terms) if "*" in "".join(terms) else plain_or_hex(data)


def items(values):
    return ";".join(map(str, values))


def terms(values):
    return items(map(term, values))


class Terms:
    """An argument of several terms: bytes, (bytes, times) for repeated ones, or (bytes, count, bytes) for each number
    below the count between the two bytes."""

    def __init__(self, *terms):
        self.terms = terms

    def text(self):
        texts = [self.term_text(*term) if isinstance(term, tuple) else digits(term) for term in self.terms if term]
        return "=" + "+".join(texts) if texts else ""

    @staticmethod
    def term_text(front, count, *back):
        return "#".join([str(count), digits(front), digits(*back)]) if back else f"{count}*{digits(front)}"

    def bytes(self):
        return b"".join(self.term_bytes(*term) if isinstance(term, tuple) else term for term in self.terms)

    @staticmethod
    def term_bytes(front, count, *back):
        return b"".join(front + b"%05d" % number + back[0] for number in range(count)) if back else front * count


def value_bytes(value):
    """The bytes of an argument: bytes, a text or Terms."""
    return value.bytes() if isinstance(value, Terms) else value.encode() if isinstance(value, str) else value


class Spelled(bytes):
    """Bytes that know by which terms lines write them."""

    def __new__(cls, data, term):
        made = super().__new__(cls, data)
        made.term = term
        return made


def spelled(text):
    """Bytes of pieces with a `+` between two, each a text or one so many times (`3*a`)."""
    terms, data = [], b""
    for piece in text.split("+"):
        count, star, byte = piece.rpartition("*")
        data += byte.encode() * int(count or 1)
        # Very many go 64 times into a term.
        terms += [f"{int(count) // 64}*{byte * 64}", f"{int(count) % 64}*{byte}"] if star and int(count) > 1_000_000 else [piece]
    return Spelled(data, ("=" if len(terms) > 1 or "*" in text else "") + "+".join(terms))


def word(data):
    """Bytes as a text where that is one, or in digits."""
    return data.term if isinstance(data, Spelled) else data.decode() if data.isalnum() and data.isascii() else digits(data)


def rows_of(table, topic):
    """The rows of a table of a topic, also where a remark stands behind its name."""
    return [row for name, rows in table.items() if name.partition(":")[0] == topic for row in rows]


def yes_or_no(holds):
    return "yes" if holds else "no"


def line(*fields):
    """The fields of a line."""
    return "\t".join(field.decode() if isinstance(field, bytes) else str(field) for field in fields)


def answered(call, *given):
    """What a call of a model answers, or why it gives none."""
    try:
        return call(*given)
    except Damaged as damaged:
        return "damaged " + damaged.args[0].decode()
    except Failed:
        return "failed"
    except Refused as refused:
        return str(refused)
    except NotOfForm:
        return "bad"


def shown(data):
    """What a file has, in an answer: its bytes where they are few, else their number, and where they aren't very many their SHA-1."""
    if len(data) <= LONGEST_SHOWN:
        return data.hex() or "-"
    return str(len(data)) if len(data) > LONGEST_NAMED else f"{len(data)}:{hashlib.sha1(data).hexdigest()}"


def node_word(node, show=shown, text=bytes.decode):
    """A node or a fingerprint."""
    if node is None:
        return "nothing"
    kind, *rest = node
    if kind == "link":
        return "link " + text(rest[0])
    if kind in ("nothing", "="):
        return kind
    words = [kind, f"{rest[0]:04o}", *map(str, rest[1:-1])]
    if len(rest) > 1:
        words.append(show(rest[1]) if kind == "file" and len(rest) == 2 else rest[-1].hex())
    return " ".join(words)


def placed(path, node, show=shown):
    return f"{node_word(node, show)} {path.decode()}"


def standing(nodes, show=shown):
    """What stands at each path but `/`, those nearer the root first, then in the order of their bytes."""
    paths = sorted((path for path in nodes if path != b"/"), key=depth_and_parts)
    return "".join(shown_at(path, nodes[path]) if show is shown else ";" + placed(path, nodes[path], show) for path in paths)


@functools.lru_cache(maxsize=4096)
def depth_and_parts(path):
    return path.count(b"/"), path.split(b"/")


@functools.lru_cache(maxsize=4096)
def shown_at(path, node):
    return ";" + placed(path, node)


def tree_word(nodes, show=bytes_word):
    """A tree as an argument, without `/`, which is always there."""
    return ";".join(placed(path, nodes[path], show) for path in sorted(nodes) if path != b"/")


def node_term(node):
    return node_word(node, lambda data: term(data) or "-", term)


def puts_term(puts):
    """Pairs of a path and what is to stand there, as an argument of disk_lines."""
    return ";".join(f"{node_term(want)} {term(path)}" for path, want in puts)


def tree_term(nodes):
    """The nodes of a tree below `/`, which has mode 0755, in the order of their paths."""
    assert nodes[b"/"] == ("dir", 0o755)
    return puts_term(sorted(item for item in nodes.items() if item[0] != b"/"))


PARTS = ("stdin", "stdout")


def made(text):
    """A call or an answer as bytes. What takes long is made where it is asked."""
    text = text() if callable(text) else text
    return (text if isinstance(text, bytes) else text.encode()) + b"\n"


def same(lines, name):
    """Whether the lines are the stored ones of the program; of the first that isn't it says which."""
    stored = [open(f"crates/{name}/{part}", "rb") for part in PARTS]
    for number, pair in enumerate(itertools.chain(lines, [None]), 1):
        for part, text, file in zip(PARTS, pair or ("", ""), stored):
            if file.readline() != (made(text) if pair else b""):
                sys.exit(f"crates/{name}/{part}: line {number} isn't the one that is made")
    print(f"{name}: {number - 1} lines as they are stored")


def say(lines):
    """Writes the calls or the answers, or compares both with the stored ones, as the word of the program asks."""
    if sys.argv[1:] == ["same"]:
        same(lines, pathlib.Path(sys.argv[0]).stem)
    elif sys.argv[1:] in ([part] for part in PARTS):
        sys.stdout.buffer.writelines(made(line[PARTS.index(sys.argv[1])]) for line in lines)
    else:
        sys.exit("Usage, at the top: python3 -m tools.lines.NAME stdin >crates/NAME/stdin, stdout >crates/NAME/stdout, or same")
