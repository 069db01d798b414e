"""Batches, good and broken, and lines of the demo: calls and their arguments; tools/model/batches.py says what each answers."""
from urllib.parse import unquote_to_bytes

from tools.cases.rows import Rows, repeated
from tools.cases.streams import topic_of

TABLE = Rows("batches")


def texts(topic):
    """The batches of a topic: lines with ` | ` between two, each with its line feed, or none behind the last one where ` |...` ends the row. `%`
    and two digits stand for a byte."""
    for row in TABLE.rows(topic):
        row = repeated(row)
        is_cut = row.endswith(" |...")
        lines = row.removesuffix(" |...").split(" | ")
        yield b"\n".join(map(unquote_to_bytes, lines)) + (b"" if is_cut else b"\n")


def rows():
    topics = "words of a line", "spaces in brackets", "sizes", "inputs", "lines without an end", "several lines"
    return (("batch", text) for topic in topics for text in texts(topic))


def cuts():
    """The beginnings of a batch, and the batch with each byte another one."""
    (text,) = texts("a whole batch")
    yield from (("batch", text[:end]) for end in range(len(text) + 1))
    others = b"\n", b" ", b"[", b"]", b"<", b"\x7f"
    yield from (("batch", text[:at] + byte + text[at + 1 :]) for at in range(len(text)) for byte in others)


def demo():
    """Every line of small demos, and of larger ones those about which numbers get a digit more, and the last ones."""
    yield from (("demo", str(packages), str(place)) for packages in (0, 1, 2, 12) for place in range(2 * packages + 6))
    for packages in (9, 10, 11, 99, 100, 101, 199, 200):
        for place in sorted({0, 8, 9, packages - 1, packages, packages + 1, packages + 2, packages + 11, *range(2 * packages + 1, 2 * packages + 6)}):
            yield "demo", str(packages), str(place)


CASES = [("batches", rows), ("damaged batches", cuts), topic_of("limits of batches"), ("lines of the demo", demo)]
