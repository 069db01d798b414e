"""The cases of streams: each a call and its arguments, by topic.

An argument is bytes, a text, or Terms (tools/lines/words.py). The calls are rows of streams.txt: there `|` stands between two arguments, and an
argument with quotes is bytes. What a call has to answer is said there of a few calls on items alone."""
import itertools
import re

from tools.cases.rows import Rows
from tools.lines.words import Terms, rows_of
from tools.model.streams import item, sha

TABLE = Rows("streams", {"ALL_TAGS": bytes(range(256))})


def argument(text):
    """A text, or bytes in quotes: also so many times (`3*"a"`), or with each number below one between two (`3#"a"#"b"`), and several of
    these, with a ` + ` between."""
    if '"' not in text:
        return text
    terms = []
    for count, repeated, *quoted in re.findall(r'(?:(\d+)([*#]))?"(.*?)"(?:#"(.*?)")?', text):
        front, back = map(TABLE.bytes, quoted)
        terms.append(front if not count else (front, int(count), back) if repeated == "#" else (front, int(count)))
    return Terms(*terms) if len(terms) > 1 or isinstance(terms[0], tuple) else terms[0]


def calls_of(row):
    """A row may have several calls, and `*` with a topic in place of an argument, for each of its rows."""
    calls, *given = row.split("|")
    each = [map(argument, rows_of(TABLE.topics, one[1:]) if one.startswith("*") else [one]) for one in given]
    for arguments, call in itertools.product(itertools.product(*each), calls.split(", ")):
        if call == "damaged":
            yield from damaged(*arguments)
        elif call == "each beginning":
            yield from ((arguments[0], arguments[1][:length]) for length in range(len(arguments[1])))
        else:
            yield call, *arguments


def damaged(kind, text):
    """All beginnings of the bytes, and all values of each of them."""
    yield "beginnings", kind, text
    yield from (("changes", kind, text, str(place)) for place in range(len(text)))


def topic_of(name):
    return name, lambda: itertools.chain.from_iterable(map(calls_of, TABLE.steps(rows_of(TABLE.topics, name))))


def items_of(name, call):
    """A topic behind those of its calls whose answers were found by hand."""
    by_hand = [one for one, _ in ITEMS_BY_HAND if one[0] == call]
    return name, lambda: itertools.chain(by_hand, topic_of(name)[1]())


# Calls, with the answers that were found by hand, without the spaces at their ends.
BY_HAND = (row.split(" > ") for row in TABLE.topics["items by hand"])
ITEMS_BY_HAND = [(next(calls_of(given)), wanted.replace("|", "\t")) for given, wanted in BY_HAND]


def content(contents):
    return item(0x12, sha(contents) + contents)


# `foo:runtime` at revision 1.0-1-1 with `/etc` and `/etc/foo`, and the contents of that file; then from that trove to its
# revision 1.0-2-1, where the file has other contents, and these; then the first one with an owner of the file.
WHOLE_SET, RELATIVE_SET, OWNED_SET = TABLE.named("WHOLE_SET RELATIVE_SET OWNED_SET")
assert (len(WHOLE_SET), len(RELATIVE_SET), len(OWNED_SET)) == (168, 207, 181)

TOPICS = """records; lists; whole troves; parts of troves; relative streams; change sets; damaged change sets; troves as texts; refusals; words of owners
records with owners; troves with owners; relative troves with owners; change sets with owners; further refusals; damaged troves
damaged relative troves; damaged change sets with owners"""
CASES = [items_of("items written", "items"), items_of("items read", "next_item"), *map(topic_of, TOPICS.replace("\n", "; ").split("; "))]
