"""The calls of the program text_lines on texts: worked cases of texts.txt, with answers that were found by hand; those of texts_made.txt, where `|`
stands between two arguments; and those of texts_drawn.txt, which were drawn by chance."""
import itertools

from tools.cases.rows import Rows, table

# ---- worked cases

TABLE, MADE = Rows("texts"), Rows("texts_made")


def case_of(row):
    """The call of a row, its arguments, and the beginnings of its answers, with a `|` between two fields."""
    given, *answers = row.split(" > ")
    call, *arguments = given.split("|")
    return call, list(map(TABLE.bytes, arguments)), [TABLE.bytes(one).replace(b"|", b"\t") for one in answers]


IDS = [arguments[0] for _, arguments, _ in map(case_of, TABLE.topics["ids, in rising order"])]


def worked_cases():
    """Calls with the beginnings of their answers. The second answer of a row is that of the call that takes whole texts alone."""
    for call, arguments, answers in map(case_of, itertools.chain(*TABLE.topics.values())):
        yield from (((name, *arguments), answer) for name, answer in zip((call, "whole_" + call), answers))
    for (place, first), (other, second) in itertools.product(enumerate(IDS), repeat=2):
        wanted = b"same\tequal" if place == other else b"different\t" + (b"less" if place < other else b"greater")
        yield ("id_order", first, second), wanted


# ---- further calls

def drawn_calls():
    """Calls that were drawn by chance, lines as the program reads them: good texts of each kind, such texts with letters left out, put in, replaced
    or exchanged, and fields of which a byte is changed or the end is cut off."""
    for call, *arguments in (row.split("\t") for row in table("texts_drawn")["calls"]):
        yield call, *(bytes.fromhex(text[2:]) if text.startswith("0x") else text.encode() for text in arguments)


def further_calls():
    rows = MADE.steps(list(itertools.chain(*MADE.topics.values())))
    yield from ((call, *arguments) for call, arguments, _ in map(case_of, rows))
    yield from drawn_calls()
