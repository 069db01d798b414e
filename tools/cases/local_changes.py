"""Lines of list_lines on local changes: trees, installed troves and names, and the change set that has to come of each, by
tools/model/local_changes.py."""
from tools.cases.rows import ONE, OTHER, Rows
from tools.lines.words import Spelled, answered, digits, line, tree_word
from tools.model.local_changes import local_changes
from tools.model.streams import trove_bytes


def content_word(data):
    return data.term if isinstance(data, Spelled) else digits(data)


def call(tree, troves, name, words=""):
    """A call and its answer; with `fail` the first call of the disk fails."""
    installed = {trove.identity.name: trove for trove in troves}
    lists = ";".join(digits(trove_bytes(installed[one])) for one in sorted(installed))
    found = "failed" if words == "fail" else answered(local_changes, tree, installed, name)
    answer = found if isinstance(found, str) else f"{len(found)} {found.hex()}"
    return line("local", words, tree_word(tree, content_word), lists, name), answer


def data_of(text):
    """The bytes of a file in a row: FIRST and SECOND have one SHA-1, and `x*` stands before a number of `x`."""
    if text.startswith("x*"):
        count = int(text[2:])
        return Spelled(b"x" * count, f"={count // 64}*0x{'78' * 64}+{count % 64}*0x78")
    word, _, more = text.partition("+")
    return {"FIRST": ONE, "SECOND": OTHER}.get(word, TABLE.word(word)) + more.encode()


TABLE = Rows("local_changes", data=data_of)


def lines():
    """The rows of local_changes.txt, each a tree, what is installed, a name, and whether a call of the disk fails."""
    for row in TABLE.rows():
        tree, troves, name, *words = row.split(" | ")
        yield call(dict(TABLE.nodes(tree)), TABLE.troves(troves), name.encode(), *words)
