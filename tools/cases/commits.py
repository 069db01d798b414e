"""Cases of commits: change sets that are committed to the tree of a repository one after another, and commits of the program that are cut off or
fail. The troves and most sets are rows of commits.txt: there a set is its parts and, behind a `:`, the contents that it carries."""
from tools.cases.repositories import commit_answer, component, tree_of
from tools.cases.samples import RELATIVE, SET, V1 as F1, V2 as F2, carried, content_at
from tools.cases.rows import ONE, OTHER, Rows
from tools.model.repository import BASE, commit_bytes
from tools.model.streams import id_text, set_bytes
from tools.model.trees import DIR

OLD, NEW, ELSE = b"old\n", b"new\n", b"else\n"
# Two contents of 320 bytes with one SHA-1.
TEXTS = {
    "OLD": OLD, "NEW": NEW, "ELSE": ELSE, "ONE": ONE, "OTHER": OTHER, "EMPTY": b"", "A": b"a", "B": b"b", "ABC": b"abc", "ABCD": b"abcd",
}  # fmt: skip
PLACES = {"AT_" + name: content_at(data) for name, data in TEXTS.items()}
TABLE = Rows("commits", {"F1": F1, "F2": F2, "BASE": BASE}, TEXTS, PLACES, data=lambda text: TEXTS[text] if text in TEXTS else TABLE.word(text))
TROVES = TABLE.names


def change_set(row):
    parts, _, texts = row.partition(":")
    return set_bytes([TROVES[name] for name in parts.split()], carried(*(TEXTS[name] for name in texts.split())))


def change_sets(row):
    return [change_set(one) for one in row.split("; ")]


# The set that brings a component of `/etc` and `/etc/foo`, and the one that leads to its next revision.
assert (change_set("F1: ABC"), change_set("TO_F2: ABCD")) == (SET, RELATIVE) and (len(SET), len(RELATIVE)) == (168, 207)

NOTHING = {b"/": DIR}
FIRST = tree_of([[TROVES["V1"]]], [OLD, NEW])
SECOND = tree_of([[TROVES["V1"]], [TROVES["BAR"]]], [OLD, NEW, b""])
ONES, BOTH = (tree_of([[TROVES[name]]], texts) for name, texts in (("ONES", [ONE]), ("BOTH", [ONE, OLD, NEW])))
# As rows name them.
TABLE.names.update({"ON_" + name: list(tree.items()) for name, tree in (("FIRST", FIRST), ("SECOND", SECOND), ("ONES", ONES), ("BOTH", BOTH))})
TABLE.names.update({"COMMIT_" + name: commit_bytes([TROVES[name]]) for name in ("V2", "BAR")})


def over_trees(topic):
    """Trees, and the set that is committed to each: rows of nodes and a set."""
    return ((TABLE.tree(nodes), change_set(row)) for nodes, row in TABLE.split_steps(topic))


def worked():
    """Whole calls by hand, each with the answers that it has to give."""
    for given, _, said in (row.partition(" > ") for row in TABLE.rows("worked")):
        for name, one in (("F1", F1), ("F2", F2)):
            said = said.replace(name, id_text(one.identity).decode())
        assert commit_answer(NOTHING, change_sets(given)).split("\t")[:-1] == said.split("; ")
        yield change_sets(given)


# Numbers that pick what stands at each name that a crash may leave changed.
PICKS = [0, 2**64 - 1, 2**32 - 1, 0x5555_5555_5555_5555, 0xAAAA_AAAA_AAAA_AAAA, 1, 0x0123_4567_89AB_CDEF]
PICKS += [0x9E37_79B9_7F4A_7C15, 0xD1B5_4A32_D192_ED03, 0x2545_F491_4F6C_DD1D]


def calls():
    """Trees, and the change sets that are committed to them."""
    yield from ((tree, [text]) for tree, text in over_trees("sets over trees"))
    yield from ((FIRST, [change_set(row)]) for row in TABLE.rows("sets"))
    yield from ((NOTHING, [change_set(row)]) for row in TABLE.rows("sets without a base"))
    yield from ((NOTHING, texts) for texts in worked())
    yield from ((tree, [text]) for tree, text in over_trees("sets over contents"))
    yield from ((NOTHING, change_sets(row)) for row in TABLE.rows("sets that follow one another"))
    many = [(component(b"many:runtime", b"%d-1-1" % count, [(b"/many", b"%d" % count)]), b"%d" % count) for count in range(12)]
    yield SECOND, [set_bytes([one], carried(text)) for one, text in many]


def failing_commits(script):
    """The command `commit`, cut off after each number of calls of the repository, and each call failing once."""
    for nodes, text in over_trees("sets that are cut off"):
        for pick in PICKS:
            script.disks((), sorted(nodes.items())).input(text).stops("repo", pick, b"commit")
        script.disks((), sorted(nodes.items())).input(text).faults("repo", b"commit")
