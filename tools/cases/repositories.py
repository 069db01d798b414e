"""Cases of repositories for command_lines: what is loaded of a tree, how many troves each commit has, contents, the change set between troves, and
change sets committed one after another (tools/cases/commits.py). The first argument of each call is the tree of a repository; the answers are those
of tools/model/repository.py."""
import itertools
from hashlib import sha1

from tools.cases import samples
from tools.cases.rows import Rows
from tools.cases.samples import LABEL, V1 as F1, V2 as F2, content_at, file, plain
from tools.lines.words import answered, items, line, standing, term, tree_term
from tools.model import repository
from tools.model.repository import BASE, CONTENTS, commit_bytes, commit_path
from tools.model.streams import id_text, read_set, set_bytes
from tools.model.trees import DIR, Tree

# ---- repositories

def component(name, revision, files):
    return samples.component(name, revision, [(path, plain(text)) for path, text in files])


def tree_of(commits, contents, more=()):
    """The nodes that store these commits and contents, and further nodes."""
    nodes = {b"/": DIR, BASE: DIR, CONTENTS: DIR}
    nodes.update((commit_path(number), file(commit_bytes(troves))) for number, troves in enumerate(commits, 1))
    nodes.update((content_at(text), file(text)) for text in contents)
    return {**nodes, **dict(more)}


OLD, NEW, ELSE = b"old\n", b"new\n", b"else"
TABLE = Rows("repositories", globals(), {"AT_" + name: content_at(data) for name, data in (("OLD", OLD), ("NEW", NEW), ("NONE", b""))})
V1 = TABLE.names["V1"]


def trees_of(topic):
    """Rows have the troves of each commit, the contents, and further nodes."""
    for commits, contents, *more in TABLE.fields(topic):
        yield tree_of(map(TABLE.named, commits.split(";")), TABLE.named(contents), *map(TABLE.nodes, more))


# In the order of their rows: the first tree of those that are read; the worked troves, `/etc` with one file and the next revision with other contents; one
# with the same file at other paths and with another mode, the same contents in two troves, and a trove that the old ones don't have; two records of one
# name with different sizes, so that no bytes can be sent for both; and a trove alone, without its contents.
TREE, WORKED, MANY, SIZES, BARE = (next(trees_of("trees")), *trees_of("trees that are changed"))
TABLE.names.update({"ON_" + name: list(tree.items()) for name, tree in (("TREE", TREE), ("WORKED", WORKED), ("MANY", MANY), ("SIZES", SIZES), ("BARE", BARE))})
TABLE.names.update({f"K{number}": TREE[commit_path(number)][2] for number in (1, 2, 3)})


def nodes_of(topic):
    return (TABLE.tree(nodes) for nodes, *_ in TABLE.split_steps(topic))


def trees():
    """Each tree with which every call is made. What nothing refers to doesn't count; a reference to a trove that is committed later, or in the same
    commit. Then an id twice, in one commit and in two; paths that no trove may record; a reference to no trove, before which a file counts that isn't
    in its grammar."""
    return itertools.chain(nodes_of("least trees"), trees_of("trees"), nodes_of("damaged commits"), trees_of("cross-checks"))


def damaged_contents():
    return itertools.chain(nodes_of("damaged contents"), trees_of("contents of another size"))


NAMES = [sha1(text).digest() for text in (OLD, NEW, b"", ELSE)]


def sets():
    """Calls of `between`: a tree, the old troves and the new ones."""
    return ((TABLE.tree(nodes), *map(TABLE.named, two)) for nodes, *two in TABLE.split_steps("sets between troves"))


def reading():
    """The calls that read: a name, a tree, and the further arguments."""
    yield from ((call, tree, []) for tree in trees() for call in ("load", "counts"))
    yield "load", TREE, [FAILS]
    some = [TREE, tree_of([[V1]], [OLD, NEW, ELSE]), *damaged_contents()]
    yield from ((call, tree, [name]) for tree in some for name in NAMES for call in ("content", "source"))
    yield from (("source", TREE, [name, FAILS]) for name in (NAMES[0], NAMES[3]))
    yield from (("between", tree, [old, fresh]) for tree, old, fresh in sets())
    yield from (("between", WORKED, [[F1], [fresh], FAILS]) for fresh in (F2, F1))


# ---- lines

# The first call of the disk fails once the catalogue is loaded, of `load` the first of all.
FAILS = "fails"


def argument(value):
    if isinstance(value, list):
        return items(id_text(trove.identity).decode() for trove in value)
    return value if value == FAILS else value.hex()


def read(call, nodes, words):
    """The fields of the answer to a call that reads."""
    failing = int(words[-1:] == [FAILS])
    catalogue = repository.load(Tree(nodes, failing=failing if call == "load" else 0))
    if call == "load":
        return [len(catalogue.commits), *(id_text(trove.identity).decode() for trove in catalogue.troves)]
    if call == "counts":
        return list(map(len, catalogue.commits))
    if call == "between":
        found = repository.between(Tree(nodes, failing=failing), catalogue, *words[:2])
        return [set_bytes(found.parts, found.contents).hex()]
    found = repository.content_of(Tree(nodes, failing=failing), catalogue, words[0])
    return None if found is None else [found.hex()]


def read_answer(call, nodes, words):
    def made():
        found = read(call, nodes, words)
        return "none" if found is None else line("ok", *found)

    text = answered(made)
    return "far " + text if call == "source" and text.startswith(("damaged", "failed")) else text


def committed(tree, catalogue, text):
    """What the commit of a change set answers."""
    return answered(lambda: " ".join(["ok", *(id_text(one).decode() for one in repository.commit(tree, catalogue, read_set(text)))]))


def counts(catalogue):
    return f"{len(catalogue.commits)} {len(catalogue.troves)}"


def held(tree):
    """How many commits and troves a tree has, and how many records of files whose contents are there."""
    catalogue = repository.load(tree)
    names = [record.name for trove in catalogue.troves for _, record in trove.files if record.kind == "f"]
    return f"{counts(catalogue)} {sum(isinstance(answered(repository.content_of, tree, catalogue, name), bytes) for name in names)}"


def commit_answer(nodes, texts):
    tree = Tree(nodes)
    catalogue = answered(repository.load, tree)
    if isinstance(catalogue, str):
        return catalogue
    said = [committed(tree, catalogue, text) for text in texts]
    stored = {path: node for path, node in tree.nodes.items() if not repository.JOURNAL.is_own(path)}
    return line(*said, counts(catalogue), held(tree), standing(stored))


def lines():
    """Each line with its answer."""
    sizes = [len(read("between", WORKED, ends)[0]) // 2 for ends in (([], [F2]), ([], [F1]), ([F1], [F2]), ([], []))]
    assert sizes == [169, 168, 207, 13]
    yield from ((line(call, tree_term(nodes), *map(argument, words)), read_answer(call, nodes, words)) for call, nodes, words in reading())
    # They take the troves and trees of this file.
    from tools.cases import commits

    yield from ((line("commit", tree_term(nodes), *map(term, texts)), commit_answer(nodes, texts)) for nodes, texts in commits.calls())
