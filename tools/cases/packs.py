"""Cases of manifests of trees: rows of packs.txt, of which each says what is other than usual of the words, the patterns of configuration files, whether
what can't be in a manifest is left out, the call of the sink or of the disk that fails, and the nodes."""
from tools.cases.rows import LABEL, Rows, content

LONG_NAME, LARGE, TOO_LARGE = b"f" * 250, b"x" * 140_000, content("16777217*x")
LONG_FLAVOR = b", ".join(b"f%040d" % at for at in range(60))
LONG_DEP = b"soname: x(" + b" ".join(b"%040d" % at for at in range(64)) + b")"
TABLE = Rows("packs", globals())
TREE = "dir /etc; file a=1\\n /etc/foo; link etc/foo /l; file 0600 - /empty"


def case(row):
    given = {"name": b"foo", "version": b"/" + LABEL + b"/1.0-1-1", "flavor": b"", "config": [], "requires": [], "provides": []}
    given |= {"skip": 0, "sink": 0, "disk": 0, "nodes": TABLE.tree(TREE)}
    for word, _, value in (field.partition(" ") for field in row.split(" | ")):
        if word in ("requires", "provides"):
            given[word].append(tuple(TABLE.bytes(value).split(b" ", 1)))
        elif word == "config":
            given[word].append(TABLE.bytes(value))
        else:
            given[word] = {"skip": int, "sink": int, "disk": int, "nodes": TABLE.tree}.get(word, TABLE.bytes)(value)
    return "pack", *given.values()


def cases():
    return map(case, TABLE.steps([row for rows in TABLE.topics.values() for row in rows]))
