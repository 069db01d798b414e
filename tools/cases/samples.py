"""The manifests, troves and repositories that the cases of commands are about."""
import hashlib

from tools.cases.rows import LABEL, STABLE, Rows, at, component, cooked, group, manifest
from tools.model import program as root_side
from tools.model import repository as repo_side
from tools.model.relatives import relative_of
from tools.model.streams import directory, file_of as plain, set_bytes

BASE, REPO = root_side.BASE, repo_side.BASE
GATE, LOG, STAGE, WORK = (getattr(root_side.JOURNAL, name) for name in ("gate", "log", "stage", "work"))
ABC, ABCD = (hashlib.sha1(data).digest() for data in (b"abc", b"abcd"))
ETC = (b"/etc", directory(0o755))


def file(data, mode=0o600):
    return ("file", mode, data)


def log_of(puts):
    return root_side.JOURNAL.log_of(root_side.JOURNAL.numbered(puts))


# The write sets whose logs stand behind a commit flag in the cases of the root.
REPLAYED_LOG = log_of([(b"/x", ("dir", 0o750)), (b"/x/y", file(b"new")), (b"/z", None)])
ONE_LOG = log_of([(b"/a/x", file(b"x", 0o644))])

TABLE = Rows("samples", globals())
HEAD, LEVELS, COMPONENT, SECOND, PACKAGE, SOURCE, GROUP = TABLE.named("HEAD LEVELS COMPONENT SECOND PACKAGE SOURCE GROUP")
F1, F2, V1, V2, SET_FLAG, COMMITTED, BLOCKED, NO_VAR = TABLE.named("F1 F2 V1 V2 SET_FLAG COMMITTED BLOCKED NO_VAR")
COOKED, BOTH = cooked(COMPONENT), cooked(COMPONENT, SECOND)


def carried(*contents):
    return sorted((hashlib.sha1(data).digest(), data) for data in contents)


SET = set_bytes([V1], carried(b"abc"))
RELATIVE = set_bytes([relative_of(V1, V2)], carried(b"abcd"))


def content_at(data):
    return REPO + b"/c/" + hashlib.sha1(data).hexdigest().encode()


def edited(data, start, end, others=b""):
    return data[:start] + others + data[end:]


# Inputs of `showcs`, of which a part is another one, with the lines that are written or the text of the refusal.
SETS = {edited(*TABLE.named(data), *map(int, part.split()), TABLE.bytes(others)): TABLE.bytes(says) for data, part, others, says in TABLE.fields("change sets")}

# Numbers that pick what a crash leaves.
PICKS = (0, 1, 2**32 - 1)

# A specification of 4,096 bytes, of which a word has no more.
FLAGS = ",".join(f"{place:02}" + "w" * 250 for place in range(16))
LONG_SPEC = f"foo[{FLAGS}," + "z" * (4096 - len(FLAGS) - 6) + "]"
LONGER_SPEC = "f" + LONG_SPEC
