"""Cases of the program for command_lines: its words and streams, `install` and `showcs` over roots that a crash left, and the commands of
a repository. A script (tools/lines/script.py) says their lines; most of them are topics of commands.txt.
"""
from tools.cases import samples
from tools.cases.commits import failing_commits
from tools.cases.rows import Rows
from tools.cases.samples import (
    BOTH, LONGER_SPEC, LONG_SPEC, SETS, content_at, file, manifest,
)  # fmt: skip
from tools.model import repository as repo_side

# ---- what the rows name

JOURNAL, COMMIT_2 = repo_side.JOURNAL, repo_side.commit_path(2)
REPO_GATE, REPO_LOG, REPO_STAGE = JOURNAL.gate, JOURNAL.log, JOURNAL.stage
REPO_LOG_TEXT = JOURNAL.log_of(JOURNAL.numbered([(b"/x", ("dir", 0o750)), (b"/x/y", file(b"new"))]))
AT_ABC, AT_ABCD, AT_X = map(content_at, (b"abc", b"abcd", b"x"))
LONG_NAME, LONG_SPEC_WORD, LONGEST_WORD = b"n" * 256, LONG_SPEC.encode(), LONGER_SPEC.encode()
LONG_LABEL = b"h" * 200 + b"@n:t"
LONG_VERSION = (b"/" + LONG_LABEL + b"/" + b"1" * 40 + b"-1-1/") + LONG_LABEL
LONG_UPSTREAM = b"1" * (512 - len(LONG_VERSION) - 5)
LONG_9, LONG_1 = (manifest(b"foo:runtime", LONG_UPSTREAM + revision, label=LONG_VERSION) for revision in (b"-1-9", b"-1-1"))
LONG_FOO = manifest(b"foo:runtime", b"1.0-1-1", label=b"/" + LONG_LABEL + b"/1.0-1-1/" + LONG_LABEL)
OWNED_LINES = [b"dir 0755 root:root /etc", b"file 0644 3 daemon:adm /etc/foo", b"abc"]
OWNED, OWNED_FLAVOR = (manifest(b"own:runtime", b"1.0-1-1", lines + OWNED_LINES, b"manifest 2") for lines in ([], [b"flavor krb, ~ssl"]))
TABLE = Rows("commands", globals(), samples.TABLE.names)
COMMIT = dict(BOTH)[repo_side.commit_path(1)][2]
CUT_COMMIT, (COMMIT_OF_GROUP, COMMIT_OF_VAR) = COMMIT[:-1], (repo_side.commit_bytes([one]) for one in TABLE.named("REFERRING VAR_FILE"))


def set_cases(script):
    for data, says in SETS.items():
        script.disks().fed(data, b"showcs")
        wanted = (0, says, b"") if not says or says.endswith(b"\n") else (1, b"", b"conary: " + says + b"\n")
        assert (script.made.status, script.made.out, script.made.err) == wanted


def commit_cases(script):
    """Change sets that are committed or refused."""
    for data, says in SETS.items():
        script.disks().fed(data, b"commit")
        assert says[-1:] in (b"", b"\n") or script.made.err == b"conary: " + says + b"\n"


def set_making_cases(script):
    """Change sets of what references reach, whole and relative; then each of them elsewhere."""
    script.disks((), TABLE.nodes("cooked COMPONENT PACKAGE GROUP NEW_BAR GROUP_2 TWO_BARS"))
    made = [script.run(b"changeset", *words) for words in TABLE.all_words("made change sets")]
    script.each(b"showcs", *filter(None, made))
    script.disks().each(b"commit", *(made[place] for place in (1, 0, 3, 1))).run(b"rq")


CASES = (
    "calls of words", "installed manifests", set_cases, "failing streams", "over a write set", "roots with a journal", "shown", "failing calls",
    "cut off", "second installations", "cooked", "cooks that are cut off", "refused cooks", "cooks over strays", commit_cases, "commits over the first version",
    "commits of seven troves", "listed",
    "meant by configurations", "other configurations", set_making_cases, "sets over damaged contents", "moves", "moved with a configuration",
    "next revisions", "commands over damaged repositories", "both disks stop", "commands over damaged contents", "faults of both disks",
    "crashes of both disks", "second commands", failing_commits,
)  # fmt: skip
