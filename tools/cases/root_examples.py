"""Worked examples of the commands, as lines of command_lines: what each has to answer, and what stands then, is written by hand in
root_examples.txt or here, and compared with the model's answers wherever a script says these lines."""
import re

from tools.cases import samples, streams
from tools.cases.rows import ONE, OTHER, Rows
from tools.cases.samples import BASE, COMPONENT, GATE, LOG, PICKS, SECOND, STAGE, V2, WORK, carried, file
from tools.lines.script import Script
from tools.model import program, stacks
from tools.model.records import DATABASE, database_bytes, read_database
from tools.model.streams import set_bytes
from tools.model.trees import DIR

WRONG = []

# ---- what the examples are about

M, M2 = COMPONENT, SECOND
ABX = file(b"abX", 0o644)
FOO = b"/etc/foo"


def numbered(oldest, newest):
    """A root whose database has no trove, and these jobs."""
    return [(BASE, DIR), (DATABASE, file(database_bytes(2, [], oldest, newest)))]


FULL, LAST_NUMBER = numbered(1, 4096), numbered(2**32 - 1, 2**32 - 1)
CUT, CLASHING, CLASHED = M[:115], ONE, OTHER
OWNED = M.replace(b"manifest 1", b"manifest 2").replace(b"0755 ", b"0755 root:root ").replace(b"0644 3 ", b"0644 3 daemon:adm ")
# Change sets of 169, 168, 207 and 181 bytes, all but the first of them spelled by hand in cases/streams.py.
NEWEST, WHOLE, BETWEEN, OWNED_SET = set_bytes([V2], carried(b"abcd")), streams.WHOLE_SET, streams.RELATIVE_SET, streams.OWNED_SET
BARE = WHOLE.replace(streams.content(b"abc"), b"")
SHORTER = BARE.replace(b"1.0-1-1", b"1.0-1-2").replace(b"\3" + samples.ABC, b"\4" + samples.ABC)
assert [len(data) for data in (NEWEST, WHOLE, BETWEEN, OWNED_SET, samples.RELATIVE)] == [169, 168, 207, 181, 207]
ABC = samples.ABC
TABLE = Rows("root_examples", globals(), samples.TABLE.names)
MESSAGES = "ASK_ALL REPLY_ALL ASK_REST REPLY_REST ASK_NAME REPLY_NAME REPLY_ZEROS"
assert [len(data) for data in TABLE.named(MESSAGES)] == [18, 186, 71, 31, 29, 75, 38]

# Names of examples: tools/lines/command_lines.py fails where one of them lacks.
ROWS = " ".join(TABLE.topics["WANTED"]).split()
ANSWERED = re.compile(r"(.*?) (>kept|>=|>|!usage|!\d?)(?: (.*))?")


class Examples:
    """Worked examples: calls, each with what it has to answer and what stands then at some paths of the root."""

    def __init__(self, script):
        self.script, self.name = script, ""

    def begin(self, name, *disks):
        """An example of this name, over the disks that Script.disks makes of the rest."""
        self.name = self.script.name = name
        if disks:
            self.script.disks(*disks)
        return self

    def play(self, *rows):
        """The steps of Rows.say, and calls with their answers: lines behind `>`, and exactly these bytes behind `>=`; a refusal behind `!`,
        which the status follows if it isn't 1, or `usage` for that of words. What `>kept` answers has so many bytes, and is named by KEPT.
        What stands then is told by indented rows. In capitals a topic means its rows."""
        for row in rows:
            verb, _, rest = row.partition(" ")
            if verb in TABLE.topics and verb.isupper():
                self.play(*TABLE.topics[verb])
            elif verb == "shorten":
                path = TABLE.bytes(rest)
                _, mode, data = self.script.trees["root"].nodes[path]
                self.script.edit("root", [(path, file(data[:-1], mode))])
            elif not verb:
                self.stands(TABLE.nodes(rest.strip()))
            elif found := ANSWERED.fullmatch(row):
                self.call(*found.groups(default=""))
            else:
                TABLE.say(self.script, row)
        return self

    def call(self, step, sign, says):
        TABLE.say(self.script, step)
        text = TABLE.bytes(says)
        if sign == ">kept":
            TABLE.names["KEPT"] = made = self.script.made.out
            self.look("bytes", step, len(made), int(says or len(made)))
        elif sign == "!usage":
            self.compare(step, (2, b"", program.USAGE))
        elif sign[0] == "!":
            self.compare(step, (int(sign[1:] or 1), b"", b"conary: " + text + b"\n"))
        else:
            self.compare(step, (0, text + b"\n" if text and sign == ">" else text, b""))

    def compare(self, step, wanted):
        made = self.script.made
        self.look("said", step, (made.status, made.out, made.err), wanted)

    def stands(self, nodes):
        there = self.script.trees["root"].nodes
        for path, node in nodes:
            self.look("stands", path, there.get(path), node)

    def look(self, what, where, found, wanted):
        if found != wanted:
            WRONG.append(f"{self.name}: {where}\n  {what}   {found}\n  wanted {wanted}")


# ---- worked examples

def table_examples(script):
    for name, rows in TABLE.topics.items():
        if name in ROWS or "_" in name and name.islower():
            Examples(script).begin(name).play(*rows)


FIXED, is_journals = program.FIXED, program.JOURNAL.is_own


def one_format(nodes):
    """A root of format 2 in format 1."""
    nodes = dict(nodes)
    return sorted(stacks.in_format(nodes, read_database(nodes[DATABASE][2]), 2, 1).items())


def two_jobs():
    """The nodes of a root with two jobs."""
    script = Script()
    Examples(script).begin("two_jobs").play("TWO_JOBS")
    return script.trees["root"].nodes


def format_examples(script):
    """A root of format 1 with two jobs, brought to format 2 by a command that is cut off anywhere."""
    some = Examples(script)
    some.begin("migration_cut_off").play("TWO_JOBS")
    script.edit("root", one_format(script.trees["root"].nodes))
    for pick in PICKS:
        script.stops("root", pick, b"q")
    script.faults("root", b"q")
    nodes = [(path, node) for path, node in sorted(script.trees["root"].nodes.items()) if path not in FIXED and not is_journals(path)]
    trees = script.copies("root")
    script.called([b"q"], trees)
    for number in range(len(trees["root"].made) + 1):
        some.begin("migration_cut_off", nodes)
        script.cut("root", number, PICKS[number % 3], b"q")
        some.play("rollback > rolled back r.2", "  file abX /etc/foo")
    some.begin("damaged_in_format_1").play("TWO_JOBS")
    old = one_format(script.trees["root"].nodes)
    for path, node in old:
        script.edit("root", [*old, (path, file(node[2][:-1], 0o644))])
        some.play("q !8 damaged " + path.decode())


CASES = (table_examples, format_examples)
