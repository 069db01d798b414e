#!/usr/bin/env python3
"""Makes the lines of the program command_lines: calls on repositories, and whole calls of the program over two disks, with what each has
to answer. All answers are those of models that share nothing with the program (tools/model), and are made from docs/ alone.

    python3 -m tools.lines.command_lines stdin    >crates/command_lines/stdin     a call and its arguments in each line
    python3 -m tools.lines.command_lines stdout   >crates/command_lines/stdout    what each has to answer
    python3 -m tools.lines.command_lines count    how many cases there are of each name
    python3 -m tools.lines.command_lines check    compares the model with the worked examples, whose answers are written by hand, each job with
                                                  a second model of jobs, and all with the stored lines; tells what differs or lacks
"""
import sys

from tools.cases import commands, histories, mirrors, repositories, root_commands, root_examples, several, stops, syncs
from tools.cases.root_examples import ROWS, WRONG, is_journals
from tools.lines.script import Script
from tools.lines.words import same, say
from tools.model.by_files import Job
from tools.model.records import BASE
from tools.model.root import Root
from tools.model.trees import DIR


def said():
    """The script of all cases; each example has to be there, and what it answers has to be what is written with it."""
    script = Script()
    for topic in (commands, root_examples, root_commands, syncs, several, mirrors, histories, stops):
        for some in topic.CASES:
            # The name of a topic means its steps.
            script.name = some if isinstance(some, str) else some.__name__
            topic.TABLE.say_all(script, some) if isinstance(some, str) else some(script)
    return script


def lacking(script):
    return [f"no example {name}" for name in ROWS if name not in script.cases]


# ---- the two models of jobs


def nodes_of(tree):
    """What stands but `/` and the journal's own files, as model/root.py has it."""
    return {path: node for path, node in tree.nodes.items() if path != b"/" and not is_journals(path)}


def root_of(tree, db):
    """The root as model/root.py has it. Of its jobs it has the numbers alone."""
    nodes = nodes_of(tree)
    own = {path: node for path, node in nodes.items() if path == BASE or path.startswith(BASE + b"/")}
    return Root({path: node for path, node in nodes.items() if path not in own}, own, db.troves).numbered(db.oldest or 1, db.newest)


def compare_jobs(found):
    """From here on what each job leaves is compared with model/root.py, which shares no step of it."""
    write = Job.write

    def compared(job, after, wants, olds):
        root = root_of(job.tree, job.db)
        write(job, after, wants, olds)
        if root.own.get(BASE, DIR)[0] == "dir" and root.job(after, wants).nodes() != nodes_of(job.tree):
            WRONG.append(f"a job of {job.db.newest + 1}")
        found.append(job)

    Job.write = compared


def main(asked):
    jobs = []
    if asked == "check":
        compare_jobs(jobs)
    script = said()
    wrong = WRONG + lacking(script)
    if asked == "check":
        print(f"{len(script.lines)} lines, {len(jobs)} jobs as model/root.py has them, {len(wrong)} that differ")
    if wrong:
        sys.exit("\n".join(wrong))
    lines = [*repositories.lines(), *zip(script.lines, script.answers)]
    if asked == "count":
        print("\n".join(f"{count} {name}" for name, count in script.cases.items()))
    elif asked == "check":
        same(lines, "command_lines")
    else:
        say(lines)


if __name__ == "__main__":
    if sys.argv[1:] not in (["stdin"], ["stdout"], ["count"], ["check"]):
        sys.exit(__doc__)
    main(sys.argv[1])
