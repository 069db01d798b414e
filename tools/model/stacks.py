"""Rollback stacks by the files of a root, the second reading of jobs beside tools/model/root.py: each record is read against the list after its
job, and jobs are taken back by fingerprints. Made from docs/FORMATS.md, docs/MODEL.md and docs/COMMANDS.md alone.

The files are the nodes of a root by their paths, also those outside the private directory."""
from collections import namedtuple

from tools.model.records import (
    BASE, CAME, DATABASE, LISTED, NOTHING, WAS, Db, NotOfForm, by_name, content_path, database_bytes, delta_name, mark_of,
    need, read_database, read_record, record_bytes, record_of, record_path, recorded, saved_path, sha, share_dirs_alone,
)  # fmt: skip
from tools.model.relatives import applied
from tools.model.streams import forbidden_path, keep
from tools.model.texts import FIXED, is_reserved
from tools.model.trees import DIR, Damaged, Refused, is_of, is_within, parent_of

LIMIT = {1: 268_435_456, 2: 536_870_912}
Job = namedtuple("Job", "number before after changes")


def file(data, mode=0o644):
    return "file", mode, data


# ---- what a record tells, by the list after its job

def taken_back(troves, deltas):
    """The list before the job, by the deltas and the list after it."""
    there = by_name(troves)
    for tag, value in deltas:
        name = delta_name((tag, value))
        now = there.pop(name, None)
        if tag == CAME:
            need(now is not None and now.identity == value)
        elif tag == WAS:
            need(now is None or (now.identity == value.identity and now != value))
            there[name] = value
        else:
            there[name] = applied(now, value) if now is not None else None
            need(there[name] is not None)
    return [there[name] for name in sorted(there)]


def told(mark, of_list):
    """What a record tells, as a fingerprint: `=` exactly where the list records that."""
    need(of_list is not None if mark == LISTED else mark != of_list)
    return of_list if mark == LISTED else mark


def read_job(nodes, kind, number, after):
    """What a record tells of its job, by the list after it."""
    node = nodes.get(record_path(number))
    try:
        need(is_of(node, "file"))
        record = read_record(node[2], kind)
        need(record.number == number)
        before = taken_back(after, record.deltas)
        need(all(forbidden_path(trove) is None for trove in before) and share_dirs_alone(before))
        need(len(database_bytes(kind, before, 0, 0)) <= LIMIT[kind])
        changes = [(path, told(was, recorded(before, path)), told(now, recorded(after, path))) for path, was, now in record.entries]
        need(all(not is_reserved(path) and path not in FIXED and not was == now == NOTHING for path, was, now in changes))
        return Job(number, before, after, changes)
    except NotOfForm:
        raise Damaged(record_path(number)) from None


def jobs_of(nodes, db, kind=2):
    """The jobs on the stack, the newest first."""
    after = db.troves
    for number in range(db.newest, db.oldest - 1, -1) if db.newest else ():
        job = read_job(nodes, kind, number, after)
        yield job
        after = job.before


def old_node(nodes, number, mark):
    """What stood, by its fingerprint and the contents that the job of this number saved."""
    if mark[0] != "file":
        return None if mark == NOTHING else mark
    path = content_path(number, mark[3])
    if mark_of(nodes.get(path))[2:] != mark[2:]:
        raise Damaged(path)
    return file(nodes[path][2], mark[1])


def marks_of(nodes):
    return {path: mark_of(node) for path, node in nodes.items()}


def undone(marks, changes):
    """The fingerprints once the changes of a job are taken back; or why they can't be."""
    paths = {path for path, _, _ in changes}
    for path, was, now in changes:
        made = was[0] != "dir" and now[0] == "dir"
        if marks.get(path, NOTHING) != now or made and any(parent_of(other) == path and other not in paths for other in marks):
            raise Refused(b"edited " + path)
    after = {**marks, **{path: was for path, was, _ in changes}}
    after = {path: mark for path, mark in after.items() if mark != NOTHING}
    for path in sorted(after):
        if after.get(parent_of(path), NOTHING)[0] != "dir":
            raise Refused(b"parent " + path)
    return after


def inverse_to(nodes, db, number):
    """The writes that take back all jobs from the newest down to a number, and the database after them."""
    if db.newest == 0:
        raise Refused(b"stack empty")
    if not db.oldest <= number <= db.newest:
        raise Refused(b"no job r.%d" % number)
    marks, found = marks_of(nodes), {}
    for job in jobs_of(nodes, db._replace(oldest=number)):
        marks = undone(marks, job.changes)
        found.update({path: (job.number, was) for path, was, _ in job.changes})
    puts = {record_path(one): None for one in range(number, db.newest + 1)}
    puts |= {path: old_node(nodes, one, was) for path, (one, was) in sorted(found.items()) if was != NOTHING or path in nodes}
    return puts, Db(job.before, *((db.oldest, number - 1) if db.oldest < number else (0, 0)))


def migrated(nodes):
    """The writes that bring a root to format 2; None where it is."""
    node = nodes.get(DATABASE)
    if node is None or (node[0] == "file" and node[2].startswith(b"CNYDB02\n")):
        return None
    try:
        need(node[0] == "file" and node[2].startswith(b"CNYDB01\n") and len(node[2]) <= LIMIT[1])
        db = read_database(node[2])
    except NotOfForm:
        raise Damaged(DATABASE) from None
    return in_format(nodes, db, 1, 2)


def in_format(nodes, db, kind, other):
    """The database and the records of a root in another format."""
    jobs = {record_path(job.number): record_bytes(record_of(*job), other) for job in jobs_of(nodes, db, kind)}
    return {path: file(data) for path, data in {DATABASE: database_bytes(other, *db), **jobs}.items()}


def in_format_1(nodes):
    """The nodes of a root of format 2 as format 1 has them."""
    return {**nodes, **in_format(nodes, read_database(nodes[DATABASE][2]), 2, 1)}


def push(nodes, db, before, changes, olds):
    """The write of the record, and the nodes once what comes before it was written."""
    def without(above):
        return {path: node for path, node in nodes.items() if not is_within(path, above)}

    for number in ([db.oldest - 2] if db.oldest > 2 else []) + [db.newest]:
        nodes = without(record_path(number))
        nodes = without(saved_path(number))
    if not is_of(nodes.get(BASE), "dir"):
        nodes = {**without(BASE), BASE: DIR}
    for node in olds:
        if is_of(node, "file"):
            nodes |= {saved_path(db.newest): DIR, content_path(db.newest, sha(node[2])): file(node[2], 0o600)}
    return {record_path(db.newest): file(record_bytes(record_of(db.newest, before, db.troves, changes), 2))}, nodes


def check_stashable(nodes):
    """Two contents of one name can't be saved both."""
    kept = {}
    for node in nodes:
        if is_of(node, "file"):
            keep(kept, node[2])
