"""Calls on roots as lines of root_lines: how a call is written, and what a line has to answer, by tools/model/root.py."""
from collections import namedtuple

from tools.lines import words
from tools.lines.words import bytes_word, placed, tree_word
from tools.model.lists import by_name
from tools.model.records import sha
from tools.model.runs import JOURNAL, changes
from tools.model.streams import Refused, asked_by, set_bytes, trove_bytes
from tools.model.trees import DIR, is_of, is_tree


class Call(namedtuple("Call", "words made stages", defaults=[False])):
    """A call: its words in a line, what it makes of a system, and whether it stages contents before, in the private directory."""

    def on(self, system):
        """The system after the call, and its answer."""
        system = system.with_base() if self.stages else system
        try:
            after, told = self.made(system)
        except Refused as why:
            after, told = system, str(why)
        return after, f"{told} [{after.db_text()}]"


class Edit(namedtuple("Edit", "path node", defaults=[None])):
    """Another program puts a node, or nothing."""

    @property
    def words(self):
        return "edit|" + placed(self.path, self.node, bytes_word)

    def on(self, system):
        after = system.edit(*self)
        assert is_tree({b"/": DIR, **after.nodes()})
        return after, "edited"


def streams(troves):
    return ";".join(bytes_word(trove_bytes(one, True)) for one in troves)


def far_word(far):
    """Contents that are found elsewhere, or how a search for one ends."""
    return "!" + far if isinstance(far, str) else ";".join(map(bytes_word, sorted(set(far), key=sha)))


def searched(options, far):
    """The options of a job, with how its search of other contents goes, and these contents."""
    return ((*options, f"far-{far}"), ()) if isinstance(far, str) else (options, far)


def update(come, carried=(), far=(), options=(), staged=False):
    """An update. Staged contents come as those of a change set, which are the ones that the troves ask for."""
    options_far, found = searched(options, far)
    what, contents = "update", far_word(carried)
    if staged:
        carried = [text for text in sorted(set(carried), key=sha) if any((sha(text), len(text)) in asked_by(one) for one in come)]
        what, contents = "update_staged", bytes_word(set_bytes(come, [(sha(text), text) for text in carried]))
    given = f"{what}|{' '.join(options)}|{streams(come)}|{contents}|{far_word(far)}"
    return Call(given, lambda system: system.update(come, options_far, carried, found), staged)


def adopt(troves, far=(), options=()):
    given = f"adopt|{' '.join(options)}|{streams(by_name(troves))}|{far_word(far)}"
    return Call(given, lambda system: system.adopt(troves, *searched(options, far)))


def erase(names, options=()):
    return Call(f"erase|{' '.join(options)}|{b';'.join(names).decode()}", lambda system: system.erase(names, options))


def verify(names=(), far=()):
    return Call(f"verify|{b';'.join(names).decode()}|{far_word(far)}", lambda system: system.verify(names, far))


def rollback(number=None):
    return Call("rollback" if number is None else f"rollback_to|{number}", lambda system: system.rollback(number))


ROLLBACK = rollback()


def damaged(call, path):
    """The call, which finds this file damaged."""
    def made(system):
        raise Refused("damaged " + path.decode())

    return Call(call.words, made)


def standing(nodes):
    """What stands at each path but the journal's own files."""
    return words.standing({path: node for path, node in nodes.items() if not JOURNAL.is_own(path)})


def name_of(nodes):
    return sha(standing(nodes).encode()).hex()


def line_of(what, label, nodes, *given):
    assert is_tree({b"/": DIR, **nodes})
    return "\t".join([what, label, tree_word(nodes), *given])


def run_line(label, system, *calls, nodes=None):
    line = line_of("run", label, nodes or system.nodes(), *(call.words for call in calls))
    answers = []
    for call in calls:
        system, said = call.on(system)
        answers.append(said)
    return line, "\t".join([*answers, system.db_text(), standing(system.nodes())])


def recovered(system, call):
    """What is ready then, what stands outside the private directory, and what comes of the call where it is made again."""
    return f"{system.db_text()}, {name_of(system.outer)}, again {call.on(system)[1]}"


def stop_lines(label, system, call, picks, nodes=None):
    after, _ = call.on(system)
    for pick in picks:
        line = line_of("stop", label, nodes or system.nodes(), str(pick), call.words)
        yield line, "\t".join(["stopped", *changes([recovered(system, call), recovered(after, call)])])


def fail_line(label, system, call, nodes=None, looks=True):
    """A call of the disk fails before the root is ready, then, where the call looks at the disk at all, while the call reads and
    prepares, and then once it is decided; last none does."""
    after, said = call.on(system)
    failed = f"failed [{system.db_text()}], "
    texts = ["failed, " + recovered(system, call)]
    if looks:
        texts += [failed + recovered(system, call), failed + recovered(after, call)]
    line = line_of("fail", label, nodes or system.nodes(), call.words)
    return line, "\t".join(["failed", *changes([*texts, f"{said}, {recovered(after, call)}"])])


def nodes_seen(before, after):
    """What others read at a path: what was there and what is to be, and nothing between them where just one of them is a directory."""
    turns = before and after and is_of(before, "dir") != is_of(after, "dir")
    return [before] + ([None] if turns else []) + ([after] if after != before else [])


def seen_line(label, system, call, nodes=None):
    """What others read at each path that the call changes, and at one that it doesn't."""
    after, said = call.on(system)
    old, new = system.outer, after.outer
    paths = [path for path in sorted(old.keys() | new.keys()) if old.get(path) != new.get(path)] + [b"/var"]
    told = ["".join(";" + placed(path, node) for node in nodes_seen(old.get(path), new.get(path))) for path in paths]
    line = line_of("seen", label, nodes or system.nodes(), ";".join(path.decode() for path in paths), call.words)
    return line, "\t".join([said, *told])


def unready_line(label, nodes, why, *calls):
    """A root that can't be made ready: each call says why, and nothing changes."""
    return line_of("run", label, nodes, *(call.words for call in calls)), "\t".join([why] * (len(calls) + 1) + [standing(nodes)])


def unready_failures(label, nodes, why, call, picks):
    """The same where a call of the disk fails, and where the call is cut off."""
    text = f"{why}, {name_of(nodes)}, again {why}"
    yield line_of("fail", label, nodes, call.words), f"failed\tfailed, {text}\t{why}, {text}"
    yield from ((line_of("stop", label, nodes, str(pick), call.words), f"stopped\t{text}") for pick in picks)
