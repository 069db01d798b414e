"""Cases of histories that `play` makes: calls, calls into which a crash falls, and edits by others, one after the other on two disks. Some edits are none
that others make: at paths of the program's own, and where no tree is left."""
from tools.cases import several
from tools.cases.root_examples import Examples
from tools.cases.rows import Rows

TABLE = Rows("histories", globals(), several.TABLE.names)


def worked_cases(script):
    """A stranger in a directory of the first job, a newer job that is stopped before or behind its commit flag, and a rollback; then that alone."""
    stand = TABLE.nodes("file 0600 x /etc/other; file abc /etc/foo")
    # Behind the flag the recovery brings the job to its end, and the rollback takes that one back.
    for name, stop, statuses in (("update_stopped_before_commit_flag", 43, [0, 255, 1]), ("update_stopped_behind_commit_flag", 44, [0, 255, 0])):
        some = Examples(script).begin(name, ())
        events = f"install < {{COMPONENT}} & edit file 0600 x /etc/other & stop 1000 {stop} 0 install --replace < {{SECOND}} & rollback"
        some.look("statuses", "play", script.play(*map(TABLE.event, events.split(" & "))), statuses)
        some.stands(stand)
        script.line(b"rollback")
        some.compare("rollback", (1, b"", b"conary: edited /etc\n"))
        some.stands(stand)


CASES = (worked_cases, "histories with late edits", "histories by chance")
