"""Cases of calls of several lines: batches that end in the middle, of which an output, an input or a disk fails or stops, and the demo."""
from tools.cases import samples
from tools.cases.root_examples import Examples
from tools.cases.rows import Rows, batch
from tools.cases.samples import COMPONENT, F1, LABEL, SET

FOO = b"update foo:runtime=" + LABEL
CUT, CUT_SET = COMPONENT[:115], SET[:-1]
TABLE = Rows("several", globals(), samples.TABLE.names)


def refusal_cases(script):
    """A refusal in the middle, by hand: the lines before it stand, and what they wrote."""
    some, cook = Examples(script).begin("batch_stops_at_refusal", ()), (b"cook", COMPONENT)
    script.fed(batch(cook, FOO, cook, b"erase foo:runtime"), b"batch")
    some.compare("batch", (1, b"committed %s\ninstalled %s\n" % (F1, F1), b"conary: exists %s\n" % F1))
    script.run(b"q")
    some.compare("q", (0, F1 + b"\n", b""))


def scale_cases(script):
    """The demo of 200 packages: 54 paths of each stand, 10 troves of each and the groups are committed, 5 of each and the group installed."""
    for packages in (20, 200):
        script.disks().tally(0, 1, f"verified {54 * packages} paths, 0 changed", b"demo", b"%d" % packages)
        script.tally(0, 10 * packages + 2, "group-demo=/demo.example.com@ex:devel/1.0-2-1", b"rq")
        # Behind `p99` and its components come those of `p9`.
        script.tally(0, 5 * packages + 1, "p9:runtime=/demo.example.com@ex:devel/1.0-1-1", b"q")


CASES = (refusal_cases, "lines by themselves", "ends of batches", "batches and streams", "demos", scale_cases)
