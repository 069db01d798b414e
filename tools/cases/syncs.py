"""Cases of `update --resolve` and of `sync` for command_lines: refusals in their order, outputs that fail, and repositories and models that were
drawn by chance. The worked examples are in tools/cases/root_examples.txt; these are topics of syncs.txt."""
from tools.cases import root_examples
from tools.cases.rows import Rows

LARGE = b"#" * 65_537
TABLE = Rows("syncs", globals(), root_examples.TABLE.names)

CASES = ("refused syncs", "syncs that fail", "repositories by chance", "models by chance")
