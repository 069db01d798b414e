"""The demo of one package, stopped, crashed and made again, and with failing calls, as tools/cases/stops.py does it with each command: a program of
command_lines is to answer as the model does, and what counts is to be found as before a line of the demo or behind it. Usage, at the top:
`python3 -m tools.lines.demo_stops PROGRAM`."""
import collections
import subprocess
import sys

from tools.cases.root_examples import WRONG
from tools.cases.stops import DEMO, stop_cases
from tools.lines.script import Script

script, times = Script(), collections.Counter()
stop_cases(script, DEMO)
found = subprocess.run(sys.argv[1], input="".join(line + "\n" for line in script.lines).encode(), stdout=subprocess.PIPE).stdout.decode().split("\n")
for line, answer in zip(script.lines, script.answers[1:]):
    times[" of ".join(line.split("\t")[:2])] += int(answer.rsplit(" ", 1)[1]) if line.startswith(("stops", "faults")) else 0
print(", ".join(f"{count} {name}" for name, count in times.items() if count))
WRONG += [f"otherwise answered: {line}" for line, answer, some in zip(script.lines, script.answers, found + [""] * len(script.lines)) if answer != some]
sys.exit("\n".join(WRONG) or 0)
