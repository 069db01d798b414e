"""The lines of bench/closure.sh: a list of so many troves and then a test of it, or its closure and so many changes, made or
refused. For `hub` each trove requires what one more provides, and the changes are of that one."""
import sys

sys.path.insert(0, sys.argv[1])

from tools.cases.closures import trove as trove_of
from tools.lines.words import digits
from tools.model.streams import trove_bytes

count, changes, refused = map(int, sys.argv[2:5])
is_hub = sys.argv[5:] == ["hub"]


def hub(revision):
    return trove_of("hub:lib", provides=["soname: hub.so(A B)"], revision=revision)


def trove(place, revision):
    first = place // 10 * 10
    requires = ["trove: p%06d:lib" % (first % count + number) for number in range(is_hub, 10)]
    return trove_of("p%06d:lib" % place, requires + ["soname: hub.so(A)"] * is_hub, ["soname: lib%d.so(A B)" % place], revision)


def say(*words):
    print(*words, sep="\t")


def wait(one):
    say("trove", digits(trove_bytes(one)))


for one in [hub(1)] * is_hub + [trove(place, 1) for place in range(count)]:
    wait(one)
say("of" if changes + refused else "closed")
for change in range(changes):
    one = hub(change + 2) if is_hub else trove(change * 37 % count, change + 2)
    wait(one)
    say("change", one.identity.name.decode())
for change in range(refused):
    say("change", "hub:lib" if is_hub else "p%06d:lib" % (change * 37 % count))
