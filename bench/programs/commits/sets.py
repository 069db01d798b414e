"""The change sets of bench/commits.sh, of 5 troves with 50 files each, a line of hexadecimal digits for each."""
import sys
from hashlib import sha1

sys.path.insert(0, sys.argv[1])

from tools.cases.repositories import component
from tools.model.streams import set_bytes

for number in range(int(sys.argv[2])):
    troves, texts = [], []
    for place in range(5 * number, 5 * number + 5):
        files = [(b"/usr/share/name/%010d" % file, b"content %d" % file) for file in range(50 * place, 50 * place + 50)]
        troves.append(component(b"name%d:runtime" % place, b"1.0-1-1", files))
        texts += [text for _, text in files]
    print(set_bytes(troves, sorted((sha1(text).digest(), text) for text in texts)).hex())
