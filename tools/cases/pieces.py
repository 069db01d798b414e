"""Cases of requests to a repository that come in pieces: rows of mirrors.txt, of what stands, how many bytes a piece has, and the stream."""
from tools.cases.mirrors import TABLE


def cases():
    for nodes, size, stream in TABLE.split_steps("requests in pieces"):
        yield "serve", TABLE.tree(nodes), int(size), TABLE.bytes(stream)
