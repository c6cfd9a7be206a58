#!/usr/bin/env -S python3 -B
"""Asks a memcached of its own what the tests expect of a server.

usage: ask.py acts|replies [--write]

`acts.txt` is about the tests of `act` (crates/test_model/src/acts.rt), and `replies.txt` has the
replies of crates/test_reader/src/recorded.rt. The first line names the memcached that was asked.
Each other one is `REQUESTS -> REPLIES`, byte for byte: `\\r`, `\\n` and `\\xff` are bytes, and
`x*2000` is 2,000 times `x`. All go over one connection to a new server, so versions have numbers
from 1 on. Before each line the key `k` is deleted.

It prints the lines whose replies differ; the status is 1 if one does. With --write the file gets
what was answered, also to lines without replies.
"""

import pathlib
import sys

HERE = pathlib.Path(__file__).resolve().parent
sys.path.append(str(HERE.parents[1] / "tools"))

from cases import written_bytes
from live import servers


def reply(server, stream, requests):
    """All that comes back before the answer to a `version`, which is sent last, and that answer."""
    server.sendall(b"delete k noreply\r\n" + requests + b"version\r\n")
    lines = []
    while not (line := stream.readline()).startswith(b"VERSION "):
        lines.append(line or sys.exit("memcached closed the connection"))
    return b"".join(lines).decode("latin-1").encode("unicode_escape").decode(), line.decode()


def main():
    path = HERE / f"{sys.argv[1]}.txt"
    known, *lines = path.read_text(encoding="utf-8").splitlines()
    with servers.memcached(4) as (_, port), servers.connect(port) as server:
        stream, answered = server.makefile("rb"), []
        for line in lines:
            requests = line.partition(" -> ")[0]
            said, version = reply(server, stream, written_bytes(requests))
            answered.append(f"{requests} -> {said}")
    version = f"memcached {version.split()[1]}"
    if "--write" in sys.argv:
        path.write_text("\n".join([version, *answered, ""]), encoding="utf-8")
        return 0
    differ = [f"- {old}\n+ {new}" for old, new in zip(lines, answered) if old != new]
    print(f"asked: {version}; {path.name}: {known}", *differ, sep="\n")
    return 1 if differ else 0


if __name__ == "__main__":
    sys.exit(main())
