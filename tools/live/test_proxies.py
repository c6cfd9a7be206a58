"""`mcrace test` through proxies: a right one isn't blamed, and one that answers from a cache of its
own is found."""

import contextlib
import pathlib
import re
import shutil
import tempfile
import threading
import unittest

from . import servers
from .program import LiveTest, three_times
from .test_suite import tested


@contextlib.contextmanager
def nutcracker(behind):
    """A nutcracker before the server on this port."""
    program, port = shutil.which("nutcracker"), servers.free_port()
    if program is None:
        raise unittest.SkipTest("nutcracker isn't installed; on Debian: apt-get install nutcracker")
    with tempfile.TemporaryDirectory() as folder:
        settings = pathlib.Path(folder, "nutcracker.yml")
        settings.write_text(f"proxy:\n  listen: 127.0.0.1:{port}\n  servers:\n"
                            f"    - 127.0.0.1:{behind}:1\n")
        words = [program, "-c", settings, "-s", servers.free_port(), "-a", "127.0.0.1"]
        with servers.started(words, port) as server:
            yield server


class Remembering(servers.Carrying):
    """A proxy that answers a `get` as it was answered before, and asks the server for all else."""

    GET = re.compile(rb"get \S+\r\n")

    def __init__(self, port):
        super().__init__(port)
        self.known, self.lock = {}, threading.Lock()

    def begin(self, client):
        threading.Thread(target=self.serve_one, args=[client], daemon=True).start()

    def serve_one(self, client):
        with contextlib.suppress(OSError), client, servers.connect(self.behind) as server:
            while asked := client.recv(65_536):
                client.sendall(self.answer(server, asked))

    def answer(self, server, asked):
        with self.lock:
            if asked in self.known:
                return self.known[asked]
        server.sendall(asked)
        answered = server.recv(65_536)
        if self.GET.fullmatch(asked):
            with self.lock:
                self.known[asked] = answered
        return answered


class Proxies(LiveTest):
    """One server, which A and B reach in different ways."""

    seconds = 40

    @three_times
    def test_nutcracker(self):
        """Each branch has a nutcracker of its own before the server, and nothing is found."""
        port = self.enter(servers.memcached()).port
        ways = [self.enter(nutcracker(port)).port for _ in "AB"]
        ends = [f"127.0.0.1:{it}" for it in ways]
        found = tested(port, "--a", ends[0], "--b", ends[1], "--for", "4s")
        self.assertEqual((found.status, found.faults), (0, ""), found.text)
        self.assertIn("\nwrong alone: none\n", found.text)
        self.assertRegex(found.text, r"\nno race found in [\d,]+ runs and ")

    @three_times
    def test_remembering(self):
        """B gets what a proxy remembers, though A has set the key anew since."""
        port = self.enter(servers.serving()).port
        proxy = self.enter(Remembering(port))
        found = tested(port, "--b", f"127.0.0.1:{proxy.port}", "--only", "stale-get", "--for", "5s")
        self.assertEqual(found.status, 1, found.text)
        self.assertRegex(found.text, r"found: stale-get -\s")
        self.assertIn("no order explains this", found.text)


if __name__ == "__main__":
    unittest.main()
