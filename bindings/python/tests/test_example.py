"""The example, asked of a member that this file plays."""

import base64
import os
import socket
import subprocess
import sys
import tempfile
import threading
import unittest
from pathlib import Path

import swimtab
from known import KEY16, opened
from swimtab import Keyring, Kind, errors

PYTHON = Path(__file__).resolve().parent.parent
EXAMPLE = PYTHON / "examples" / "members.py"


def answer_one(listener: socket.socket, node: swimtab.Node, keys: Keyring) -> None:
    """Answers one exchange as a member does, and closes the connection."""
    connection, _ = listener.accept()
    with connection:
        received, stream = b"", None
        while stream is None:
            received += connection.recv(65536)
            try:
                stream = keys.unwrap_stream(received)
            except errors.Ended:
                continue
        assert stream.kind == Kind.PUSH_PULL
        reply, _ = node.answer(stream.data, user=b"state")
        connection.sendall(keys.seal_stream(reply, reply=True))


class Example(unittest.TestCase):
    def printed(self, keys: Keyring, *arguments: str) -> str:
        with opened("web-1", 1) as node, socket.create_server(("127.0.0.1", 0)) as listener:
            node.take(swimtab.alive_of("web-2", "::1", 80, b"", node.find("web-1").versions))
            node.take(swimtab.suspect_of("web-1", "web-2", 1))
            member = threading.Thread(target=answer_one, args=(listener, node, keys))
            member.start()
            asked = f"127.0.0.1:{listener.getsockname()[1]}"
            done = subprocess.run(
                [sys.executable, "-B", str(EXAMPLE), asked, *arguments],
                env={**os.environ, "PYTHONPATH": str(PYTHON)},
                capture_output=True,
                text=True,
                timeout=60,
            )
            member.join()
            self.assertEqual(done.stderr, "")
            self.assertEqual([member.name for member in node], ["web-1", "web-2"])
            return done.stdout

    def test_it_prints_the_members(self):
        printed = self.printed(Keyring())
        self.assertEqual(printed, "web-1 alive 127.0.0.1:7946\nweb-2 suspect -\n")

    def test_it_prints_those_of_a_cluster_with_a_key(self):
        with tempfile.NamedTemporaryFile("w", suffix=".key") as file:
            file.write(base64.b64encode(KEY16).decode() + "\n")
            file.flush()
            self.assertIn("web-1 alive", self.printed(Keyring(KEY16), file.name))

    def test_it_has_at_most_20_lines(self):
        self.assertLessEqual(len(EXAMPLE.read_text().splitlines()), 20)


if __name__ == "__main__":
    unittest.main()
