"""What members of real clusters sent, read as a follower does."""

import base64
import unittest

import swimtab
from known import EXAMPLES, ROOT, captured, line_of, packets
from swimtab import Keyring, Kind, State


class Follower:
    """Is no member itself, and notes what changes."""

    def __init__(self, keys):
        self.keys, self.lines, self.kinds = keys, [], set()
        self.node = swimtab.Node.open("(follow)", "0.0.0.0", 0)
        self.node.forget("(follow)")
        self.node.watch()

    def read(self, packet):
        message = self.keys.unwrap(packet)
        for part in swimtab.parts(message.data):
            self.kinds.add(part.kind)
            if part.kind in (Kind.ALIVE, Kind.SUSPECT, Kind.DEAD):
                self.node.take(part.data)
        self.lines += map(line_of, self.node.changes())


class RealClusters(unittest.TestCase):
    def test_a_follower_prints_what_the_one_in_c_prints(self):
        follower = Follower(Keyring())
        for packet in packets("memberlist.hex"):
            follower.read(packet)
        wanted = (ROOT / "examples" / "c" / "follow.txt").read_text()
        self.assertEqual(follower.lines, wanted.splitlines())
        listing = (EXAMPLES / "memberlist.txt").read_text()
        self.assertEqual(follower.node.listing(), listing)

    def test_a_cluster_with_checksums_and_compression(self):
        follower = Follower(Keyring())
        for packet in packets("default-cluster.hex"):
            follower.read(packet)
        self.assertTrue(follower.lines)
        self.assertIn(Kind.ALIVE, follower.kinds)
        for member in follower.node:
            self.assertRegex(line_of(member), r"^d\d \w+ 127\.0\.5\.\d:7946( back)?$")

    def test_a_cluster_with_a_key(self):
        key = base64.b64decode((EXAMPLES / "encrypted.key").read_text())
        follower = Follower(Keyring(key))
        sent = list(captured("encrypted.pcap"))
        for kind, payload in sent:
            if kind == "udp":
                follower.read(payload)
        self.assertEqual(
            follower.lines,
            [f"db-{i} alive 127.0.8.{i}:7946" for i in (1, 2, 3, 4)]
            + ["db-4 leave 127.0.8.4:7946"]
            + [f"db-3 {state} 127.0.8.3:7946" for state in ("suspect", "confirm")],
        )
        others = {Kind.PING, Kind.ACK, Kind.INDIRECT, Kind.NACK, Kind.USER}
        self.assertLessEqual(others, follower.kinds)

    def test_the_streams_of_a_cluster_with_a_key(self):
        key = base64.b64decode((EXAMPLES / "encrypted.key").read_text())
        kinds, table = set(), swimtab.Node.open("me", "10.0.0.1")
        for kind, payload in captured("encrypted.pcap"):
            if kind == "tcp":
                message = Keyring(key).unwrap_stream(payload)
                kinds.add(message.kind)
                if message.kind == Kind.PUSH_PULL:
                    self.assertEqual(swimtab.Progress().whole(message.data), len(message.data))
                    table.finish(message.data)
        self.assertIn(Kind.PUSH_PULL, kinds)
        names = [member.name for member in table if member.state == State.ALIVE]
        self.assertLessEqual({"db-1", "db-2", "me"}, set(names))


if __name__ == "__main__":
    unittest.main()
