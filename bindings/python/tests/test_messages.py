import ipaddress
import unittest

import swimtab
from known import PING, opened
from swimtab import Kind, Message, errors


class Messages(unittest.TestCase):
    def test_a_ping_is_that_of_a_real_member(self):
        source = ("d2", "127.0.5.2", 7946)
        self.assertEqual(swimtab.ping(1, "d3", source), PING)
        probe = swimtab.read_probe(PING)
        self.assertEqual((probe.kind, probe.seq, probe.node), (Kind.PING, 1, "d3"))
        self.assertEqual((probe.source, str(probe.source_address), probe.source_port), source)
        rest = probe.address, probe.port, probe.nack, probe.payload, probe.payload_len
        self.assertEqual(rest, (None, 0, False, b"", 0))

    def test_a_ping_may_come_from_nobody(self):
        probe = swimtab.read_probe(swimtab.ping(7, b"\xff"))
        self.assertEqual((probe.node, probe.source, probe.source_address), ("\udcff", "", None))

    def test_an_indirect_ping_names_its_target(self):
        target = ("d3", ipaddress.ip_address("::1"), 7947)
        for nack, source in ((True, None), (False, ("d2", b"", 1))):
            probe = swimtab.read_probe(swimtab.indirect_ping(2, target, nack, source))
            self.assertEqual((probe.kind, probe.seq, probe.nack), (Kind.INDIRECT, 2, nack))
            self.assertEqual((probe.node, probe.address, probe.port), target)
            self.assertEqual((probe.source, probe.source_port), ("d2", 1) if source else ("", 0))

    def test_acks_and_nacks_repeat_the_number(self):
        self.assertEqual(swimtab.ack(5), b"\x02\x82\xa7Payload\xa0\xa5SeqNo\5")
        self.assertEqual(swimtab.nack(5), b"\x0b\x81\xa5SeqNo\5")
        probe = swimtab.read_probe(swimtab.ack(2**32 - 1, b"coordinates"))
        self.assertEqual((probe.kind, probe.seq), (Kind.ACK, 2**32 - 1))
        self.assertEqual((probe.payload, probe.payload_len), (b"coordinates", 11))
        probe = swimtab.read_probe(swimtab.ack(1, bytes(65535)))
        self.assertEqual((probe.payload, probe.payload_len), (bytes(1024), 65535))
        probe = swimtab.read_probe(swimtab.nack(6))
        self.assertEqual((probe.kind, probe.seq), (Kind.NACK, 6))

    def test_probes_that_are_refused(self):
        for wanted, call in (
            (errors.WrongType, lambda: swimtab.read_probe(swimtab.suspect_of("a", "b", 1))),
            (errors.Ended, lambda: swimtab.read_probe(PING[:-1])),
            (errors.NameTooLong, lambda: swimtab.ping(1, "x" * 1025)),
            (errors.BadAddress, lambda: swimtab.ping(1, "x", ("y", b"123", 1))),
            (errors.BadAddress, lambda: swimtab.indirect_ping(1, ("y", b"123", 1))),
            (errors.TooLong, lambda: swimtab.ack(1, bytes(65536))),
            (OverflowError, lambda: swimtab.nack(1 << 32)),
            (OverflowError, lambda: swimtab.ping(-1, "x")),
            (TypeError, lambda: swimtab.user("text")),
        ):
            with self.assertRaises(wanted):
                call()

    def test_packets_about_members(self):
        self.assertEqual(
            swimtab.suspect_of("b", "c", 3), b"\x03\x83\xa4From\xa1b\xabIncarnation\3\xa4Node\xa1c"
        )
        self.assertEqual(
            swimtab.dead_of("", b"c", 3), b"\x05\x83\xa4From\xa0\xabIncarnation\3\xa4Node\xa1c"
        )
        with opened("a", 1) as node:
            packet = swimtab.alive_of("a", "127.0.0.1", 7946, b"m", node.find("a").versions, 6)
            self.assertEqual(packet, node.alive(6))
        self.assertEqual(swimtab.user(b"any"), b"\x08any")
        with self.assertRaises(errors.NameEmpty):
            swimtab.suspect_of("b", "", 3)
        longest = swimtab.suspect_of("b" * 1024, "c" * 1024, 2**32 - 1)
        self.assertLessEqual(len(longest), swimtab.MAX_PACKET_LEN)

    def test_a_compound_packet_has_its_parts(self):
        each = [swimtab.suspect_of("b", "c", i) for i in range(255)]
        packet = swimtab.compound(each)
        self.assertEqual(packet[:2], b"\x07\xff")
        parts = list(swimtab.parts(packet))
        self.assertEqual(parts, [Message(Kind.SUSPECT, part) for part in each])
        self.assertEqual(list(swimtab.parts(packet[:-1])), parts[:-1])
        self.assertEqual(list(swimtab.parts(swimtab.compound([]))), [])
        self.assertEqual(list(swimtab.parts(PING)), [Message(Kind.PING, PING)])
        with self.assertRaises(errors.TooManyPackets):
            swimtab.compound(each + each[:1])
        with self.assertRaises(errors.WrongType):
            swimtab.compound([PING])

    def test_a_part_may_be_of_no_kind(self):
        parts = list(swimtab.parts(b"\x07\x02\0\2\0\0\x63x"))
        self.assertEqual(parts, [(0x63, b"cx"), (0, b"")])


if __name__ == "__main__":
    unittest.main()
