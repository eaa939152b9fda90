import gc
import ipaddress
import threading
import unittest
import weakref

import swimtab
from known import VERSIONS, opened
from swimtab import State, errors

ALIVE = (
    b"\x04\x86\xa4Addr\xa4\x7f\0\0\1\xabIncarnation\1\xa4Meta\xa1m\xa4Node\xa1a"
    b"\xa4Port\xcd\x1f\x0a\xa3Vsn\xa6\1\5\2\0\0\0"
)


class Nodes(unittest.TestCase):
    def setUp(self):
        self.node = opened("a", 1)
        self.addCleanup(self.node.close)

    def test_a_node_knows_itself(self):
        member = self.node.find("a")
        self.assertEqual(len(self.node), 1)
        self.assertEqual(
            member,
            swimtab.Member(
                name="a",
                state=State.ALIVE,
                incarnation=1,
                came_back=False,
                address=ipaddress.IPv4Address("127.0.0.1"),
                port=7946,
                meta=b"m",
                versions=VERSIONS,
                address_incarnation=1,
            ),
        )
        self.assertEqual(self.node.at(0), member)
        self.assertEqual(self.node.listing(), "a alive 1 1/7f000001/7946/6d/010502000000\n")

    def test_details_that_are_refused(self):
        for wanted, arguments in (
            (errors.NameEmpty, ("", "10.0.0.1")),
            (errors.NameTooLong, ("x" * 1025, "10.0.0.1")),
            (errors.BadAddress, ("a", b"123")),
            (errors.MetaTooLong, ("a", "10.0.0.1", 1, bytes(513))),
            (errors.BadVersions, ("a", "10.0.0.1", 1, b"", b"1")),
            (OverflowError, ("a", "10.0.0.1", 65536)),
            (OverflowError, ("a", "10.0.0.1", 1, b"", b"", -1)),
            (ValueError, ("a", "no address")),
            (TypeError, ("a", 5)),
            (TypeError, (None, "10.0.0.1")),
        ):
            with self.subTest(arguments=arguments), self.assertRaises(wanted):
                swimtab.Node.open(*arguments)

    def test_names_and_addresses_come_in_each_form(self):
        raw_name = b"\xff\0x"
        with swimtab.Node.open(raw_name, ipaddress.ip_address("::1"), 1, bytearray(b"m")) as node:
            (member,) = node
            self.assertEqual(member.name_bytes, raw_name)
            self.assertEqual(member.address, ipaddress.IPv6Address("::1"))
            self.assertIn(member.name, node)
            self.assertIn(memoryview(raw_name), node)
            self.assertNotIn("x", node)
            self.assertEqual(node.listing(), f"%FF%00x alive 1 1/{1:032x}/1/6d/\n")

    def test_a_closed_node_refuses(self):
        with opened("b", 2) as node:
            pass
        node.close()
        self.assertEqual((len(node), node.left_out), (0, 0))
        for call in (
            node.refute,
            node.offer,
            node.dump,
            node.listing,
            node.watch,
            node.next_change,
            lambda: node.take(ALIVE),
            lambda: node.alive(1),
            lambda: node.leave(1),
            lambda: node.suspect("a", 1),
            lambda: node.confirm("a", 1),
            lambda: node.update("10.0.0.1"),
            lambda: node.answer(self.node.offer()),
            lambda: node.finish(self.node.offer()),
            lambda: node.find("a"),
            lambda: node.after("a"),
            lambda: node.at(0),
            lambda: node.forget("a"),
            lambda: node.readmit("a"),
            lambda: node.relate(self.node),
            lambda: self.node.relate(node),
            lambda: list(node),
        ):
            with self.assertRaises(errors.NoNode):
                call()

    def test_a_node_that_nothing_refers_to_is_closed(self):
        node = opened("b", 2)
        closing, gone = node._closing, weakref.ref(node)
        del node
        gc.collect()
        self.assertIsNone(gone())
        self.assertFalse(closing.alive)

    def test_packets_of_the_member(self):
        self.assertEqual(self.node.alive(1), ALIVE)
        self.assertEqual(
            self.node.suspect("b", 200),
            b"\x03\x83\xa4From\xa1a\xabIncarnation\xcc\xc8\xa4Node\xa1b",
        )
        self.assertEqual(
            self.node.confirm("b", 0), b"\x05\x83\xa4From\xa1a\xabIncarnation\0\xa4Node\xa1b"
        )
        self.assertEqual(
            self.node.leave(2), b"\x05\x83\xa4From\xa1a\xabIncarnation\2\xa4Node\xa1a"
        )
        with self.assertRaises(errors.OwnName):
            self.node.confirm("a", 1)
        with self.assertRaises(OverflowError):
            self.node.alive(1 << 32)

    def test_news_is_told_once(self):
        packet = swimtab.alive_of("b", "10.0.0.2", incarnation=3)
        self.assertTrue(self.node.take(packet))
        self.assertFalse(self.node.take(bytearray(packet)))
        with self.assertRaises(errors.Ended):
            self.node.take(packet[:-1])
        with self.assertRaises(errors.WrongType):
            self.node.take(b"\0")

    def test_a_suspicion_is_refuted(self):
        self.assertIsNone(self.node.refute())
        self.node.take(swimtab.suspect_of("b", "a", 4))
        self.assertEqual(self.node.find("a").state, State.SUSPECT)
        self.assertEqual(self.node.refute(), 5)
        self.assertEqual(self.node.find("a").incarnation, 5)
        self.node.take(swimtab.dead_of("b", "a", 6))
        with self.assertRaises(errors.Gone):
            self.node.refute()

    def test_details_are_replaced(self):
        self.assertIsNone(self.node.update("127.0.0.1", 7946, b"m", VERSIONS))
        self.assertEqual(self.node.update("127.0.0.9", 7947), 2)
        member = self.node.find("a")
        self.assertEqual((str(member.address), member.port, member.meta), ("127.0.0.9", 7947, b""))
        with self.assertRaises(errors.MetaTooLong):
            self.node.update("127.0.0.9", 7947, bytes(513))

    def test_members_are_walked_while_the_table_changes(self):
        names = [f"m{i}" for i in range(5)]
        for name in names:
            self.node.take(swimtab.alive_of(name, "10.0.0.1"))
        seen = []
        for member in self.node:
            seen.append(member.name)
            if member.name == "m1":
                self.node.forget("m0")
                self.node.forget("m3")
                self.node.take(swimtab.alive_of("m6", "10.0.0.1"))
        self.assertEqual(seen, ["a", "m0", "m1", "m2", "m4", "m6"])
        self.assertEqual(self.node.after("m4").name, "m6")
        self.assertIsNone(self.node.after("m6"))
        self.assertIsNone(self.node.find("m3"))
        for index in (5, 2**63):
            with self.assertRaises(errors.NoMember):
                self.node.at(index)

    def test_changes_are_noted(self):
        self.node.take(swimtab.alive_of("b", "10.0.0.1"))
        self.assertEqual(list(self.node.changes()), [])
        self.node.watch()
        self.node.take(swimtab.suspect_of("a", "b", 1))
        self.node.take(swimtab.alive_of("c", "10.0.0.1"))
        for member in self.node.changes():
            self.assertEqual((member.name, member.state), ("b", State.SUSPECT))
            break
        self.assertEqual(self.node.next_change().name, "c")
        self.assertIsNone(self.node.next_change())
        self.node.take(swimtab.alive_of("d", "10.0.0.1"))
        self.node.watch(False)
        self.assertIsNone(self.node.next_change())

    def test_a_member_that_came_back_is_readmitted(self):
        self.node.take(swimtab.dead_of("c", "b", 3))
        self.assertIsNone(self.node.find("b").address)
        with self.assertRaises(errors.NotBack):
            self.node.readmit("b")
        self.node.take(swimtab.alive_of("b", "10.0.0.2", incarnation=4))
        member = self.node.find("b")
        self.assertEqual((member.state, member.came_back), (State.CONFIRM, True))
        self.assertEqual(member.address_incarnation, 4)
        self.node.readmit("b")
        member = self.node.find("b")
        self.assertEqual((member.state, member.incarnation), (State.ALIVE, 4))
        with self.assertRaises(errors.NoMember):
            self.node.readmit("c")
        with self.assertRaises(errors.NoMember):
            self.node.forget("c")

    def test_states_print_as_in_a_listing(self):
        words = ["alive", "suspect", "confirm", "leave", "noted"]
        self.assertEqual([str(state) for state in State], words)
        self.assertEqual(f"{State.LEAVE:>6}|{State.ALIVE}", " leave|alive")

    def test_threads_share_a_node(self):
        def work(who: int) -> None:
            for i in range(100):
                self.node.take(swimtab.alive_of(f"{who}-{i}", "10.0.0.1"))
                self.node.relate(other)
                other.relate(self.node)
                len(list(self.node))

        with opened("z", 9) as other:
            threads = [threading.Thread(target=work, args=(who,)) for who in range(4)]
            for thread in threads:
                thread.start()
            for thread in threads:
                thread.join()
        self.assertEqual(len(self.node), 401)


if __name__ == "__main__":
    unittest.main()
