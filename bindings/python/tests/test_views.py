"""Views. The expected values are those of memberlist's state.go; the library's own tests are in C."""

import gc
import ipaddress
import threading
import time
import unittest
import weakref
from typing import List, Optional

import swimtab
from known import PING, VERSIONS, opened
from swimtab import Event, Shown, State, View, dead_of, errors, suspect_of


def alive(name: str, last: int, incarnation: int, meta: bytes = b"m") -> bytes:
    return swimtab.alive_of(name, bytes((127, 0, 0, last)), 7946, meta, VERSIONS, incarnation)


class Views(unittest.TestCase):
    def setUp(self):
        self.view = View.open()
        self.addCleanup(self.view.close)

    def event(self, at: float, message: bytes) -> Optional[Event]:
        """The event of a message, of which the member is as the view shows it."""
        change = self.view.take(at, message)
        if change is None:
            return None
        self.assertEqual(change.member, self.view.find(change.member.name))
        return change.event

    def names(self) -> List[str]:
        return [member.name for member in self.view]

    def test_a_member_is_shown(self):
        event, member = self.view.take(1.5, alive("b", 2, 1))
        wanted = Shown(
            name="b",
            state=State.ALIVE,
            since=1.5,
            incarnation=1,
            address=ipaddress.IPv4Address("127.0.0.2"),
            port=7946,
            meta=b"m",
            versions=VERSIONS,
            by=None,
            accusers=0,
            rivals=0,
        )
        self.assertIs(event, Event.JOINED)
        self.assertEqual((member, self.view.find("b")), (wanted, wanted))
        self.assertEqual((len(self.view), list(self.view)), (1, [wanted]))
        self.assertIn(b"b", self.view)
        self.assertNotIn("c", self.view)

    def test_each_event_is_told(self):
        for at, (message, event, state, since) in enumerate(
            (
                (alive("b", 2, 1), Event.JOINED, State.ALIVE, 0),
                (alive("b", 2, 1), None, State.ALIVE, 0),
                (alive("b", 2, 2), Event.RENEWED, State.ALIVE, 0),
                (alive("b", 2, 3, b"new"), Event.UPDATED, State.ALIVE, 0),
                (alive("b", 3, 9), Event.CONFLICT, State.ALIVE, 0),
                (suspect_of("x", "b", 3), Event.SUSPECTED, State.SUSPECT, 5),
                (suspect_of("y", "b", 3), Event.ALSO_SUSPECTED, State.SUSPECT, 5),
                (suspect_of("y", "b", 3), None, State.SUSPECT, 5),
                (alive("b", 2, 4), Event.REFUTED, State.ALIVE, 8),
                (dead_of("x", "b", 4), Event.DEAD, State.CONFIRM, 9),
                (alive("b", 2, 4), None, State.CONFIRM, 9),
                (alive("b", 2, 5), Event.BACK, State.ALIVE, 11),
                (dead_of("b", "b", 5), Event.LEFT, State.LEAVE, 12),
                (suspect_of("x", "none", 5), None, State.LEAVE, 12),
            )
        ):
            with self.subTest(at=at):
                self.assertIs(self.event(at, message), event)
                member = self.view.find("b")
                self.assertEqual((member.state, member.since), (state, since))
        self.assertIs(self.event(20, alive("z", 2, 0)), Event.KNOWN)
        self.assertIs(self.view.find("z").state, State.NOTED)
        self.assertEqual(f"{Event.ALSO_SUSPECTED:>15}|{Event.BACK}", " also suspected|back")

    def test_accusers_are_named_in_their_order(self):
        long = "x" * 1024
        self.view.take(1, alive("b", 2, 1))
        self.assertEqual(self.view.accusers("b"), [])
        for accuser in ("z", long, b"\xff"):
            self.view.take(2, suspect_of(accuser, "b", 1))
        self.assertEqual(self.view.accusers(b"b"), ["z", long, "\udcff"])
        member = self.view.find("b")
        self.assertEqual((member.accusers, member.by), (3, "\udcff"))
        with self.assertRaises(errors.NoMember):
            self.view.accusers("none")

    def test_messages_that_are_refused(self):
        for wanted, message in (
            (errors.WrongType, swimtab.compound([alive("b", 2, 1)])),
            (errors.WrongType, PING),
            (errors.WrongType, swimtab.user(b"mine")),
            (errors.Ended, alive("b", 2, 1)[:-1]),
            (errors.Ended, b""),
            (TypeError, "text"),
        ):
            with self.subTest(message=message), self.assertRaises(wanted):
                self.view.take(1, message)
        for wanted, at in ((OverflowError, -1), (OverflowError, 2e13), (ValueError, float("nan"))):
            with self.subTest(at=at), self.assertRaises(wanted):
                self.view.take(at, alive("b", 2, 1))
        self.assertEqual(len(self.view), 0)

    def test_a_bad_part_refuses_only_itself(self):
        each = [alive("b", 2, 1), PING, b"\3\x80", b"", b"\4", suspect_of("x", "b", 1)]
        lens = b"".join(bytes((0, len(part))) for part in each)
        packet = bytes((7, len(each))) + lens + b"".join(each)
        events = []
        with self.assertRaises(errors.NameEmpty):
            for change in self.view.take_parts(1, packet):
                events.append(change.event)
        self.assertEqual(events, [Event.JOINED, Event.SUSPECTED])
        (change,) = self.view.take_parts(2, bytearray(alive("b", 2, 2)))
        self.assertIs(change.event, Event.REFUTED)
        self.assertEqual(list(self.view.take_parts(3, PING)), [])

    def test_a_stream_is_merged_as_memberlist_does(self):
        for message in (
            alive("b", 2, 4),
            alive("c", 3, 5),
            alive("d", 4, 6),
            suspect_of("b", "c", 5),
            dead_of("b", "d", 6),
        ):
            self.view.take(1, message)
        stream = self.view.offer(join=True, user=b"user")
        self.assertTrue(stream.endswith(b"user"))
        with View.open() as other:

            def events():
                return [(change.member.name, change.event) for change in other.merge(9, stream)]

            # what the loop does not reach is not told
            other.merge(9, stream)
            self.assertEqual(len(other), 0)
            # of names that it does not know it learns only who is alive
            self.assertEqual(events(), [("b", Event.KNOWN)])
            for message in (alive("c", 3, 4), alive("d", 4, 5)):
                other.take(2, message)
            self.assertEqual(events(), [("c", Event.SUSPECTED), ("d", Event.SUSPECTED)])
            self.assertEqual(events(), [])
            member = other.find("d")
            self.assertEqual((member.since, member.by, member.accusers), (9, None, 0))
            with self.assertRaises(errors.Ended):
                other.merge(9, stream[:-1])
            with self.assertRaises(errors.WrongType):
                other.merge(9, b"\3")

    def test_a_node_reads_what_a_view_writes(self):
        for message in (alive("b", 2, 4), alive("c", 3, 5), suspect_of("b", "c", 5), alive("n", 5, 0)):
            self.view.take(1, message)
        with opened("a", 1) as node, View.open() as other:
            self.assertTrue(node.finish(self.view.offer()).news)
            states = [(member.state, member.incarnation) for member in node]
            self.assertEqual(states, [(State.ALIVE, 1), (State.ALIVE, 4), (State.SUSPECT, 5)])
            changes = list(other.merge(1, node.offer(user=b"user")))
            self.assertEqual([change.member.name for change in changes], ["a", "b"])
        with self.assertRaises(errors.UserTooLong):
            self.view.offer(user=bytes(20_971_521))

    def test_members_that_are_gone_are_forgotten(self):
        for message in (alive("b", 2, 4), alive("c", 3, 5), dead_of("c", "b", 4), dead_of("c", "c", 5)):
            self.view.take(1, message)
        self.assertEqual((self.view.forget(31), len(self.view)), (0, 2))
        self.assertEqual((self.view.forget(31.000001), len(self.view)), (2, 0))
        self.assertIs(self.event(40, alive("b", 2, 1)), Event.JOINED)
        with View.open(wait=0.5) as quick:
            now = time.monotonic()
            for message in (alive("b", 2, 1), dead_of("c", "b", 1)):
                quick.take(now, message)
            self.assertEqual((quick.forget(now + 0.5), quick.forget(now + 0.6)), (0, 1))

    def test_members_are_walked_while_they_change(self):
        for name in ("m", "b", "z", "ba"):
            self.view.take(1, alive(name, 2, 1))
        self.assertEqual(self.names(), ["b", "ba", "m", "z"])
        seen = []
        for member in self.view:
            seen.append(member.name)
            if member.name == "ba":
                self.view.take(1, dead_of("b", "m", 1))
                self.view.forget(40)
                self.view.take(40, alive("n", 2, 1))
        self.assertEqual(seen, ["b", "ba", "n", "z"])
        self.assertIsNone(self.view.after("z"))
        self.assertIsNone(self.view.find("n" * 1025))
        with self.assertRaises(errors.NameTooLong):
            self.view.after("n" * 1025)

    def test_a_closed_view_refuses(self):
        stream = self.view.offer()
        with View.open() as view:
            pass
        view.close()
        self.assertEqual((len(view), view.forget(1)), (0, 0))
        for call in (
            view.offer,
            lambda: view.take(1, alive("b", 2, 1)),
            lambda: list(view.take_parts(1, alive("b", 2, 1))),
            lambda: list(view.merge(1, stream)),
            lambda: view.find("b"),
            lambda: view.after("b"),
            lambda: view.accusers("b"),
            lambda: list(view),
        ):
            with self.assertRaises(errors.NoNode):
                call()

    def test_a_view_that_nothing_refers_to_is_closed(self):
        view = View.open()
        closing, gone = view._closing, weakref.ref(view)
        del view
        gc.collect()
        self.assertIsNone(gone())
        self.assertFalse(closing.alive)

    def test_threads_share_a_view(self):
        def work(who: int) -> None:
            for i in range(100):
                self.view.take(i, alive(f"{who}-{i}", 2, 1))
                len(list(self.view))

        threads = [threading.Thread(target=work, args=(who,)) for who in range(4)]
        for thread in threads:
            thread.start()
        for thread in threads:
            thread.join()
        self.assertEqual(len(self.view), 400)


if __name__ == "__main__":
    unittest.main()
