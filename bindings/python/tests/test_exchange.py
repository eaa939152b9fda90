import unittest

import swimtab
from known import EXAMPLES, opened
from swimtab import Exchange, Form, Progress, Relation, errors

HEADER = b"\x06\x83\xa4Join%c\xa5Nodes\1\xacUserStateLen%c"
RECORD = (
    b"\x87\xa4Addr\xa4\x7f\0\0\1\xabIncarnation\1\xa4Meta\xa1m\xa4Name\xa1a\xa4Port\xcd\x1f\x0a"
    b"\xa5State\0\xa3Vsn\xa6\1\5\2\0\0\0"
)


class Exchanges(unittest.TestCase):
    def setUp(self):
        self.a, self.b = opened("a", 1), opened("b", 2)
        self.addCleanup(self.a.close)
        self.addCleanup(self.b.close)

    def test_an_offer_is_a_stream(self):
        self.assertEqual(self.a.offer(), HEADER % (b"\xc2", 0) + RECORD)
        self.assertEqual(self.a.dump(), HEADER % (b"\xc2", 0) + RECORD)
        joining = self.a.offer(join=True, user=b"state")
        self.assertEqual(joining, HEADER % (b"\xc3", 5) + RECORD + b"state")
        with self.assertRaises(errors.BadForm):
            self.a.offer(form=Form.CANONICAL, user=b"state")
        with self.assertRaises(errors.BadForm):
            self.a.offer(form=2)
        with self.assertRaises(errors.UserTooLong):
            self.a.offer(user=bytes(20_971_521))

    def test_after_an_exchange_both_have_the_same(self):
        self.assertIs(self.a.relate(self.b), Relation.APART)
        offer = self.a.offer(join=True, user=b"from a")
        reply, exchange = self.b.answer(offer + b"more", user=bytearray(b"from b"))
        self.assertEqual(exchange, Exchange(join=True, news=True, used=len(offer)))
        self.assertTrue(reply.endswith(b"from b"))
        self.assertIs(self.a.relate(self.b), Relation.BEHIND)
        self.assertIs(self.b.relate(self.a), Relation.AHEAD)
        self.assertEqual(self.a.finish(reply), Exchange(join=True, news=True, used=len(reply)))
        self.assertIs(self.a.relate(self.b), Relation.EQUAL)
        self.assertIs(self.a.relate(self.a), Relation.EQUAL)
        self.assertEqual(self.a.dump(), self.b.dump())
        self.assertFalse(self.a.finish(self.b.offer()).news)

    def test_a_refused_stream_changes_nothing(self):
        offer, before = self.a.offer(), self.b.dump()
        for wanted, arguments in (
            (errors.Ended, (offer[:-1],)),
            (errors.WrongType, (b"\5",)),
            (errors.BadForm, (offer, 2)),
            (errors.BadForm, (offer, Form.CANONICAL, b"state")),
        ):
            with self.assertRaises(wanted):
                self.b.answer(*arguments)
        with self.assertRaises(errors.Ended):
            self.b.finish(offer[:-1])
        self.assertEqual(self.b.dump(), before)

    def test_members_without_sound_versions_are_left_out(self):
        self.a.take(swimtab.alive_of("c", "10.0.0.3"))
        self.a.take(swimtab.suspect_of("c", "d", 1))
        self.assertEqual(self.a.left_out, 2)
        self.b.finish(self.a.offer())
        self.assertEqual([member.name for member in self.b], ["a", "b"])
        self.b.finish(self.a.offer(form=Form.CANONICAL))
        self.assertEqual([member.name for member in self.b], ["a", "b", "c", "d"])

    def test_a_stream_comes_in_pieces(self):
        stream = (EXAMPLES / "user-state.bin").read_bytes()
        progress = Progress()
        for end in range(len(stream)):
            self.assertIsNone(progress.whole(stream[:end]))
        self.assertEqual(progress.whole(stream + b"more"), len(stream))
        self.assertEqual(self.a.finish(stream + b"more").used, len(stream))
        with self.assertRaises(errors.WrongType):
            Progress().whole(b"\5")
        self.assertEqual(Progress().whole(bytearray(stream)), len(stream))


if __name__ == "__main__":
    unittest.main()
