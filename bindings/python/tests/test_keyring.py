import gc
import unittest
import weakref

import swimtab
from known import KEY16, LABELLED, LABELLED_SENT, LABELLED_STREAM_SENT, NEW_KEY, SUSPECT, opened
from known import SUSPECT_SENT
from swimtab import Keyring, Kind, Message, errors


class Keyrings(unittest.TestCase):
    def setUp(self):
        self.keys = Keyring(KEY16, NEW_KEY)
        self.addCleanup(self.keys.close)

    def test_keys_have_16_24_or_32_bytes(self):
        for length in (0, 15, 17, 31, 33):
            with self.assertRaises(errors.BadKey):
                Keyring(KEY16, bytes(length))
        with Keyring(bytes(16), bytes(24), bytearray(32)) as keys:
            self.assertEqual(keys.keys(), [bytes(16), bytes(24), bytes(32)])
        self.assertEqual((len(keys), keys.keys()), (0, []))
        keys.close()
        keys.add(KEY16)
        self.assertEqual(keys.keys(), [KEY16])

    def test_the_key_is_changed(self):
        self.keys.use(1)
        self.assertEqual(self.keys.keys(), [NEW_KEY, KEY16])
        with self.assertRaises(errors.KeyInUse):
            self.keys.remove(0)
        for call in (self.keys.use, self.keys.remove):
            with self.assertRaises(errors.NoItem):
                call(2)
            with self.assertRaises(OverflowError):
                call(-1)
        self.keys.remove(1)
        self.assertEqual(self.keys.keys(), [NEW_KEY])

    def test_a_key_is_rotated_to(self):
        self.keys.rotate(NEW_KEY)
        self.assertEqual(self.keys.keys(), [NEW_KEY, KEY16])
        self.keys.rotate(bytearray(24))
        self.assertEqual(self.keys.keys(), [bytes(24), KEY16, NEW_KEY])
        self.keys.rotate(bytes(24))
        self.assertEqual(len(self.keys), 3)
        with self.assertRaises(errors.BadKey):
            self.keys.rotate(b"short")
        with Keyring() as fresh:
            fresh.rotate(KEY16)
            self.assertEqual(fresh.keys(), [KEY16])

    def test_what_a_real_member_sent_is_unwrapped(self):
        self.assertEqual(self.keys.unwrap(SUSPECT_SENT), Message(Kind.SUSPECT, SUSPECT))
        self.assertEqual(self.keys.unwrap(bytearray(SUSPECT_SENT)).data, SUSPECT)
        with Keyring(KEY16) as other, self.assertRaises(errors.WrongTag):
            other.unwrap(SUSPECT_SENT)
        with self.assertRaises(errors.Ended):
            swimtab.unwrap(b"")

    def test_what_is_in_the_clear_is_read_if_that_is_accepted(self):
        with opened("a", 1) as node:
            stream = node.offer()
        with self.assertRaises(errors.Unencrypted):
            self.keys.unwrap(SUSPECT)
        with self.assertRaises(errors.Unencrypted):
            self.keys.unwrap_stream(stream)
        self.keys.accept_clear()
        self.assertEqual(self.keys.unwrap(SUSPECT).data, SUSPECT)
        self.assertEqual(self.keys.unwrap_stream(stream), Message(Kind.PUSH_PULL, stream))
        with self.assertRaises(errors.NoNode):
            Keyring().accept_clear()

    def test_without_a_key_it_is_read_too(self):
        with opened("a", 1) as node:
            stream = node.offer()
        self.assertEqual(swimtab.unwrap(SUSPECT), (Kind.SUSPECT, SUSPECT))
        self.assertEqual(swimtab.unwrap(SUSPECT_SENT), (Kind.INDIRECT, SUSPECT_SENT))
        self.assertEqual(swimtab.unwrap_stream(stream, "dc").data, stream)
        with Keyring() as none:
            self.assertEqual(none.unwrap(SUSPECT).data, SUSPECT)
            self.assertEqual(none.unwrap_stream(stream).data, stream)
            self.assertEqual(none.seal(SUSPECT), SUSPECT)
            self.assertEqual(none.seal(SUSPECT, "dc"), b"\xf4\2dc" + SUSPECT)
            self.assertEqual(none.seal_stream(stream, b"dc"), b"\xf4\2dc" + stream)
            self.assertEqual(none.seal_stream(stream, b"dc", reply=True), stream)
        with self.assertRaises(errors.WrongType):
            swimtab.unwrap(b"\xff")

    def test_messages_are_sealed_as_memberlist_does(self):
        sent = self.keys.seal(LABELLED, "east", nonce=LABELLED_SENT[7:19])
        self.assertEqual(sent, LABELLED_SENT)
        sent = self.keys.seal_stream(LABELLED, "east", nonce=LABELLED_STREAM_SENT[12:24])
        self.assertEqual(sent, LABELLED_STREAM_SENT)

    def test_a_nonce_is_drawn_each_time(self):
        first, second = self.keys.seal(SUSPECT, "dc"), self.keys.seal(SUSPECT, "dc")
        self.assertNotEqual(first, second)
        self.assertEqual(self.keys.unwrap(first), self.keys.unwrap(second))
        for length in (0, 11, 13):
            with self.assertRaises(ValueError):
                self.keys.seal(SUSPECT, nonce=bytes(length))
        with self.assertRaises(errors.CipherTooLong):
            self.keys.seal(SUSPECT, "x" * 256)

    def test_streams_are_unwrapped_when_all_has_come(self):
        with opened("a", 1) as node:
            stream = node.offer()
        for reply in (False, True):
            sent = self.keys.seal_stream(stream, "dc", reply=reply)
            self.assertEqual(sent.startswith(b"\xf4"), not reply)
            self.assertEqual(self.keys.unwrap_stream(sent, "dc").data, stream)
            for end in range(len(b"\xf4\2dc") + 1, len(sent)):
                with self.assertRaises(errors.Ended):
                    self.keys.unwrap_stream(sent[:end], "dc")
        with self.assertRaises(errors.WrongTag):
            self.keys.unwrap_stream(sent, "other")

    def test_a_keyring_that_nothing_refers_to_is_closed(self):
        keys = Keyring(KEY16)
        handle, gone = keys._handle, weakref.ref(keys)
        del keys
        gc.collect()
        self.assertIsNone(gone())
        self.assertFalse(handle.held)


if __name__ == "__main__":
    unittest.main()
