//! Keys, and packets and streams as a real cluster sends them. The sealed bytes are those of
//! tests/c/sealing.c, which says where they come from.

mod common;

use common::opened;
use common::sealed::*;
use swimtab::{ack, ping, user, Error, Form, Keyring, Kind, Message, Probe};

fn message(kind: Kind, hex: &str) -> swimtab::Result<Message> {
    Ok(Message { kind, bytes: unhex(hex) })
}

#[test]
fn keys_have_16_or_24_or_32_bytes() {
    let mut keyring = Keyring::default();
    for len in [0, 15, 17, 31, 33] {
        assert_eq!(keyring.add(&vec![0; len]), Err(Error::BadKey));
        assert_eq!(keyring.rotate(&vec![0; len]), Err(Error::BadKey));
    }
    assert!(keyring.is_empty());
    for len in [16, 24, 32] {
        assert_eq!(keyring.add(&vec![0x5a; len]), Ok(()));
    }
    assert_eq!(keyring.keys(), [vec![0x5a; 16], vec![0x5a; 24], vec![0x5a; 32]]);
    assert_eq!(format!("{keyring:?}"), "Keyring { keys: 3, .. }");
}

#[test]
fn keys_are_used_and_removed() {
    let (a, b, c) = ([1; 16], [2; 24], [3; 32]);
    let mut keys = Keyring::new();
    assert_eq!((keys.use_key(&a), keys.remove(&a)), (Err(Error::NoItem), Err(Error::NoItem)));
    for key in [&a[..], &b, &c] {
        keys.add(key).unwrap();
    }
    assert_eq!(keys.use_key(&c), Ok(()));
    assert_eq!(keys.keys(), [&c[..], &b, &a]);
    assert_eq!(keys.use_key(&c), Ok(()));
    assert_eq!((keys.use_key(&[1; 32]), keys.use_key(b"")), (Err(Error::NoItem), Err(Error::NoItem)));
    assert_eq!((keys.remove(&c), keys.remove(&[9; 16])), (Err(Error::KeyInUse), Err(Error::NoItem)));
    assert_eq!(keys.keys(), [&c[..], &b, &a]);
    assert_eq!((keys.remove(&b), keys.remove(&b)), (Ok(()), Err(Error::NoItem)));
    assert_eq!((keys.keys(), keys.len()), (vec![c.to_vec(), a.to_vec()], 2));
}

#[test]
fn a_key_that_was_added_twice_is_removed_twice() {
    let (a, b) = ([1; 16], [2; 16]);
    let mut keys = Keyring::new();
    for key in [a, b, b, a] {
        keys.add(&key).unwrap();
    }
    let all = keys.len();
    assert_eq!((keys.remove(&a), keys.len()), (Err(Error::KeyInUse), all));
    assert_eq!(keys.remove(&b), Ok(()));
    assert!(keys.keys().iter().all(|key| key[..] == a));
}

#[test]
fn a_cluster_changes_its_key() {
    let (old, new) = ([1; 16], [2; 32]);
    let (mut first, mut second) = (keyring(&[]), keyring(&[]));
    for keys in [&mut first, &mut second] {
        keys.add(&old).unwrap();
        keys.add(&new).unwrap();
    }
    assert_eq!(first.rotate(&new), Ok(()));
    assert_eq!(first.keys(), [&new[..], &old]);
    let packet = first.seal(b"", &user(b"x").unwrap()).unwrap();
    assert_eq!(second.unwrap(&packet).unwrap().bytes, b"\x08x");
    let packet = second.seal(b"", &user(b"y").unwrap()).unwrap();
    assert_eq!(first.unwrap(&packet).unwrap().bytes, b"\x08y");
    assert_eq!(first.remove(&old), Ok(()));
    assert_eq!(first.unwrap(&packet), Err(Error::WrongTag));
    let mut third = Keyring::new();
    assert_eq!((third.rotate(&old), third.rotate(&new)), (Ok(()), Ok(())));
    assert_eq!(third.keys(), [&new[..], &old]);
}

#[test]
fn packets_are_unwrapped() {
    let all = keyring(&[KEY_16, NEW_KEY, KEY_32]);
    assert_eq!(all.unwrap(&unhex(SUSPECT_SENT)), message(Kind::Suspect, SUSPECT));
    assert_eq!(all.unwrap(&unhex(SEALED_ALIVE)), message(Kind::Alive, CLEAR_ALIVE));
    let none = Keyring::new();
    assert_eq!(none.unwrap(&unhex(PACKED_ALIVE)), message(Kind::Alive, CLEAR_ALIVE));
    assert_eq!(none.unwrap(b""), Err(Error::Ended));
    assert_eq!(none.unwrap(&[200]), Err(Error::WrongType));
    assert_eq!(none.unwrap(&[9]), Err(Error::WrapperEnded));
    assert_eq!(none.unwrap(&[12, 0, 0, 0, 1]), Err(Error::BadChecksum));
    assert_eq!(keyring(&[KEY_16]).unwrap(&unhex(SUSPECT_SENT)), Err(Error::WrongTag));
}

#[test]
fn each_kind_of_message_is_unwrapped() {
    let none = Keyring::new();
    let kinds = [
        (0, Kind::Ping),
        (1, Kind::IndirectPing),
        (2, Kind::Ack),
        (3, Kind::Suspect),
        (4, Kind::Alive),
        (5, Kind::Dead),
        (6, Kind::PushPull),
        (7, Kind::Compound),
        (8, Kind::User),
        (11, Kind::Nack),
        (13, Kind::Error),
    ];
    for (first, kind) in kinds {
        assert_eq!(none.unwrap(&[first, 0x80]).map(|message| message.kind), Ok(kind));
        assert_eq!(Kind::of(first), kind);
    }
    assert_eq!(Kind::of(200), Kind::Other(200));
}

/// Without a key it looks like a ping, which is refused when it is read.
#[test]
fn an_encrypted_packet_is_no_ping() {
    for sent in [SEALED_ALIVE, SUSPECT_SENT] {
        let read = Keyring::new().unwrap(&unhex(sent)).and_then(|message| Probe::read(&message));
        assert!(read.is_err(), "{read:?}");
    }
}

#[test]
fn a_message_is_used_as_its_bytes() {
    let (mut node, alive) = (opened("m", 1), unhex(CLEAR_ALIVE));
    let message = Keyring::new().unwrap(&alive).unwrap();
    assert_eq!((node.take(&message), message.len(), message.as_ref()), (Ok(true), alive.len(), &alive[..]));
}

#[test]
fn streams_are_unwrapped() {
    let all = keyring(&[KEY_16, KEY_32]);
    let clear = message(Kind::PushPull, CLEAR_STREAM);
    assert_eq!(all.unwrap_stream(b"", &unhex(SEALED_STREAM)), clear);
    assert_eq!(all.unwrap_stream(b"dc", &unhex(SEALED_REPLY)), clear);
    assert_eq!(Keyring::new().unwrap_stream(b"dc", &unhex(CLEAR_STREAM)), clear);
    assert_eq!(keyring(&[KEY_32]).unwrap_stream(b"", &unhex(SEALED_REPLY)), Err(Error::WrongTag));
    assert_eq!(all.unwrap_stream(&[b'x'; 256], &unhex(SEALED_REPLY)), Err(Error::CipherTooLong));
    assert_eq!(Keyring::new().unwrap_stream(b"", b""), Err(Error::Ended));
    assert_eq!(Keyring::new().unwrap_stream(b"", &unhex(SEALED_REPLY)), Err(Error::WrongType));
}

#[test]
fn pings_over_a_stream_are_unwrapped() {
    let all = keyring(&[KEY_16]);
    for (sent, kind) in [(ping(1, b"b", None), Kind::Ping), (ack(1, b""), Kind::Ack)] {
        let sent = sent.unwrap();
        let stream = all.seal_stream(b"dc", true, &sent).unwrap();
        assert_eq!(all.unwrap_stream(b"dc", &stream), Ok(Message { kind, bytes: sent }));
    }
}

#[test]
fn what_is_in_the_clear_is_read_if_that_is_accepted() {
    let (mut keys, packet, stream) = (keyring(&[KEY_16]), unhex(CLEAR_ALIVE), unhex(CLEAR_STREAM));
    assert_eq!(keys.unwrap(&packet), Err(Error::Unencrypted));
    assert_eq!(keys.unwrap_stream(b"", &stream), Err(Error::Unencrypted));
    assert_eq!(keys.accept_clear(), Ok(()));
    assert_eq!(keys.unwrap(&packet), message(Kind::Alive, CLEAR_ALIVE));
    assert_eq!(keys.unwrap_stream(b"", &stream), message(Kind::PushPull, CLEAR_STREAM));
    assert_eq!(Keyring::new().accept_clear(), Err(Error::NoNode));
}

#[test]
fn streams_are_unwrapped_when_all_has_come() {
    let all = keyring(&[KEY_16, KEY_32]);
    for sent in [unhex(SEALED_STREAM), unhex(SEALED_REPLY)] {
        for end in 0..sent.len() {
            assert_eq!(all.unwrap_stream(b"dc", &sent[..end]), Err(Error::Ended), "{end}");
        }
    }
}

#[test]
fn what_was_sealed_is_unwrapped() {
    let (keys, stream) = (keyring(&[KEY_32]), opened("a", 1).offer(true, Form::Canonical).unwrap());
    for label in [&b""[..], b"dc"] {
        let packet = keys.seal(label, &unhex(CLEAR_ALIVE)).unwrap();
        assert_eq!(keys.unwrap(&packet), message(Kind::Alive, CLEAR_ALIVE));
        for reply in [false, true] {
            let sent = keys.seal_stream(label, reply, &stream).unwrap();
            assert_eq!(keys.unwrap_stream(label, &sent).unwrap().bytes, stream);
        }
    }
    assert_eq!(keys.seal(&[b'x'; 256], b""), Err(Error::CipherTooLong));
    assert_eq!(keys.seal_stream(&[b'x'; 256], true, b""), Err(Error::CipherTooLong));
}

#[test]
fn each_seal_draws_a_nonce() {
    // behind the version, which is the first byte of a packet without a label
    let keys = keyring(&[KEY_16]);
    let mut nonces: Vec<Vec<u8>> =
        (0..1000).map(|_| keys.seal(b"", b"\x08").unwrap()[1..13].to_vec()).collect();
    nonces.sort();
    nonces.dedup();
    assert_eq!(nonces.len(), 1000);
    assert!((0..12).all(|i| nonces.iter().any(|nonce| nonce[i] != nonces[0][i])));
    let stream = keys.seal_stream(b"", false, b"\x08").unwrap();
    assert_ne!(stream, keys.seal_stream(b"", false, b"\x08").unwrap());
    assert_eq!(Keyring::new().seal(b"", b"\x08").unwrap(), b"\x08");
}
