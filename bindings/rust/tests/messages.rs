//! Parts, pings and their answers. The bytes are those of memberlist's messages.

mod common;

use common::{opened, unhex};
use std::net::{Ipv6Addr, SocketAddr};
use swimtab::{ack, compound, indirect_ping, nack, parts, ping, user, Error, Kind, Part, Peer, Probe};

/// What a member of memberlist sent.
const PING: &str = "00 85 a4 4e6f6465 a2 6433 a5 5365714e6f 01 aa 536f7572636541646472 a4 7f000502 \
    aa 536f757263654e6f6465 a2 6432 aa 536f75726365506f7274 cd 1f0a";

fn d2() -> Peer {
    Peer::new("d2", ([127, 0, 5, 2], 7946))
}

#[test]
fn a_ping_is_written_and_read() {
    let source = d2();
    assert_eq!(ping(1, b"d3", Some(&source)).unwrap(), unhex(PING));
    let read = Probe::Ping { seq: 1, name: b"d3".to_vec(), source: Some(source) };
    assert_eq!(Probe::read(&unhex(PING)), Ok(read));
    // without a source
    let short = b"\x00\x82\xa4Node\xa2d3\xa5SeqNo\x01";
    let read = Probe::Ping { seq: 1, name: b"d3".to_vec(), source: None };
    assert_eq!(Probe::read(short), Ok(read.clone()));
    assert_eq!(Probe::read(&ping(1, b"d3", None).unwrap()), Ok(read));
    assert_eq!(ping(1, &[b'n'; 1025], None), Err(Error::NameTooLong));
    let long = Peer { name: vec![b'n'; 1025], address: None };
    assert_eq!(ping(1, b"", Some(&long)), Err(Error::NameTooLong));
}

#[test]
fn probes_come_back() {
    let named = Peer { name: b"x".to_vec(), address: None };
    let six = Peer::new(vec![0xff; 1024], (Ipv6Addr::LOCALHOST, 65535));
    let placed = Peer::new("", ([1, 2, 3, 4], 5));
    for seq in [0, 127, 128, 70_000, u32::MAX] {
        for source in [None, Some(&named), Some(&six), Some(&placed)] {
            let read = Probe::read(&ping(seq, &six.name, source).unwrap());
            assert_eq!(read, Ok(Probe::Ping { seq, name: six.name.clone(), source: source.cloned() }));
            for target in [&named, &six, &placed] {
                for nack in [false, true] {
                    let read = Probe::read(&indirect_ping(seq, target, nack, source).unwrap());
                    let (target, source) = (target.clone(), source.cloned());
                    assert_eq!(read, Ok(Probe::IndirectPing { seq, target, nack, source }));
                }
            }
        }
        assert_eq!(Probe::read(&nack(seq).unwrap()), Ok(Probe::Nack { seq }));
    }
}

#[test]
fn an_indirect_ping_has_a_target() {
    let target = Peer::new("d3", ([127, 0, 5, 3], 7947));
    let wanted = unhex(
        "01 88 a4 4e61636b c3 a4 4e6f6465 a2 6433 a4 506f7274 cd 1f0b a5 5365714e6f 09 \
         aa 536f7572636541646472 a4 7f000502 aa 536f757263654e6f6465 a2 6432 \
         aa 536f75726365506f7274 cd 1f0a a6 546172676574 a4 7f000503",
    );
    assert_eq!(indirect_ping(9, &target, true, Some(&d2())).unwrap(), wanted);
    let read = Probe::IndirectPing { seq: 9, target, nack: true, source: Some(d2()) };
    assert_eq!(Probe::read(&wanted), Ok(read));
}

#[test]
fn acks_have_payloads() {
    assert_eq!(ack(5, b"pay").unwrap(), b"\x02\x82\xa7Payload\xa3pay\xa5SeqNo\x05");
    let read = |payload: &[u8]| Probe::read(&ack(5, payload).unwrap()).unwrap();
    for len in [0, 1, 1024] {
        let payload = vec![b'p'; len];
        assert_eq!(read(&payload), Probe::Ack { seq: 5, payload, payload_len: len });
    }
    for len in [1025, 65_535] {
        let cut = Probe::Ack { seq: 5, payload: vec![b'p'; 1024], payload_len: len };
        assert_eq!(read(&vec![b'p'; len]), cut);
    }
    assert_eq!(ack(5, &[0; 65_536]), Err(Error::TooLong));
    assert_eq!(nack(6).unwrap(), b"\x0b\x81\xa5SeqNo\x06");
}

#[test]
fn what_is_no_probe_is_refused() {
    let alive = opened("a", 1).alive(1).unwrap();
    assert_eq!(Probe::read(&alive), Err(Error::WrongType));
    assert_eq!(Probe::read(b"\x08x"), Err(Error::WrongType));
    assert!(Probe::read(b"").is_err());
    let ping = unhex(PING);
    for end in 1..ping.len() {
        assert_eq!(Probe::read(&ping[..end]), Err(Error::Ended), "{end}");
    }
    assert_eq!(Probe::read(b"\x00\x81\xaaSourceAddr\xa3abc"), Err(Error::BadAddress));
    // keys that a handler does not know are passed over
    let more = b"\x0b\x82\xa5SeqNo\x06\xa1x\x92\x01\x02";
    assert_eq!(Probe::read(more), Ok(Probe::Nack { seq: 6 }));
}

#[test]
fn user_messages_are_the_programs() {
    for bytes in [&b""[..], b"hello", &[0xff; 3000]] {
        assert_eq!(user(bytes).unwrap(), [&[8][..], bytes].concat());
    }
}

#[test]
fn a_compound_packet_has_parts() {
    let a = opened("a", 1);
    let (alive, suspect) = (a.alive(1).unwrap(), a.suspect(b"b", 2).unwrap());
    let packet = compound(&[&alive, &suspect]).unwrap();
    let all: Vec<Part> = parts(&packet).collect();
    let wanted =
        [Part { kind: Kind::Alive, bytes: &alive[..] }, Part { kind: Kind::Suspect, bytes: &suspect[..] }];
    assert_eq!(all, wanted);
    // any other message is its own part
    let all: Vec<Part> = parts(&alive).collect();
    assert_eq!(all, [wanted[0]]);
    // a bad part refuses only itself
    let mixed = [&[7, 3, 0, 1, 0, 0, 0, 2][..], b"\xc8\x08u"].concat();
    let kinds: Vec<(Kind, &[u8])> = parts(&mixed).map(|part| (part.kind, part.bytes)).collect();
    assert_eq!(kinds, [(Kind::Other(200), &b"\xc8"[..]), (Kind::Ping, b""), (Kind::User, b"\x08u")]);
    // none after the first that is cut off
    assert_eq!(parts(&mixed[..mixed.len() - 1]).count(), 2);
    let nothing: [&[u8]; 4] = [b"", b"\x07", b"\x07\x00", b"\x07\x01"];
    for bytes in nothing {
        assert_eq!(parts(bytes).count(), 0, "{bytes:?}");
    }
}

#[test]
fn each_part_is_taken_in_or_answered() {
    let (mut a, b) = (opened("a", 1), opened("b", 2));
    let bad = b"\x04\xc0";
    let (alive, sent) = (b.alive(1).unwrap(), ping(3, b"a", Some(&d2())).unwrap());
    let lens = [bad.len() as u8, alive.len() as u8, sent.len() as u8];
    let packet = [&[7, 3, 0, lens[0], 0, lens[1], 0, lens[2]][..], bad, &alive, &sent].concat();
    let mut answers = Vec::new();
    let mut news = Vec::new();
    for part in parts(&packet) {
        match part.kind {
            Kind::Ping => match Probe::read(&part).unwrap() {
                Probe::Ping { seq, source, .. } => answers.push((source, ack(seq, b"").unwrap())),
                other => panic!("{other:?}"),
            },
            _ => news.push(a.take(&part)),
        }
    }
    assert_eq!(news, [Err(Error::NotMap), Ok(true)]);
    assert_eq!(answers, [(Some(d2()), ack(3, b"").unwrap())]);
    assert_eq!(a.take(&packet), Err(Error::NotMap));
}

#[test]
fn a_member_is_pinged() {
    let mut a = opened("a", 1);
    a.take(&opened("b", 2).alive(1).unwrap()).unwrap();
    a.take(&a.suspect(b"c", 2).unwrap()).unwrap();
    let peers: Vec<Peer> = a.iter().map(|member| Peer::from(&member)).collect();
    assert_eq!(peers[1], Peer::new("b", ([127, 0, 0, 2], 7946)));
    assert_eq!(peers[2], Peer { name: b"c".to_vec(), address: None });
    let address: Option<SocketAddr> = peers[1].address;
    assert_eq!(address, "127.0.0.2:7946".parse().ok());
}
