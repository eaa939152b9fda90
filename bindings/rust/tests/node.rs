//! The wrapper around the library. The library's own tests are in tests/c.

mod common;

use common::{details, opened};
use std::net::{Ipv4Addr, Ipv6Addr};
use swimtab::{alive_of, compound, dead_of, suspect_of, version, Details, Error, Member, Node, State};

#[test]
fn the_version_is_that_of_the_crate() {
    assert_eq!(version(), env!("CARGO_PKG_VERSION"));
}

#[test]
fn openings_are_refused() {
    assert_eq!(Node::open(b"", &details(1)).unwrap_err(), Error::NameEmpty);
    assert_eq!(Node::open(&[b'n'; 1025], &details(1)).unwrap_err(), Error::NameTooLong);
    let long = Details { meta: vec![0; 513], ..details(1) };
    assert_eq!(Node::open(b"a", &long).unwrap_err(), Error::MetaTooLong);
}

#[test]
fn errors_have_numbers_and_texts() {
    assert_eq!(Error::Gone.number(), 25);
    assert_eq!(Error::OwnName.number(), 68);
    assert_eq!(Error::CipherTrailing.number(), 57);
    let new = [Error::BadForm, Error::NoItem, Error::KeyInUse, Error::NotBack, Error::BadSize];
    assert_eq!(new.map(Error::number), [70, 71, 72, 73, 74]);
    assert_eq!((Error::NodeThere.number(), Error::TooSmall.number(), Error::NoRandom.number()), (65, 66, 0));
    assert_eq!(Error::Trailing.to_string(), "bytes follow the end");
    let error: Box<dyn std::error::Error + Send + Sync> = Error::WrongType.into();
    assert_eq!(error.to_string(), "the message is of another type");
}

#[test]
fn packets_are_taken_in_or_refused() {
    let (mut a, b) = (opened("a", 1), opened("b", 2));
    let alive = b.alive(3).unwrap();
    assert_eq!((a.take(&alive), a.take(&alive)), (Ok(true), Ok(false)));
    assert_eq!(
        a.list().unwrap(),
        "a alive 0 0/7f000001/7946/6d/010502000000\nb alive 3 3/7f000002/7946/6d/010502000000\n"
    );
    assert_eq!(a.take(b""), Err(Error::Ended));
    assert_eq!(a.take(&[9]), Err(Error::WrongType));
    assert_eq!(a.suspect(b"", 1), Err(Error::NameEmpty));
    assert_eq!(a.confirm(b"a", 1), Err(Error::OwnName));
    assert_eq!(a.len(), 2);
}

#[test]
fn a_suspicion_is_refuted() {
    let (mut a, mut b) = (opened("a", 1), opened("b", 2));
    assert_eq!(a.refute(), Ok(None));
    assert_eq!(a.take(&b.suspect(b"a", 6).unwrap()), Ok(true));
    assert_eq!(a.refute(), Ok(Some(7)));
    b.take(&a.alive(7).unwrap()).unwrap();
    assert_eq!(b.find(b"a").map(|a| (a.state, a.incarnation)), Some((State::Alive, 7)));
    a.take(&b.confirm(b"a", 7).unwrap()).unwrap();
    assert_eq!(a.refute(), Err(Error::Gone));
}

#[test]
fn members_come_in_the_order_of_their_names() {
    let mut a = opened("m", 1);
    let packets =
        [a.suspect(b"z", 4).unwrap(), opened("c", 9).alive(2).unwrap(), opened("d", 8).leave(5).unwrap()];
    a.take(&compound(&packets).unwrap()).unwrap();
    assert_eq!((a.iter().len(), a.iter().count()), (4, 4));
    let mut members = a.iter();
    members.next();
    assert_eq!(members.len(), 3);
    let all: Vec<Member> = a.iter().collect();
    assert!(all.iter().cloned().eq(&a));
    let names: Vec<&[u8]> = all.iter().map(|member| &member.name[..]).collect();
    assert_eq!(names, [b"c", b"d", b"m", b"z"]);
    assert_eq!((all[1].state, all[1].incarnation, &all[1].details), (State::Leave, 5, &None));
    assert_eq!(all[0].details, Some(Details { incarnation: 2, ..details(9) }));
    assert_eq!(all[3], a.find(b"z").unwrap());
    assert_eq!((a.find(b"none"), a.at(4)), (None, None));
}

#[test]
fn changes_are_noted() {
    let mut a = opened("a", 1);
    let names = |node: &mut Node| -> Vec<Vec<u8>> { node.changes().map(|member| member.name).collect() };
    let old = a.suspect(b"z", 4).unwrap();
    a.take(&old).unwrap();
    a.watch(true);
    assert_eq!(a.next_change(), None);
    for packet in [
        a.suspect(b"z", 5).unwrap(),
        opened("c", 3).alive(1).unwrap(),
        a.suspect(b"z", 6).unwrap(),
        old.clone(),
    ] {
        a.take(&packet).unwrap();
    }
    assert_eq!(names(&mut a), [b"c", b"z"]);
    assert_eq!((a.take(&old), a.take(&[3])), (Ok(false), Err(Error::Ended)));
    assert_eq!(a.next_change(), None);
    a.finish(&opened("d", 4).dump().unwrap()).unwrap();
    a.take(&a.suspect(b"a", 0).unwrap()).unwrap();
    let first = a.next_change().unwrap();
    assert_eq!((&first.name[..], first.state), (&b"a"[..], State::Suspect));
    assert_eq!(a.refute(), Ok(Some(1)));
    assert_eq!(names(&mut a), [b"a", b"d"]);
    a.take(&a.suspect(b"z", 7).unwrap()).unwrap();
    a.watch(false);
    assert_eq!(a.next_change(), None);
}

#[test]
fn a_name_is_forgotten() {
    let (mut a, c) = (opened("a", 1), opened("c", 3));
    assert_eq!((a.forget(b"c"), a.forget(b"")), (Err(Error::NoMember), Err(Error::NoMember)));
    a.take(&c.leave(9).unwrap()).unwrap();
    assert_eq!((a.len(), a.forget(b"c"), a.len(), a.find(b"c")), (2, Ok(()), 1, None));
    assert_eq!(a.take(&c.alive(1).unwrap()), Ok(true));
    assert_eq!(a.find(b"c").map(|c| c.state), Some(State::Alive));
    assert_eq!((a.forget(b"c"), a.is_empty(), a.forget(b"a"), a.is_empty()), (Ok(()), false, Ok(()), true));
    assert_eq!((a.list(), a.iter().len()), (Ok(String::new()), 0));
}

#[test]
fn a_member_comes_back() {
    let (mut a, c) = (opened("a", 1), opened("c", 3));
    a.take(&c.alive(4).unwrap()).unwrap();
    a.take(&a.confirm(b"c", 4).unwrap()).unwrap();
    assert_eq!(a.find(b"c").map(|c| (c.state, c.came_back)), Some((State::Confirm, false)));
    assert_eq!(a.take(&c.alive(5).unwrap()), Ok(true));
    let known = a.find(b"c").unwrap();
    assert_eq!((known.state, known.incarnation, known.came_back), (State::Confirm, 4, true));
    assert_eq!(known.details.map(|details| details.incarnation), Some(5));
}

#[test]
fn a_member_that_came_back_is_readmitted() {
    let (mut a, c) = (opened("a", 1), opened("c", 3));
    assert_eq!((a.readmit(b"c"), a.readmit(b"")), (Err(Error::NoMember), Err(Error::NoMember)));
    a.take(&c.alive(4).unwrap()).unwrap();
    a.take(&a.confirm(b"c", 4).unwrap()).unwrap();
    assert_eq!(a.readmit(b"c"), Err(Error::NotBack));
    a.take(&c.alive(5).unwrap()).unwrap();
    assert_eq!(a.readmit(b"c"), Ok(()));
    let known = a.find(b"c").unwrap();
    assert_eq!((known.state, known.incarnation, known.came_back), (State::Alive, 5, false));
    assert_eq!((a.readmit(b"c"), a.readmit(b"a")), (Err(Error::NotBack), Err(Error::NotBack)));
}

#[test]
fn a_member_gets_other_details() {
    let mut a = opened("a", 1);
    assert_eq!(a.update(&details(1)), Ok(None));
    // the incarnation is not used
    assert_eq!(a.update(&Details { incarnation: 9, ..details(1) }), Ok(None));
    let moved = Details { meta: b"new".to_vec(), ..details(7) };
    assert_eq!((a.update(&moved), a.update(&moved)), (Ok(Some(1)), Ok(None)));
    let known = a.find(b"a").unwrap();
    assert_eq!((known.state, known.incarnation), (State::Alive, 1));
    assert_eq!(known.details, Some(Details { incarnation: 1, ..moved.clone() }));
    // the others hear of it
    let mut b = opened("b", 2);
    assert_eq!(b.take(&a.alive(1).unwrap()), Ok(true));
    assert_eq!(b.find(b"a").map(|a| a.details), Some(known.details));
    let long = Details { meta: vec![0; 513], ..details(1) };
    assert_eq!(a.update(&long), Err(Error::MetaTooLong));
    // a suspicion at the same time is refuted too
    a.take(&b.suspect(b"a", 6).unwrap()).unwrap();
    assert_eq!((a.update(&details(8)), a.refute()), (Ok(Some(7)), Ok(None)));
    a.take(&b.suspect(b"a", u32::MAX).unwrap()).unwrap();
    assert_eq!(a.update(&details(9)), Err(Error::Exhausted));
    a.take(&b.confirm(b"a", u32::MAX).unwrap()).unwrap();
    assert_eq!(a.update(&details(9)), Err(Error::Gone));
}

#[test]
fn a_walk_goes_on_where_it_was() {
    let mut a = opened("m", 1);
    for name in [b"c", b"x"] {
        a.take(&suspect_of(b"m", name, 1).unwrap()).unwrap();
    }
    let name = |member: Option<Member>| member.map(|member| member.name);
    assert_eq!(name(a.after(b"")), Some(b"c".to_vec()));
    assert_eq!(name(a.after(b"c")), Some(b"m".to_vec()));
    a.forget(b"m").unwrap();
    a.take(&suspect_of(b"", b"mm", 1).unwrap()).unwrap();
    assert_eq!(name(a.after(b"m")), Some(b"mm".to_vec()));
    assert_eq!(name(a.after(b"mm")), Some(b"x".to_vec()));
    assert_eq!((a.after(b"x"), a.after(&[0xff; 2000])), (None, None));
}

#[test]
fn another_members_alive_is_written() {
    let address = (Ipv4Addr::LOCALHOST, 7947);
    let details = Details { incarnation: 4, versions: None, ..Details::new(address) };
    let wanted = b"\x04\x86\xa4Addr\xa4\x7f\0\0\x01\xabIncarnation\x04\xa4Meta\xa0\xa4Node\xa1a\
        \xa4Port\xcd\x1f\x0b\xa3Vsn\xa0";
    assert_eq!(alive_of(b"a", &details).unwrap(), wanted);
    assert_eq!(alive_of(b"", &details), Err(Error::NameEmpty));
    let long = Details { meta: vec![0; 513], ..details };
    assert_eq!(alive_of(b"a", &long), Err(Error::MetaTooLong));
}

#[test]
fn what_is_known_of_a_member_is_passed_on() {
    let (mut a, mut b) = (opened("a", 1), opened("b", 2));
    a.take(&opened("c", 3).alive(5).unwrap()).unwrap();
    let c = a.find(b"c").unwrap();
    b.take(&alive_of(&c.name, c.details.as_ref().unwrap()).unwrap()).unwrap();
    assert_eq!(b.find(b"c"), Some(c));
}

#[test]
fn claims_of_others_are_written() {
    let (a, b) = (opened("a", 1), opened("b", 2));
    let wanted = b"\x83\xa4From\xa1a\xabIncarnation\x06\xa4Node\xa1b";
    assert_eq!(suspect_of(b"a", b"b", 6).unwrap(), [&[3][..], wanted].concat());
    assert_eq!(dead_of(b"a", b"b", 6).unwrap(), [&[5][..], wanted].concat());
    assert_eq!(suspect_of(b"a", b"b", 6), a.suspect(b"b", 6));
    assert_eq!(dead_of(b"a", b"b", 6), a.confirm(b"b", 6));
    assert_eq!(dead_of(b"b", b"b", 6), b.leave(6));
    let nobody = b"\x03\x83\xa4From\xa0\xabIncarnation\0\xa4Node\xa1b";
    assert_eq!(suspect_of(b"", b"b", 0).unwrap(), nobody);
    let long = [b'n'; 1025];
    for write in [suspect_of, dead_of] {
        assert_eq!(write(b"a", b"", 1), Err(Error::NameEmpty));
        assert_eq!(
            (write(b"a", &long, 1), write(&long, b"a", 1)),
            (Err(Error::NameTooLong), Err(Error::NameTooLong))
        );
        assert_eq!(write(&long[1..], &long[1..], u32::MAX).map(|packet| packet.len() > 2048), Ok(true));
    }
}

#[test]
fn addresses_of_both_kinds_come_back() {
    let six = Details { versions: None, ..Details::new((Ipv6Addr::LOCALHOST, 1)) };
    let node = Node::open(b"six", &six).unwrap();
    assert_eq!(node.find(b"six").and_then(|member| member.details), Some(six));
}

#[test]
fn a_compound_packet_has_255_packets_at_most() {
    let packet = opened("a", 1).alive(1).unwrap();
    assert_eq!(compound(&vec![&packet; 256]), Err(Error::TooManyPackets));
    assert_eq!(compound(&vec![&packet; 255]).unwrap().len(), 2 + 255 * (packet.len() + 2));
    assert_eq!(compound::<&[u8]>(&[]).unwrap(), [7, 0]);
    assert_eq!(compound(&[&[9]]), Err(Error::WrongType));
}

#[test]
fn a_node_goes_to_another_thread() {
    let mut node = opened("a", 1);
    let node = std::thread::spawn(move || {
        let word = node.suspect(b"b", 1).unwrap();
        node.take(&word).unwrap();
        node
    });
    assert_eq!(node.join().unwrap().len(), 2);
}
