//! Push/pull streams. The expected bytes are those of docs/messages.md.

mod common;

use common::opened;
use swimtab::{alive_of, Details, Error, Form, Node, Progress, Relation, State, Taken, Whole};

const MEMBERLIST: Form<'static> = Form::Memberlist { user: b"" };

#[test]
fn an_exchange_levels_two_members() {
    let (mut a, mut b) = (opened("a", 1), opened("b", 2));
    assert_eq!(a.relation(&b), Relation::Apart);
    let offer = a.offer(true, Form::Canonical).unwrap();
    assert_eq!(b.answer(&offer[..offer.len() - 1], Form::Canonical), Err(Error::Ended));
    assert_eq!(b.len(), 1);
    let answer = b.answer(&offer, Form::Canonical).unwrap();
    assert_eq!(answer.taken, Taken { join: true, news: true, used: offer.len() });
    assert_eq!((a.relation(&b), b.relation(&a)), (Relation::Behind, Relation::Ahead));
    let used = answer.reply.len();
    assert_eq!(a.finish(&answer.reply), Ok(Taken { join: true, news: true, used }));
    assert_eq!(a.finish(&answer.reply), Ok(Taken { join: true, news: false, used }));
    assert_eq!((a.relation(&b), a.relation(&a)), (Relation::Equal, Relation::Equal));
}

/// The header of a stream with this many records.
fn header(join: u8, records: u8, user: u8) -> Vec<u8> {
    [&b"\x06\x83\xa4Join"[..], &[join], b"\xa5Nodes", &[records], b"\xacUserStateLen", &[user]].concat()
}

/// A record with the address 127.0.0.last.
fn record(name: &[u8; 1], inc: u8, state: u8, last: u8) -> Vec<u8> {
    [
        &b"\x87\xa4Addr\xa4\x7f\0\0"[..],
        &[last],
        b"\xabIncarnation",
        &[inc],
        b"\xa4Meta\xa1m\xa4Name\xa1",
        name,
        b"\xa4Port\xcd\x1f\x0a\xa5State",
        &[state],
        b"\xa3Vsn\xa6\x01\x05\x02\0\0\0",
    ]
    .concat()
}

/// A record without an address, metadata, a port and versions.
fn bare(name: &[u8; 1], inc: u8, state: u8) -> Vec<u8> {
    [
        &b"\x87\xa4Addr\xa0\xabIncarnation"[..],
        &[inc],
        b"\xa4Meta\xa0\xa4Name\xa1",
        name,
        b"\xa4Port\0\xa5State",
        &[state],
        b"\xa3Vsn\xa0",
    ]
    .concat()
}

#[test]
fn streams_have_two_forms() {
    let mut a = opened("a", 1);
    a.take(&opened("b", 2).alive(3).unwrap()).unwrap();
    a.take(&a.suspect(b"b", 3).unwrap()).unwrap();
    a.take(&a.suspect(b"z", 4).unwrap()).unwrap();
    let all = [record(b"a", 0, 0, 1), record(b"b", 3, 0, 2), bare(b"b", 3, 1), bare(b"z", 4, 1)].concat();
    let merged = [record(b"a", 0, 0, 1), record(b"b", 3, 1, 2)].concat();
    assert_eq!(a.offer(true, Form::Canonical).unwrap(), [header(0xc3, 4, 0), all.clone()].concat());
    assert_eq!(a.dump().unwrap(), [header(0xc2, 4, 0), all].concat());
    assert_eq!(a.offer(true, MEMBERLIST).unwrap(), [header(0xc3, 2, 0), merged.clone()].concat());
    assert_eq!(a.left_out(), 1);
    let none = header(0xc2, 0, 0);
    let answer = a.answer(&[&none[..], b"behind"].concat(), MEMBERLIST).unwrap();
    assert_eq!(answer.taken, Taken { join: false, news: false, used: none.len() });
    assert_eq!(answer.reply, [header(0xc2, 2, 0), merged].concat());
}

#[test]
fn a_stream_for_memberlist_has_user_state() {
    let (mut a, mut b) = (opened("a", 1), opened("b", 2));
    let form = Form::Memberlist { user: b"mine" };
    let stream = [&header(0xc3, 1, 4)[..], &record(b"a", 0, 0, 1), b"mine"].concat();
    assert_eq!(a.offer(true, form).unwrap(), stream);
    let whole = Progress::new().whole(&stream).unwrap().unwrap();
    assert_eq!((whole.used, whole.user), (stream.len(), &b"mine"[..]));
    let answer = b.answer(&stream, Form::Memberlist { user: b"theirs" }).unwrap();
    assert_eq!(answer.taken, Taken { join: true, news: true, used: stream.len() });
    assert_eq!(answer.reply, [&header(0xc3, 1, 6)[..], &record(b"b", 0, 0, 2), b"theirs"].concat());
    let used = answer.reply.len();
    assert_eq!(a.finish(&answer.reply), Ok(Taken { join: true, news: true, used }));
    assert_eq!(a.relation(&b), Relation::Equal);
    let long = vec![b'u'; 20_971_521];
    assert_eq!(a.offer(true, Form::Memberlist { user: &long }), Err(Error::UserTooLong));
    assert_eq!(a.answer(&stream, Form::Memberlist { user: &long }), Err(Error::UserTooLong));
    let most = a.offer(true, Form::Memberlist { user: &long[1..] }).unwrap();
    assert_eq!(Progress::new().whole(&most).unwrap().map(|whole| whole.user.len()), Some(20_971_520));
}

/// memberlist refuses a stream with such a member.
#[test]
fn members_without_versions_are_left_out() {
    let mut a = opened("a", 1);
    assert_eq!(a.left_out(), 0);
    let old = Details { versions: None, ..Details::new(([127, 0, 0, 2], 7946)) };
    a.take(&alive_of(b"b", &old).unwrap()).unwrap();
    assert_eq!((a.left_out(), a.len()), (1, 2));
    let stream = [header(0xc2, 1, 0), record(b"a", 0, 0, 1)].concat();
    assert_eq!(a.offer(false, MEMBERLIST).unwrap(), stream);
}

#[test]
fn a_member_that_came_back_is_alive_to_memberlist() {
    let (mut a, b) = (opened("a", 1), opened("b", 2));
    a.take(&b.leave(4).unwrap()).unwrap();
    a.take(&b.alive(5).unwrap()).unwrap();
    assert_eq!(a.find(b"b").map(|b| (b.state, b.came_back)), Some((State::Leave, true)));
    let stream = [header(0xc2, 2, 0), record(b"a", 0, 0, 1), record(b"b", 5, 0, 2)].concat();
    assert_eq!(a.offer(false, MEMBERLIST).unwrap(), stream);
}

#[test]
fn a_stream_comes_in_pieces() {
    let records = [record(b"a", 0, 0, 1), bare(b"b", 3, 1)].concat();
    for user in [&b""[..], b"us"] {
        let stream = [&header(0xc2, 2, user.len() as u8), &records[..], user].concat();
        let mut progress = Progress::new();
        for end in 0..stream.len() {
            assert_eq!(progress.whole(&stream[..end]), Ok(None), "{end}");
        }
        let more = [&stream[..], b"behind"].concat();
        assert_eq!(progress.whole(&more), Ok(Some(Whole { used: stream.len(), user })));
        // other bytes than before are safe, but the result means nothing
        let _ = progress.whole(&stream[..3]);
    }
    assert_eq!(Progress::new().whole(&[3]), Err(Error::WrongType));
    assert_eq!(Progress::new().whole(&[6, 0xc0]), Err(Error::NotMap));
}

#[test]
fn a_listing_may_be_long() {
    let mut a: Node = opened("a", 1);
    for i in b'b'..=b'z' {
        a.take(&a.suspect(&[i; 1000], 1).unwrap()).unwrap();
    }
    let text = a.list().unwrap();
    assert_eq!(text.lines().count(), 26);
    assert!(text.lines().skip(1).all(|line| line.len() == 1000 + " suspect 1 -".len()));
}
