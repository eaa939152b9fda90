//! Views. The expected values are those of memberlist's `state.go`; the library's own tests are in tests/c.

mod common;

use common::{details, opened};
use std::time::Duration;
use swimtab::{
    ack, alive_of, compound, dead_of, suspect_of, Details, Error, Event, Form, Shown, State, View,
};

fn at(seconds: u64) -> Duration {
    Duration::from_secs(seconds)
}

fn new() -> View {
    View::open(at(30)).unwrap()
}

/// The Alive of a name at 127.0.0.last.
fn alive(name: &str, last: u8, incarnation: u32) -> Vec<u8> {
    alive_of(name.as_bytes(), &Details { incarnation, ..details(last) }).unwrap()
}

fn suspect(from: &str, name: &str, incarnation: u32) -> Vec<u8> {
    suspect_of(from.as_bytes(), name.as_bytes(), incarnation).unwrap()
}

fn dead(from: &str, name: &str, incarnation: u32) -> Vec<u8> {
    dead_of(from.as_bytes(), name.as_bytes(), incarnation).unwrap()
}

/// The event of a message.
fn event(view: &mut View, seconds: u64, message: &[u8]) -> Option<Event> {
    view.take(at(seconds), message).unwrap().map(|change| change.event)
}

fn names(view: &View) -> Vec<String> {
    view.iter().map(|member| String::from_utf8(member.unwrap().name).unwrap()).collect()
}

#[test]
fn each_event_is_told_with_the_member() {
    let mut view = new();
    let change = view.take(at(1), &alive("b", 2, 1)).unwrap().unwrap();
    let Shown { name, state, since, incarnation, address, meta, versions, by, accusers, rivals, .. } =
        change.member;
    assert_eq!((change.event, &name[..], state), (Event::Joined, &b"b"[..], State::Alive));
    assert_eq!((since, incarnation, address), (at(1), 1, details(2).address));
    assert_eq!((meta, versions, by), (b"m".to_vec(), Some(Details::VERSIONS), None));
    assert_eq!((accusers, rivals), (0, 0));
    let steps = [
        (alive("b", 2, 1), None, State::Alive, 1),
        (alive("b", 2, 2), Some(Event::Renewed), State::Alive, 1),
        (alive("b", 3, 9), Some(Event::Conflict), State::Alive, 1),
        (suspect("x", "b", 2), Some(Event::Suspected), State::Suspect, 4),
        (suspect("y", "b", 2), Some(Event::AlsoSuspected), State::Suspect, 4),
        (suspect("y", "b", 2), None, State::Suspect, 4),
        (alive("b", 2, 3), Some(Event::Refuted), State::Alive, 7),
        (dead("x", "b", 3), Some(Event::Dead), State::Confirm, 8),
        (alive("b", 2, 4), Some(Event::Back), State::Alive, 9),
        (dead("b", "b", 4), Some(Event::Left), State::Leave, 10),
        (suspect("x", "none", 1), None, State::Leave, 10),
    ];
    for (second, (message, wanted, state, since)) in (1..).zip(steps) {
        let change = view.take(at(second), &message).unwrap();
        assert_eq!(change.as_ref().map(|change| change.event), wanted);
        let shown = view.find(b"b").unwrap().unwrap();
        assert_eq!((shown.state, shown.since), (state, at(since)));
        assert!(change.map_or(true, |change| change.member == shown));
    }
    assert_eq!(event(&mut view, 12, &alive("b", 2, 5)), Some(Event::Back));
    let other = Details { meta: b"other".to_vec(), incarnation: 6, ..details(2) };
    assert_eq!(event(&mut view, 13, &alive_of(b"b", &other).unwrap()), Some(Event::Updated));
    assert_eq!(event(&mut view, 13, &alive("z", 2, 0)), Some(Event::Known));
    assert_eq!(view.find(b"z").unwrap().map(|z| z.state), Some(State::Noted));
}

#[test]
fn accusers_are_named_in_their_order() {
    let mut view = new();
    let long = "x".repeat(1024);
    view.take(at(1), &alive("b", 2, 1)).unwrap();
    assert_eq!(view.accusers(b"b"), Ok(vec![]));
    view.take(at(2), &suspect("z", "b", 1)).unwrap();
    view.take(at(3), &suspect(&long, "b", 1)).unwrap();
    assert_eq!(view.accusers(b"b"), Ok(vec![b"z".to_vec(), long.clone().into_bytes()]));
    let shown = view.find(b"b").unwrap().unwrap();
    assert_eq!((shown.accusers, shown.by), (2, Some(long.into_bytes())));
    assert_eq!(view.accusers(b"none"), Err(Error::NoMember));
}

#[test]
fn messages_are_refused() {
    let mut view = new();
    let compound = compound(&[alive("b", 2, 1)]).unwrap();
    for message in [&compound[..], &ack(1, b"").unwrap(), b"\x08mine"] {
        assert_eq!(view.take(at(1), message), Err(Error::WrongType));
    }
    let cut = alive("b", 2, 1);
    assert_eq!(view.take(at(1), &cut[..cut.len() - 1]), Err(Error::Ended));
    assert_eq!(view.take(at(1), b""), Err(Error::Ended));
    assert!(view.is_empty());
}

#[test]
fn a_bad_part_refuses_only_itself() {
    let mut view = new();
    let each = [alive("b", 2, 1), ack(1, b"").unwrap(), vec![3, 0x80], vec![], suspect("x", "b", 1)];
    let lens = each.iter().flat_map(|part| [0, part.len() as u8]);
    let packet: Vec<u8> = [7, 5].into_iter().chain(lens).chain(each.concat()).collect();
    let told: Vec<_> =
        view.take_parts(at(1), &packet).map(|change| change.map(|change| change.event)).collect();
    assert_eq!(told, [Ok(Event::Joined), Err(Error::NameEmpty), Ok(Event::Suspected)]);
    let again: Vec<_> = view.take_parts(at(2), &alive("b", 2, 2)).collect();
    assert_eq!(again[0].as_ref().map(|change| change.event), Ok(Event::Refuted));
}

#[test]
fn a_stream_is_merged_as_memberlist_does() {
    let (mut view, mut fresh) = (new(), new());
    for message in
        [alive("b", 2, 4), alive("c", 3, 5), alive("d", 4, 6), suspect("b", "c", 5), dead("b", "d", 6)]
    {
        view.take(at(1), &message).unwrap();
    }
    let stream = view.offer(true, b"user").unwrap();
    assert!(stream.ends_with(b"user"));
    let events = |view: &mut View, stream: &[u8]| -> Vec<(String, Event)> {
        let told = |change: swimtab::Change| (String::from_utf8(change.member.name).unwrap(), change.event);
        view.merge(at(9), stream).unwrap().map(|change| told(change.unwrap())).collect()
    };
    // of names that it does not know it learns only who is alive
    assert_eq!(events(&mut fresh, &stream), [("b".into(), Event::Known)]);
    for message in [alive("c", 3, 4), alive("d", 4, 5)] {
        fresh.take(at(2), &message).unwrap();
    }
    let suspected = [("c".into(), Event::Suspected), ("d".into(), Event::Suspected)];
    assert_eq!(events(&mut fresh, &stream), suspected);
    assert_eq!(events(&mut fresh, &stream), []);
    assert_eq!(fresh.find(b"d").unwrap().map(|d| (d.since, d.by)), Some((at(9), None)));
    assert_eq!(fresh.merge(at(9), &stream[..stream.len() - 1]).err(), Some(Error::Ended));
    assert_eq!(fresh.merge(at(9), b"\x03").err(), Some(Error::WrongType));
    // what the loop does not reach is not told
    let mut other = new();
    drop(other.merge(at(9), &stream).unwrap());
    assert!(other.is_empty());
}

#[test]
fn a_node_reads_what_a_view_writes() {
    let mut view = new();
    for message in [alive("b", 2, 4), alive("c", 3, 5), suspect("b", "c", 5), alive("n", 5, 0)] {
        view.take(at(1), &message).unwrap();
    }
    let mut node = opened("a", 1);
    assert!(node.finish(&view.offer(false, b"").unwrap()).unwrap().news);
    let states: Vec<_> = node.iter().map(|member| (member.state, member.incarnation)).collect();
    assert_eq!(states, [(State::Alive, 0), (State::Alive, 4), (State::Suspect, 5)]);
    let mut fresh = new();
    let stream = node.offer(false, Form::Memberlist { user: b"" }).unwrap();
    assert_eq!(fresh.merge(at(1), &stream).unwrap().count(), 2);
    assert_eq!(view.offer(false, &vec![0; 20_971_521]), Err(Error::UserTooLong));
}

#[test]
fn members_that_are_gone_are_forgotten() {
    let mut view = new();
    for message in [alive("b", 2, 4), alive("c", 3, 5), dead("c", "b", 4), dead("c", "c", 5)] {
        view.take(at(1), &message).unwrap();
    }
    assert_eq!((view.forget(at(31)), view.len()), (0, 2));
    assert_eq!(view.forget(Duration::from_micros(31_000_001)), 2);
    assert_eq!(event(&mut view, 40, &alive("b", 2, 1)), Some(Event::Joined));
    view.take(at(50), &dead("c", "b", 1)).unwrap();
    assert_eq!((view.forget(Duration::MAX), view.is_empty()), (1, true));
}

#[test]
fn members_come_in_the_order_of_their_names() {
    let mut view = new();
    for name in ["m", "b", "z", "ba"] {
        view.take(at(1), &alive(name, 2, 1)).unwrap();
    }
    assert_eq!(names(&view), ["b", "ba", "m", "z"]);
    assert_eq!(view.after(b"bz").unwrap().map(|member| member.name), Some(b"m".to_vec()));
    assert_eq!((view.after(b"z"), view.find(b"none")), (Ok(None), Ok(None)));
    assert_eq!((view.find(&[b'n'; 1025]), view.after(&[b'n'; 1025])), (Ok(None), Err(Error::NameTooLong)));
    assert_eq!(format!("{view:?}"), "View { members: 4, .. }");
}

#[test]
fn a_view_moves_between_threads() {
    let mut view = new();
    let view = std::thread::spawn(move || {
        view.take(at(1), &alive("b", 2, 1)).unwrap();
        view
    });
    assert_eq!(view.join().unwrap().len(), 1);
}
