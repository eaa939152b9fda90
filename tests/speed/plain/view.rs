//! The members as memberlist's rules show them (state.go), and who is at which address.

use crate::pack::{Details, Fields, Kind};
use crate::table::FxMap;
use std::collections::hash_map::Entry as Slot;
use std::net::{IpAddr, SocketAddr};

/// How long a member that is gone is remembered, in microseconds.
const WAIT: u64 = 30_000_000;

#[derive(Clone)]
pub struct Place {
    pub end: SocketAddr,
    pub meta: Box<[u8]>,
    vsn: [u8; 6],
    has_versions: bool,
}

#[derive(PartialEq)]
enum State {
    Noted,
    Seen,
    Alive,
    Suspect,
    Dead,
    Left,
}

pub struct Member {
    pub name: Box<[u8]>,
    pub inc: Option<u32>,
    pub place: Option<Place>,
    pub seen: Option<SocketAddr>,
    pub rivals: Vec<SocketAddr>,
    state: State,
    since: u64,
    by: Vec<Box<[u8]>>,
}

struct Host {
    count: u32,
    last: u32,
}

#[derive(Default)]
pub struct View {
    numbers: FxMap<Box<[u8]>, u32>,
    pub members: Vec<Member>,
    ends: FxMap<SocketAddr, u32>,
    hosts: FxMap<IpAddr, Host>,
}

pub fn end_of(addr: &[u8], port: u16) -> Option<SocketAddr> {
    let ip = match *addr {
        [a, b, c, d] | [0, 0, 0, 0, 0, 0, 0, 0, 0, 0, 0xff, 0xff, a, b, c, d] => IpAddr::from([a, b, c, d]),
        _ => IpAddr::from(<[u8; 16]>::try_from(addr).ok()?),
    };
    Some(SocketAddr::new(ip, port))
}

fn place_of(details: &Details, old: Option<&Place>) -> Option<Place> {
    let mut vsn = [0; 6];
    let known = old.filter(|_| details.vsn.is_empty());
    match known {
        Some(old) => vsn = old.vsn,
        None if details.vsn.len() == 6 => vsn.copy_from_slice(details.vsn),
        None => {}
    }
    let has_versions = known.map_or(details.vsn.len() == 6, |old| old.has_versions);
    Some(Place { end: end_of(details.addr, details.port)?, meta: details.meta.into(), vsn, has_versions })
}

impl Member {
    pub fn end(&self) -> Option<SocketAddr> {
        self.place.as_ref().map(|place| place.end).or(self.seen)
    }

    fn is_gone(&self) -> bool {
        matches!(self.state, State::Dead | State::Left)
    }

    fn believe(&mut self, state: State, inc: u32, since: u64) {
        self.state = state;
        self.inc = Some(inc);
        self.since = since;
        self.by.clear();
    }

    fn alive(&mut self, time: u64, inc: u32, details: &Details) -> Option<&'static str> {
        if let [least, greatest, ..] = *details.vsn {
            if least == 0 || greatest == 0 || least > greatest {
                return None;
            }
        }
        let is_forgotten = self.is_gone() && WAIT < time.saturating_sub(self.since);
        let known = self.place.as_ref().filter(|_| !is_forgotten);
        let new = place_of(details, known)?;
        let is_newer = self.inc.unwrap_or(0) < inc;
        let elsewhere = known.is_some_and(|old| old.end != new.end);
        let still = known.is_some_and(|old| old.meta == new.meta && old.vsn == new.vsn);
        if is_forgotten {
            if inc == 0 {
                return None;
            }
        } else if elsewhere && self.state != State::Left {
            if self.rivals.contains(&new.end) || self.rivals.len() >= 255 {
                return None;
            }
            self.rivals.push(new.end);
            return Some("conflict");
        } else if !elsewhere && !is_newer {
            if known.is_some() {
                return None;
            }
            self.place = Some(new);
            self.inc = self.inc.or(Some(0));
            return Some("known");
        }
        let (since, event) = match self.state {
            State::Noted => (time, "joined"),
            State::Seen => (self.since, "known"),
            State::Alive if known.is_none() => (self.since, "known"),
            State::Alive => (self.since, if still { "renewed" } else { "updated" }),
            State::Suspect => (time, "refuted"),
            State::Dead | State::Left => (time, "back"),
        };
        self.believe(State::Alive, inc, since);
        self.place = Some(new);
        self.seen = None;
        self.rivals.clear();
        Some(event)
    }

    fn suspect(&mut self, time: u64, inc: u32, from: &[u8]) -> Option<&'static str> {
        if self.is_gone() {
            return None;
        }
        if self.state != State::Suspect {
            self.believe(State::Suspect, inc, time);
            self.by.extend((!from.is_empty()).then(|| from.into()));
            return Some("suspected");
        }
        if from.is_empty() || self.by.len() >= 255 || self.by.iter().any(|by| **by == *from) {
            return None;
        }
        self.by.push(from.into());
        Some("also suspected")
    }

    fn hear(&mut self, time: u64, kind: Kind, said: &Fields) -> Option<&'static str> {
        if kind == Kind::Alive {
            return self.alive(time, said.inc, &said.details);
        }
        if said.inc < self.inc.unwrap_or(0) {
            return None;
        }
        if kind == Kind::Suspect || (kind == Kind::Confirm && said.from.is_empty() && self.place.is_some()) {
            return self.suspect(time, said.inc, said.from);
        }
        if self.is_gone() {
            return None;
        }
        let (state, event) = if kind == Kind::Leave { (State::Left, "left") } else { (State::Dead, "dead") };
        self.believe(state, said.inc, time);
        Some(event)
    }
}

impl View {
    fn number_of(&mut self, name: &[u8], time: u64) -> u32 {
        if let Some(number) = self.numbers.get(name) {
            return *number;
        }
        let number = self.members.len() as u32;
        self.numbers.insert(name.into(), number);
        self.members.push(Member {
            name: name.into(),
            inc: None,
            place: None,
            seen: None,
            rivals: Vec::new(),
            state: State::Noted,
            since: time,
            by: Vec::new(),
        });
        number
    }

    /// Notes where a member is now, and that it is no longer where it was.
    fn moved(&mut self, number: u32, from: Option<SocketAddr>) {
        let Some(to) = self.members[number as usize].end() else { return };
        if from == Some(to) {
            return;
        }
        if let Some(host) = from.and_then(|from| self.hosts.get_mut(&from.ip())) {
            host.count = host.count.saturating_sub(1);
        }
        self.ends.insert(to, number);
        match self.hosts.entry(to.ip()) {
            Slot::Occupied(mut host) => {
                host.get_mut().count += 1;
                host.get_mut().last = number;
            }
            Slot::Vacant(host) => drop(host.insert(Host { count: 1, last: number })),
        }
    }

    /// Hears a claim, and returns whom it changes and how.
    pub fn hear(&mut self, time: u64, kind: Kind, said: &Fields) -> Option<(u32, &'static str)> {
        let number = self.number_of(said.name, time);
        let member = &mut self.members[number as usize];
        let from = member.end();
        let event = member.hear(time, kind, said)?;
        self.moved(number, from);
        Some((number, event))
    }

    /// Sees a member at an address.
    pub fn see(&mut self, time: u64, name: &[u8], at: SocketAddr) -> Option<(u32, &'static str)> {
        let number = self.number_of(name, time);
        let member = &mut self.members[number as usize];
        if member.end().is_some() {
            return None;
        }
        member.seen = Some(at);
        if member.state == State::Noted {
            member.state = State::Seen;
            member.since = time;
        }
        self.moved(number, None);
        Some((number, "seen"))
    }

    /// The member at this end: the one with this address and port, or the only one at the address.
    pub fn at(&self, end: SocketAddr) -> Option<&Member> {
        if let Some(number) = self.ends.get(&end) {
            let member = &self.members[*number as usize];
            if member.end() == Some(end) {
                return Some(member);
            }
        }
        let host = self.hosts.get(&end.ip()).filter(|host| host.count == 1)?;
        let member = &self.members[host.last as usize];
        (member.end()?.ip() == end.ip()).then_some(member)
    }
}
