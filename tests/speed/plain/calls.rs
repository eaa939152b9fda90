//! A table that is kept and changed, as libswimtab's is, and what its calls cost.

use crate::pack::{Details, Fault, Kind, datagram, packet, stream, write_number, write_raw};
use crate::table::{Entry, Sorted, dump, front, listing, table_of};
use std::cmp::Ordering;
use std::collections::BTreeMap;

/// A name. Those of at most sixteen bytes take no memory elsewhere.
#[derive(PartialEq, Eq, PartialOrd, Ord)]
struct Key {
    front: u128,
    len: u16,
    tail: Box<[u8]>,
}

impl Key {
    fn of(name: &[u8]) -> Key {
        let tail = name.get(16..).unwrap_or_default();
        Key { front: front(name), len: name.len().min(17) as u16, tail: tail.into() }
    }

    /// How it compares with a name that has this front.
    fn order(&self, front: u128, name: &[u8]) -> Ordering {
        let tail = || self.tail.as_ref().cmp(name.get(16..).unwrap_or_default());
        self.front.cmp(&front).then_with(|| self.len.cmp(&(name.len().min(17) as u16))).then_with(tail)
    }
}

struct Home {
    inc: u32,
    port: u16,
    addr: [u8; 16],
    addr_len: u8,
    vsn: [u8; 6],
    vsn_len: u8,
    meta: Box<[u8]>,
}

impl Home {
    fn of(inc: u32, details: &Details) -> Home {
        let (mut addr, mut vsn) = ([0; 16], [0; 6]);
        addr[..details.addr.len()].copy_from_slice(details.addr);
        vsn[..details.vsn.len()].copy_from_slice(details.vsn);
        let (addr_len, vsn_len) = (details.addr.len() as u8, details.vsn.len() as u8);
        Home { inc, port: details.port, addr, addr_len, vsn, vsn_len, meta: details.meta.into() }
    }

    fn newest(&self) -> (u32, Details<'_>) {
        let (addr, vsn) = (&self.addr[..self.addr_len.into()], &self.vsn[..self.vsn_len.into()]);
        (self.inc, Details { addr, port: self.port, meta: &self.meta, vsn })
    }
}

struct Kept {
    top: (bool, u32, Kind),
    home: Option<Home>,
}

impl Kept {
    fn of(entry: &Entry) -> Kept {
        Kept { top: entry.top, home: entry.home.as_ref().map(|(inc, details)| Home::of(*inc, details)) }
    }

    fn entry(&self) -> Entry<'_> {
        Entry { top: self.top, home: self.home.as_ref().map(Home::newest) }
    }

    /// Joins an entry, and returns whether that changed this one.
    fn join(&mut self, other: &Entry) -> bool {
        let is_newer = other.home > self.home.as_ref().map(Home::newest);
        if let (true, Some((inc, details))) = (is_newer, &other.home) {
            self.home = Some(Home::of(*inc, details));
        }
        let is_above = other.top > self.top;
        self.top = self.top.max(other.top);
        is_newer || is_above
    }
}

#[derive(Default)]
struct Table(BTreeMap<Key, Kept>);

impl Table {
    fn put(&mut self, name: &[u8], entry: &Entry) -> bool {
        let key = Key::of(name);
        if let Some(kept) = self.0.get_mut(&key) {
            return kept.join(entry);
        }
        self.0.insert(key, Kept::of(entry));
        true
    }

    /// Takes in a packet or a compound packet, and returns whether the table changed.
    fn take(&mut self, bytes: &[u8]) -> Result<bool, Fault> {
        if bytes.first() != Some(&7) {
            let claim = packet(bytes)?;
            return Ok(self.put(claim.name, &Entry::of(&claim)));
        }
        let mut claims = Vec::new();
        datagram(bytes, |claim| claims.push(claim))?;
        Ok(claims.iter().fold(false, |news, claim| self.put(claim.name, &Entry::of(claim)) || news))
    }

    /// Joins a push/pull stream, whose names mostly ascend.
    fn finish(&mut self, bytes: &[u8]) -> Result<bool, Fault> {
        let mut claims = Vec::new();
        stream(bytes, |claim| claims.push(claim))?;
        if claims.is_sorted_by(|a, b| a.name < b.name) {
            Ok(self.join(claims.iter().map(|claim| (claim.name, Entry::of(claim)))))
        } else {
            Ok(self.join(table_of(&claims).into_iter()))
        }
    }

    /// Joins entries in ascending order of the names: many by a walk over both.
    fn join<'b>(&mut self, sorted: impl ExactSizeIterator<Item = (&'b [u8], Entry<'b>)>) -> bool {
        let mut news = false;
        if self.0.is_empty() {
            self.0 = sorted.map(|(name, entry)| (Key::of(name), Kept::of(&entry))).collect();
            return !self.0.is_empty();
        }
        if sorted.len() < self.0.len() / 8 {
            sorted.for_each(|(name, entry)| news |= self.put(name, &entry));
            return news;
        }
        let mut new = Vec::new();
        let mut kept = self.0.iter_mut().peekable();
        for (name, entry) in sorted {
            let front = front(name);
            while kept.next_if(|(old, _)| old.order(front, name).is_lt()).is_some() {}
            match kept.next_if(|(old, _)| old.order(front, name).is_eq()) {
                Some((_, kept)) => news |= kept.join(&entry),
                None => new.push((Key::of(name), Kept::of(&entry))),
            }
        }
        news |= !new.is_empty();
        self.0.extend(new);
        news
    }

    /// The names and entries, for a listing or a dump.
    fn sorted<T>(&self, write: impl FnOnce(&Sorted) -> T) -> T {
        let name_of = |key: &Key| [&key.front.to_be_bytes()[..usize::from(key.len.min(16))], &key.tail].concat();
        let names: Vec<Vec<u8>> = self.0.keys().map(name_of).collect();
        write(&names.iter().zip(self.0.values()).map(|(name, kept)| (&name[..], kept.entry())).collect())
    }
}

/// The packets by which members with counted names say that they are alive, as tests/c/scale.c makes them.
fn alives(count: usize) -> Vec<Vec<u8>> {
    let alive = |i: usize| {
        let mut out = b"\x04\x86\xa4Addr\xa4\x0a\0\0".to_vec();
        out.push(i as u8);
        out.extend_from_slice(b"\xabIncarnation\x01\xa4Meta\xa0\xa4Node");
        write_raw(&mut out, format!("node-{i:06}").as_bytes());
        out.extend_from_slice(b"\xa4Port");
        write_number(&mut out, (i / 256) as u64);
        out.extend_from_slice(b"\xa3Vsn\xa6\x01\x05\x02\0\0\0");
        out
    };
    (0..count).map(alive).collect()
}

/// The numbers up to this one in random order.
fn shuffled(count: usize) -> Vec<usize> {
    let (mut order, mut state) = (Vec::new(), 7u64);
    for i in 0..count {
        state = state.wrapping_mul(6_364_136_223_846_793_005).wrapping_add(1_442_695_040_888_963_407);
        let j = (state >> 33) as usize % (i + 1);
        order.push(i);
        order.swap(i, j);
    }
    order
}

/// The work that is measured: valgrind counts what is done here.
#[no_mangle]
#[inline(never)]
fn measured(work: &mut dyn FnMut() -> Result<(), Fault>) -> bool {
    work().is_ok()
}

/// What `struct timespec` of Linux has on 64 bits.
#[repr(C)]
struct Timespec {
    seconds: i64,
    nanoseconds: i64,
}

extern "C" {
    fn clock_gettime(clock: i32, time: *mut Timespec) -> i32;
}

/// The processor time of this process so far, in nanoseconds.
fn processor_time() -> i64 {
    const PROCESS_CPUTIME_ID: i32 = 2;
    let mut time = Timespec { seconds: 0, nanoseconds: 0 };
    unsafe { clock_gettime(PROCESS_CPUTIME_ID, &mut time) };
    time.seconds * 1_000_000_000 + time.nanoseconds
}

/// Does the work of a shape of tests/c/scale.c, `take`, `known` or `finish`, and returns its nanoseconds.
pub fn nanoseconds_of(shape: &str, count: usize) -> Option<i64> {
    let (packets, order) = (alives(count), shuffled(count));
    let take_all = |table: &mut Table| order.iter().try_for_each(|at| table.take(&packets[*at]).map(drop));
    let (mut table, mut full) = (Table::default(), Table::default());
    take_all(&mut full).ok()?;
    let wire = full.sorted(|sorted| dump(sorted));
    let started = processor_time();
    let is_done = match shape {
        "take" => measured(&mut || take_all(&mut table)),
        "known" => measured(&mut || take_all(&mut full)),
        "finish" => measured(&mut || table.finish(&wire).map(drop)),
        "again" => measured(&mut || full.finish(&wire).map(drop)),
        _ => return None,
    };
    let took = processor_time() - started;
    let listed = |table: &Table| table.sorted(|sorted| listing(sorted));
    let is_right = table.0.is_empty() || listed(&table) == listed(&full);
    (is_done && is_right).then_some(took)
}
