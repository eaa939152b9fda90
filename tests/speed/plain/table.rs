//! The table of all claims: what is kept of each name, and its listing and dump.

use crate::pack::{Claim, Details, Kind, write_header, write_record};
use std::collections::HashMap;
use std::hash::{BuildHasherDefault, Hasher};

/// What is kept of one name. A state is greater than those that it overrides.
#[derive(Clone, Copy)]
pub struct Entry<'a> {
    pub top: (bool, u32, Kind),
    pub home: Option<(u32, Details<'a>)>,
}

impl<'a> Entry<'a> {
    pub fn of(claim: &Claim<'a>) -> Entry<'a> {
        Entry {
            top: (claim.kind >= Kind::Confirm, claim.inc, claim.kind),
            home: (claim.kind == Kind::Alive).then_some((claim.inc, claim.details)),
        }
    }

    pub fn join(&mut self, other: &Entry<'a>) {
        self.top = self.top.max(other.top);
        self.home = self.home.max(other.home);
    }
}

/// A multiplication for each eight bytes, as in Firefox and rustc.
#[derive(Default)]
pub struct Fx(u64);

impl Hasher for Fx {
    fn write(&mut self, bytes: &[u8]) {
        for part in bytes.chunks(8) {
            let mut word = [0; 8];
            word[..part.len()].copy_from_slice(part);
            self.write_u64(u64::from_le_bytes(word));
        }
    }

    fn write_u64(&mut self, word: u64) {
        self.0 = (self.0.rotate_left(5) ^ word).wrapping_mul(0x517c_c1b7_2722_0a95);
    }

    fn write_usize(&mut self, word: usize) {
        self.write_u64(word as u64);
    }

    fn write_u32(&mut self, word: u32) {
        self.write_u64(word.into());
    }

    fn write_u16(&mut self, word: u16) {
        self.write_u64(word.into());
    }

    fn write_u8(&mut self, word: u8) {
        self.write_u64(word.into());
    }

    fn finish(&self) -> u64 {
        self.0.rotate_left(26)
    }
}

pub type FxMap<K, V> = HashMap<K, V, BuildHasherDefault<Fx>>;

/// The first sixteen bytes of a name, which compare as the name does.
pub fn front(name: &[u8]) -> u128 {
    let mut front = [0; 16];
    let len = name.len().min(16);
    front[..len].copy_from_slice(&name[..len]);
    u128::from_be_bytes(front)
}

/// Names with their entries, in ascending order.
pub type Sorted<'a> = Vec<(&'a [u8], Entry<'a>)>;

/// A table of claims of which many share a name: entries in the order of their coming, and where each name's is.
#[derive(Default)]
pub struct Gathered<'a> {
    places: FxMap<&'a [u8], u32>,
    entries: Sorted<'a>,
}

impl<'a> Gathered<'a> {
    pub fn take(&mut self, claim: &Claim<'a>) {
        let next = self.entries.len() as u32;
        let place = *self.places.entry(claim.name).or_insert(next);
        match self.entries.get_mut(place as usize) {
            Some((_, entry)) => entry.join(&Entry::of(claim)),
            None => self.entries.push((claim.name, Entry::of(claim))),
        }
    }

    pub fn sorted(self) -> Sorted<'a> {
        let fronts = self.entries.iter().map(|(name, _)| front(name));
        let mut order: Vec<(u128, u32)> = fronts.zip(0..).collect();
        let name_at = |at: u32| self.entries[at as usize].0;
        order.sort_unstable_by(|(a, i), (b, j)| a.cmp(b).then_with(|| name_at(*i).cmp(name_at(*j))));
        order.into_iter().map(|(_, at)| self.entries[at as usize]).collect()
    }
}

/// The table of many claims of which few share a name.
pub fn table_of<'a>(claims: &[Claim<'a>]) -> Sorted<'a> {
    let mut order: Vec<(u128, u32)> = claims.iter().map(|claim| front(claim.name)).zip(0..).collect();
    order.sort_by(|(a, i), (b, j)| a.cmp(b).then_with(|| claims[*i as usize].name.cmp(claims[*j as usize].name)));
    let mut sorted: Sorted = Vec::with_capacity(claims.len());
    for (_, at) in order {
        let claim = &claims[at as usize];
        match sorted.last_mut() {
            Some((name, entry)) if *name == claim.name => entry.join(&Entry::of(claim)),
            _ => sorted.push((claim.name, Entry::of(claim))),
        }
    }
    sorted
}

// ---- texts

pub fn write_decimal(out: &mut Vec<u8>, mut number: u64) {
    let (mut digits, mut at) = ([0; 20], 20);
    loop {
        at -= 1;
        digits[at] = b'0' + (number % 10) as u8;
        number /= 10;
        if number == 0 {
            return out.extend_from_slice(&digits[at..]);
        }
    }
}

fn write_hex(out: &mut Vec<u8>, bytes: &[u8]) {
    const DIGITS: &[u8; 16] = b"0123456789abcdef";
    out.extend(bytes.iter().flat_map(|byte| [DIGITS[usize::from(byte >> 4)], DIGITS[usize::from(byte & 15)]]));
}

fn write_name(out: &mut Vec<u8>, name: &[u8]) {
    if name.iter().all(|byte| matches!(byte, 0x21..=0x7e) && *byte != b'%') {
        return out.extend_from_slice(name);
    }
    for &byte in name {
        match byte {
            0x21..=0x7e if byte != b'%' => out.push(byte),
            _ => out.extend_from_slice(format!("%{byte:02X}").as_bytes()),
        }
    }
}

pub fn listing(table: &[(&[u8], Entry)]) -> Vec<u8> {
    let mut out = Vec::with_capacity(64 * table.len());
    for (name, entry) in table {
        write_name(&mut out, name);
        out.extend_from_slice(match entry.top.2 {
            Kind::Alive => b" alive ",
            Kind::Suspect => b" suspect ",
            Kind::Confirm => b" confirm ",
            Kind::Leave => b" leave ",
        });
        write_decimal(&mut out, entry.top.1.into());
        match entry.home {
            None => out.extend_from_slice(b" -"),
            Some((inc, details)) => {
                out.push(b' ');
                write_decimal(&mut out, inc.into());
                out.push(b'/');
                write_hex(&mut out, details.addr);
                out.push(b'/');
                write_decimal(&mut out, details.port.into());
                out.push(b'/');
                write_hex(&mut out, details.meta);
                out.push(b'/');
                write_hex(&mut out, details.vsn);
            }
        }
        out.push(b'\n');
    }
    out
}

pub fn dump(table: &[(&[u8], Entry)]) -> Vec<u8> {
    let mut records = 0;
    let mut body = Vec::with_capacity(96 * table.len());
    for (name, entry) in table {
        if let Some((inc, details)) = &entry.home {
            write_record(&mut body, name, *inc, details, 0);
            records += 1;
        }
        if entry.top.2 != Kind::Alive {
            write_record(&mut body, name, entry.top.1, &Details::default(), entry.top.2 as u8);
            records += 1;
        }
    }
    let mut out = Vec::with_capacity(body.len() + 32);
    write_header(&mut out, records);
    out.extend_from_slice(&body);
    out
}
