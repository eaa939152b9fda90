//! What changes in a cluster, from a capture of its packets.

use crate::pack::{Fault, Fields, Kind, Reader, kind_of, loose_fields};
use crate::table::{FxMap, write_decimal};
use crate::view::{View, end_of};
use std::collections::HashSet;
use std::io::Write;
use std::net::{IpAddr, SocketAddr};

/// The records of a pcap file, as times in microseconds and frames from the IP header on.
fn each_packet(bytes: &[u8], mut take: impl FnMut(u64, &[u8])) -> Result<(), Fault> {
    let mut reader = Reader(bytes);
    let head = reader.take(24)?;
    let (wide, nanos) = match head[..4] {
        [0xd4, 0xc3, 0xb2, 0xa1] => (u32::from_le_bytes as fn([u8; 4]) -> u32, 1),
        [0x4d, 0x3c, 0xb2, 0xa1] => (u32::from_le_bytes as fn([u8; 4]) -> u32, 1000),
        [0xa1, 0xb2, 0xc3, 0xd4] => (u32::from_be_bytes as fn([u8; 4]) -> u32, 1),
        [0xa1, 0xb2, 0x3c, 0x4d] => (u32::from_be_bytes as fn([u8; 4]) -> u32, 1000),
        _ => return Err("this is no pcap capture"),
    };
    let number = |bytes: &[u8], at: usize| wide([bytes[at], bytes[at + 1], bytes[at + 2], bytes[at + 3]]);
    let link = number(head, 20);
    while let Ok(record) = reader.take(16) {
        let time = u64::from(number(record, 0)) * 1_000_000 + u64::from(number(record, 4) / nanos);
        let len = number(record, 8);
        if len > 262_144 {
            return Err("a record is too long");
        }
        let Ok(frame) = reader.take(len as usize) else { break };
        match link {
            1 if frame.get(12..14) == Some(&[8, 0]) => take(time, &frame[14..]),
            101 => take(time, frame),
            _ => {}
        }
    }
    Ok(())
}

/// The ends and the payload of a datagram over IPv4.
fn datagram(packet: &[u8]) -> Option<(SocketAddr, SocketAddr, &[u8])> {
    let head = packet.get(..20)?;
    let head_len = usize::from(head[0] & 15) * 4;
    let total = usize::from(u16::from_be_bytes([head[2], head[3]]));
    let is_fragment = u16::from_be_bytes([head[6], head[7]]) & 0x3fff != 0;
    if head[0] >> 4 != 4 || head[9] != 17 || is_fragment || head_len < 20 {
        return None;
    }
    let udp = packet.get(head_len..total)?;
    let len = usize::from(u16::from_be_bytes([*udp.get(4)?, *udp.get(5)?]));
    let end = |at: usize, port: usize| {
        let ip = IpAddr::from([head[at], head[at + 1], head[at + 2], head[at + 3]]);
        Some(SocketAddr::new(ip, u16::from_be_bytes([*udp.get(port)?, *udp.get(port + 1)?])))
    };
    Some((end(12, 0)?, end(16, 2)?, udp.get(8..len)?))
}

/// A message of a datagram.
enum Message<'a> {
    Claim(Kind, Fields<'a>),
    Ping(Fields<'a>),
    Indirect(Fields<'a>),
    Ack(u32),
}

/// Reads what is in a message, and in its parts if it is a compound one.
fn read_messages<'a>(bytes: &'a [u8], read: &mut Vec<Message<'a>>) {
    let mut reader = Reader(bytes);
    let Ok(first) = reader.byte() else { return };
    if first == 7 {
        let Ok(count) = reader.byte() else { return };
        let Ok(lengths) = reader.take(2 * usize::from(count)) else { return };
        for length in lengths.chunks_exact(2) {
            let Ok(part) = reader.take(usize::from(u16::from_be_bytes([length[0], length[1]]))) else { return };
            read_messages(part, read);
        }
        return;
    }
    let Ok(fields) = loose_fields(&mut reader) else { return };
    match first {
        0 => read.push(Message::Ping(fields)),
        1 => read.push(Message::Indirect(fields)),
        2 => read.push(Message::Ack(fields.seq)),
        3..=5 if fields.is_claim(first == 4) => read.push(Message::Claim(kind_of(first, &fields), fields)),
        _ => {}
    }
}

/// The CRC-32 of zip and Ethernet.
fn checksum(bytes: &[u8]) -> u32 {
    static TABLE: [u32; 256] = {
        let mut table = [0; 256];
        let mut at = 0;
        while at < 256 {
            let (mut rest, mut bit) = (at as u32, 0);
            while bit < 8 {
                rest = if rest & 1 == 1 { rest >> 1 ^ 0xedb8_8320 } else { rest >> 1 };
                bit += 1;
            }
            table[at] = rest;
            at += 1;
        }
        table
    };
    !bytes.iter().fold(!0, |rest, byte| rest >> 8 ^ TABLE[usize::from(rest as u8 ^ byte)])
}

struct Listener {
    view: View,
    waiting: FxMap<(SocketAddr, u32), (SocketAddr, Box<[u8]>)>,
    warned: HashSet<(Box<[u8]>, Box<[u8]>, u32)>,
    /// The day and second of the last line, with its text.
    second: (u64, Vec<u8>),
    out: Vec<u8>,
}

struct Sent {
    time: u64,
    source: SocketAddr,
    destination: SocketAddr,
}

/// The date of this many days after the start of 1970 (Howard Hinnant's `civil_from_days`).
fn date_of(days: u64) -> (u64, u64, u64) {
    let shifted = days + 719_468;
    let (era, day) = (shifted / 146_097, shifted % 146_097);
    let year = (day - day / 1460 + day / 36_524 - day / 146_096) / 365;
    let rest = day - (365 * year + year / 4 - year / 100);
    let shifted_month = (5 * rest + 2) / 153;
    let month = if shifted_month < 10 { shifted_month + 3 } else { shifted_month - 9 };
    (year + era * 400 + u64::from(month <= 2), month, rest - (153 * shifted_month + 2) / 5 + 1)
}

impl Listener {
    fn write_time(&mut self, time: u64) {
        let (second, micros) = (time / 1_000_000, time % 1_000_000);
        if self.second.0 != second || self.second.1.is_empty() {
            let (year, month, day) = date_of(second / 86_400);
            let (hour, minute) = (second / 3600 % 24, second / 60 % 60);
            let text = format!("{year:04}-{month:02}-{day:02}T{hour:02}:{minute:02}:{:02}.", second % 60);
            self.second = (second, text.into_bytes());
        }
        self.out.extend_from_slice(&self.second.1);
        let mut digits = *b"000000Z";
        let mut rest = micros;
        for digit in digits[..6].iter_mut().rev() {
            *digit = b'0' + (rest % 10) as u8;
            rest /= 10;
        }
        self.out.extend_from_slice(&digits);
    }

    fn write_end(&mut self, end: SocketAddr) {
        match self.view.at(end) {
            Some(member) => write_name(&mut self.out, &member.name),
            None => write_address(&mut self.out, end),
        }
    }

    fn write_ends(&mut self, sent: &Sent) {
        self.out.extend_from_slice(b" (");
        self.write_end(sent.source);
        self.out.extend_from_slice(b" to ");
        self.write_end(sent.destination);
        self.out.extend_from_slice(b", udp)\n");
    }

    /// Shows the first warning by this accuser at this incarnation.
    fn warn(&mut self, sent: &Sent, said: &Fields) {
        if !self.warned.insert((said.name.into(), said.from.into(), said.inc)) {
            return;
        }
        self.write_time(sent.time);
        self.out.push(b' ');
        write_name(&mut self.out, said.name);
        self.out.extend_from_slice(b" warned ");
        write_decimal(&mut self.out, said.inc.into());
        self.out.extend_from_slice(b" by ");
        write_name(&mut self.out, said.from);
        self.write_ends(sent);
    }

    fn show(&mut self, sent: &Sent, from: &[u8], number: u32, event: &str) {
        self.write_time(sent.time);
        let member = &self.view.members[number as usize];
        let out = &mut self.out;
        out.push(b' ');
        write_name(out, &member.name);
        out.push(b' ');
        out.extend_from_slice(event.as_bytes());
        match member.inc {
            Some(inc) => {
                out.push(b' ');
                write_decimal(out, inc.into());
            }
            None => out.extend_from_slice(b" -"),
        }
        match event {
            "joined" | "known" | "back" | "updated" => {
                if let Some(place) = &member.place {
                    out.extend_from_slice(b" at ");
                    write_address(out, place.end);
                    write_meta(out, &place.meta);
                }
            }
            "seen" => {
                out.extend_from_slice(b" at ");
                member.end().into_iter().for_each(|end| write_address(out, end));
            }
            "conflict" => {
                out.extend_from_slice(b" at ");
                member.rivals.last().into_iter().for_each(|end| write_address(out, *end));
                out.extend_from_slice(b", and is at ");
                member.end().into_iter().for_each(|end| write_address(out, end));
            }
            "suspected" | "also suspected" | "dead" if !from.is_empty() => {
                out.extend_from_slice(b" by ");
                write_name(out, from);
            }
            _ => {}
        }
        self.write_ends(sent);
    }

    fn see(&mut self, sent: &Sent, name: &[u8], at: SocketAddr) {
        if let (1..=1024, Some((number, event))) = (name.len(), self.view.see(sent.time, name, at)) {
            self.show(sent, &[], number, event);
        }
    }

    fn see_sender(&mut self, sent: &Sent, said: &Fields) {
        let at = end_of(said.source_addr, said.source_port).filter(|_| said.source_port != 0);
        self.see(sent, said.source, at.unwrap_or(sent.source));
    }

    fn hear(&mut self, sent: &Sent, message: &Message) {
        match message {
            Message::Claim(kind, said) => {
                if let Some((number, event)) = self.view.hear(sent.time, *kind, said) {
                    self.show(sent, said.from, number, event);
                }
            }
            Message::Ping(said) => {
                if self.waiting.len() >= 4096 {
                    self.waiting.clear();
                }
                self.waiting.insert((sent.source, said.seq), (sent.destination, said.name.into()));
                self.see_sender(sent, said);
            }
            Message::Indirect(said) => self.see_sender(sent, said),
            Message::Ack(seq) => match self.waiting.remove(&(sent.destination, *seq)) {
                Some((asked, name)) if asked == sent.source => self.see(sent, &name, sent.source),
                _ => {}
            },
        }
    }
}

/// Whether the messages have a ping to the suspect from its accuser.
fn is_warning(read: &[Message], kind: Kind, said: &Fields) -> bool {
    kind == Kind::Suspect
        && read.iter().any(|message| match message {
            Message::Ping(ping) => ping.name == said.name && (ping.source.is_empty() || ping.source == said.from),
            _ => false,
        })
}

fn write_name(out: &mut Vec<u8>, name: &[u8]) {
    if name.iter().all(|byte| matches!(byte, 0x21..=0x7e) && *byte != b'%') {
        return out.extend_from_slice(name);
    }
    for &byte in name {
        match byte {
            0x21..=0x7e if byte != b'%' => out.push(byte),
            _ => out.extend_from_slice(format!("%{byte:02X}").as_bytes()),
        }
    }
}

fn write_address(out: &mut Vec<u8>, end: SocketAddr) {
    let IpAddr::V4(ip) = end.ip() else {
        return drop(write!(out, "{end}"));
    };
    for (at, byte) in ip.octets().into_iter().enumerate() {
        if at > 0 {
            out.push(b'.');
        }
        write_decimal(out, byte.into());
    }
    out.push(b':');
    write_decimal(out, end.port().into());
}

/// Metadata as tags, in the order of their keys, or else in hexadecimal.
fn write_meta(out: &mut Vec<u8>, meta: &[u8]) {
    if matches!(meta, [] | [0xff, 0x80]) {
        return;
    }
    out.push(b' ');
    let tags = || -> Result<Vec<(&[u8], &[u8])>, Fault> {
        let mut reader = Reader(meta);
        if reader.byte()? != 0xff {
            return Err("no tags");
        }
        let count = reader.map()?;
        let mut tags = (0..count).map(|_| Ok((reader.raw(512)?, reader.raw(512)?))).collect::<Result<Vec<_>, Fault>>()?;
        tags.sort_by_key(|tag| tag.0);
        if reader.0.is_empty() { Ok(tags) } else { Err("Trailing") }
    };
    let Ok(tags) = tags() else {
        return meta.iter().for_each(|byte| drop(write!(out, "{byte:02x}")));
    };
    for (at, (key, value)) in tags.into_iter().enumerate() {
        if at > 0 {
            out.push(b',');
        }
        write_name(out, key);
        out.push(b'=');
        write_name(out, value);
    }
}

pub fn timeline(capture: &[u8], mut give: impl FnMut(&[u8])) -> Result<(), Fault> {
    let mut listener = Listener {
        view: View::default(),
        waiting: FxMap::default(),
        warned: HashSet::new(),
        second: (0, Vec::new()),
        out: Vec::with_capacity(1 << 16),
    };
    each_packet(capture, |time, packet| {
        let Some((source, destination, payload)) = datagram(packet) else { return };
        let payload = match payload {
            [12, a, b, c, d, inner @ ..] if checksum(inner) == u32::from_be_bytes([*a, *b, *c, *d]) => inner,
            [12, ..] => return,
            _ => payload,
        };
        let mut read = Vec::new();
        read_messages(payload, &mut read);
        let sent = Sent { time, source, destination };
        for message in &read {
            match message {
                Message::Claim(kind, said) if is_warning(&read, *kind, said) => listener.warn(&sent, said),
                _ => listener.hear(&sent, message),
            }
        }
        if listener.out.len() > 1 << 15 {
            give(&listener.out);
            listener.out.clear();
        }
    })?;
    give(&listener.out);
    Ok(())
}
