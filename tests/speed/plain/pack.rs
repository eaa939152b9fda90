//! MessagePack and memberlist's messages, read in place and written in canonical bytes.

pub type Fault = &'static str;

const MAX_NAME: usize = 1024;

/// What is left of some bytes.
#[derive(Clone, Copy)]
pub struct Reader<'a>(pub &'a [u8]);

impl<'a> Reader<'a> {
    pub fn take(&mut self, len: usize) -> Result<&'a [u8], Fault> {
        let (front, rest) = self.0.split_at_checked(len).ok_or("Ended")?;
        self.0 = rest;
        Ok(front)
    }

    pub fn byte(&mut self) -> Result<u8, Fault> {
        let (&first, rest) = self.0.split_first().ok_or("Ended")?;
        self.0 = rest;
        Ok(first)
    }

    fn wide(&mut self, width: usize) -> Result<u64, Fault> {
        Ok(self.take(width)?.iter().fold(0, |sum, &byte| sum << 8 | u64::from(byte)))
    }

    pub fn number(&mut self, most: u64) -> Result<u64, Fault> {
        let number = match self.byte()? {
            small @ 0..=0x7f => u64::from(small),
            0xc0 => 0,
            first @ 0xcc..=0xcf => self.wide(1 << (first - 0xcc))?,
            first @ 0xd0..=0xd3 => {
                let width = 1 << (first - 0xd0);
                let number = self.wide(width)?;
                if number >> (8 * width - 1) != 0 {
                    return Err("NotUnsigned");
                }
                number
            }
            _ => return Err("NotUnsigned"),
        };
        if number <= most { Ok(number) } else { Err("OutOfRange") }
    }

    pub fn raw(&mut self, most: usize) -> Result<&'a [u8], Fault> {
        let len = match self.byte()? {
            first @ 0xa0..=0xbf => usize::from(first & 31),
            0xc0 => 0,
            first @ 0xc4..=0xc6 => self.wide(1 << (first - 0xc4))? as usize,
            first @ 0xd9..=0xdb => self.wide(1 << (first - 0xd9))? as usize,
            _ => return Err("NotRaw"),
        };
        if len <= most { self.take(len) } else { Err("TooLong") }
    }

    pub fn flag(&mut self) -> Result<bool, Fault> {
        match self.byte()? {
            0xc0 | 0xc2 => Ok(false),
            0xc3 => Ok(true),
            _ => Err("NotBool"),
        }
    }

    pub fn map(&mut self) -> Result<u64, Fault> {
        match self.byte()? {
            first @ 0x80..=0x8f => Ok(u64::from(first & 15)),
            first @ 0xde..=0xdf => self.wide(2 << (first - 0xde)),
            _ => Err("NotMap"),
        }
    }

    /// Passes over one value.
    pub fn skip(&mut self) -> Result<(), Fault> {
        let mut left = 1u64;
        while left > 0 {
            left -= 1;
            let first = self.byte()?;
            let len = match first {
                0x80..=0x8f => {
                    left += 2 * u64::from(first & 15);
                    0
                }
                0x90..=0x9f => {
                    left += u64::from(first & 15);
                    0
                }
                0xa0..=0xbf => u64::from(first & 31),
                0xc4..=0xc6 => self.wide(1 << (first - 0xc4))?,
                0xd9..=0xdb => self.wide(1 << (first - 0xd9))?,
                0xcc..=0xcf => 1 << (first - 0xcc),
                0xd0..=0xd3 => 1 << (first - 0xd0),
                0xca | 0xcb => 4 << (first - 0xca),
                0xd4..=0xd8 => 1 + (1 << (first - 0xd4)),
                0xc7..=0xc9 => 1 + self.wide(1 << (first - 0xc7))?,
                0xdc | 0xdd => {
                    left += self.wide(2 << (first - 0xdc))?;
                    0
                }
                0xde | 0xdf => {
                    left += 2 * self.wide(2 << (first - 0xde))?;
                    0
                }
                _ => 0,
            };
            self.take(len as usize)?;
        }
        Ok(())
    }
}

/// What an Alive says about its member, in the order in which details are compared.
#[derive(Clone, Copy, Default, PartialEq, Eq, PartialOrd, Ord)]
pub struct Details<'a> {
    pub addr: &'a [u8],
    pub port: u16,
    pub meta: &'a [u8],
    pub vsn: &'a [u8],
}

#[derive(Clone, Copy, PartialEq, Eq, PartialOrd, Ord)]
pub enum Kind {
    Alive,
    Suspect,
    Confirm,
    Leave,
}

#[derive(Clone, Copy)]
pub struct Claim<'a> {
    pub name: &'a [u8],
    pub kind: Kind,
    pub inc: u32,
    pub details: Details<'a>,
}

/// The values of a message's map.
#[derive(Default)]
pub struct Fields<'a> {
    pub name: &'a [u8],
    pub from: &'a [u8],
    pub inc: u32,
    pub details: Details<'a>,
    pub seq: u32,
    pub source: &'a [u8],
    pub source_addr: &'a [u8],
    pub source_port: u16,
    state: u64,
    nodes: u64,
    user_len: u64,
}

/// The keys of a message, as bits of `slot_of`.
const ALIVE: u16 = 0b0000_0001_0011_1011;
const SUSPECT: u16 = 0b0000_0001_0000_0110;
const RECORD: u16 = 0b0000_0000_1111_1011;
const HEADER: u16 = 0b0000_1110_0000_0000;

fn slot_of(key: &[u8]) -> Option<u16> {
    Some(match key {
        b"Addr" => 0,
        b"Incarnation" => 1,
        b"From" => 2,
        b"Meta" => 3,
        b"Port" => 4,
        b"Vsn" => 5,
        b"Name" => 6,
        b"State" => 7,
        b"Node" => 8,
        b"Join" => 9,
        b"Nodes" => 10,
        b"UserStateLen" => 11,
        _ => return None,
    })
}

/// The fields of a map with keys of this layout, in any order, each at most once.
fn fields<'a>(reader: &mut Reader<'a>, layout: u16) -> Result<Fields<'a>, Fault> {
    let count = reader.map()?;
    if count > u64::from(layout.count_ones()) {
        return Err("MapCount");
    }
    let (mut fields, mut seen) = (Fields::default(), 0);
    for _ in 0..count {
        let key = reader.raw(12).map_err(|fault| if fault == "TooLong" { "UnknownKey" } else { fault })?;
        let slot = slot_of(key).filter(|slot| layout >> slot & 1 == 1).ok_or("UnknownKey")?;
        if seen >> slot & 1 == 1 {
            return Err("DuplicateKey");
        }
        seen |= 1 << slot;
        match slot {
            0 => fields.details.addr = reader.raw(16)?,
            1 => fields.inc = reader.number(u32::MAX.into())? as u32,
            2 => fields.from = reader.raw(MAX_NAME)?,
            3 => fields.details.meta = reader.raw(512)?,
            4 => fields.details.port = reader.number(u16::MAX.into())? as u16,
            5 => fields.details.vsn = reader.raw(6)?,
            6 | 8 => fields.name = reader.raw(MAX_NAME)?,
            7 => fields.state = reader.number(u64::MAX)?,
            9 => drop(reader.flag()?),
            10 => fields.nodes = reader.number(u64::MAX)?,
            _ => fields.user_len = reader.number(u64::MAX)?,
        }
    }
    Ok(fields)
}

/// The fields of a map as memberlist's handlers read them: what is not known is passed over.
pub fn loose_fields<'a>(reader: &mut Reader<'a>) -> Result<Fields<'a>, Fault> {
    let mut fields = Fields::default();
    for _ in 0..reader.map()? {
        match reader.raw(usize::MAX)? {
            b"Addr" => fields.details.addr = reader.raw(usize::MAX)?,
            b"Incarnation" => fields.inc = reader.number(u32::MAX.into())? as u32,
            b"From" => fields.from = reader.raw(usize::MAX)?,
            b"Meta" => fields.details.meta = reader.raw(usize::MAX)?,
            b"Node" => fields.name = reader.raw(usize::MAX)?,
            b"Port" => fields.details.port = reader.number(u16::MAX.into())? as u16,
            b"Vsn" => fields.details.vsn = reader.raw(usize::MAX)?,
            b"SeqNo" => fields.seq = reader.number(u32::MAX.into())? as u32,
            b"SourceNode" => fields.source = reader.raw(usize::MAX)?,
            b"SourceAddr" => fields.source_addr = reader.raw(usize::MAX)?,
            b"SourcePort" => fields.source_port = reader.number(u16::MAX.into())? as u16,
            _ => reader.skip()?,
        }
    }
    Ok(fields)
}

impl Fields<'_> {
    /// Whether a claim can be made of them.
    pub fn is_claim(&self, is_alive: bool) -> bool {
        let Details { addr, meta, vsn, .. } = self.details;
        let is_sound = matches!(addr.len(), 4 | 16) && meta.len() <= 512 && matches!(vsn.len(), 0 | 6);
        (1..=MAX_NAME).contains(&self.name.len()) && self.from.len() <= MAX_NAME && (!is_alive || is_sound)
    }
}

/// The claim of these fields, which is checked as a whole.
fn claim_of(fields: Fields, kind: Kind) -> Result<Claim, Fault> {
    let Fields { name, inc, details, .. } = fields;
    if name.is_empty() {
        return Err("NameEmpty");
    }
    if kind != Kind::Alive {
        return Ok(Claim { name, kind, inc, details: Details::default() });
    }
    if !matches!(details.addr.len(), 4 | 16) {
        return Err("BadAddress");
    }
    if !matches!(details.vsn.len(), 0 | 6) {
        return Err("BadVersions");
    }
    Ok(Claim { name, kind, inc, details })
}

/// The kind of a packet's claim, by its type byte and whom it names.
pub fn kind_of(first: u8, fields: &Fields) -> Kind {
    match first {
        3 => Kind::Suspect,
        4 => Kind::Alive,
        _ if fields.from == fields.name => Kind::Leave,
        _ => Kind::Confirm,
    }
}

pub fn packet(bytes: &[u8]) -> Result<Claim<'_>, Fault> {
    let mut reader = Reader(bytes);
    let first = reader.byte()?;
    let layout = match first {
        3 | 5 => SUSPECT,
        4 => ALIVE,
        _ => return Err("WrongType"),
    };
    let fields = fields(&mut reader, layout)?;
    let kind = kind_of(first, &fields);
    let claim = claim_of(fields, kind)?;
    if reader.0.is_empty() { Ok(claim) } else { Err("Trailing") }
}

/// Gives the claims of a packet or compound packet, in their order.
pub fn datagram<'a>(bytes: &'a [u8], mut take: impl FnMut(Claim<'a>)) -> Result<(), Fault> {
    if bytes.first() != Some(&7) {
        take(packet(bytes)?);
        return Ok(());
    }
    let mut reader = Reader(&bytes[1..]);
    let count = reader.byte()?;
    let lengths = reader.take(2 * usize::from(count))?;
    for length in lengths.chunks_exact(2) {
        let part = reader.take(usize::from(u16::from_be_bytes([length[0], length[1]])))?;
        if let Some(3..=5) = part.first() {
            take(packet(part)?);
        }
    }
    if reader.0.is_empty() { Ok(()) } else { Err("Trailing") }
}

/// Gives the claims of a push/pull stream with nothing behind it.
pub fn stream<'a>(bytes: &'a [u8], mut take: impl FnMut(Claim<'a>)) -> Result<(), Fault> {
    let mut reader = Reader(bytes);
    if reader.byte()? != 6 {
        return Err("WrongType");
    }
    let header = fields(&mut reader, HEADER)?;
    if header.nodes > 131_072 {
        return Err("TooManyNodes");
    }
    if header.user_len > 20_971_520 {
        return Err("UserTooLong");
    }
    for _ in 0..header.nodes {
        let fields = fields(&mut reader, RECORD)?;
        let kind = match fields.state {
            0 => Kind::Alive,
            1 => Kind::Suspect,
            2 => Kind::Confirm,
            3 => Kind::Leave,
            _ => return Err("BadState"),
        };
        take(claim_of(fields, kind)?);
    }
    reader.take(header.user_len as usize)?;
    if reader.0.is_empty() { Ok(()) } else { Err("Trailing") }
}

// ---- canonical bytes

pub fn write_number(out: &mut Vec<u8>, number: u64) {
    let bytes = number.to_be_bytes();
    match number {
        0..=0x7f => out.push(number as u8),
        0..=0xff => out.extend([0xcc, number as u8]),
        0..=0xffff => {
            out.push(0xcd);
            out.extend_from_slice(&bytes[6..]);
        }
        0..=0xffff_ffff => {
            out.push(0xce);
            out.extend_from_slice(&bytes[4..]);
        }
        _ => {
            out.push(0xcf);
            out.extend_from_slice(&bytes);
        }
    }
}

pub fn write_raw(out: &mut Vec<u8>, bytes: &[u8]) {
    if bytes.len() < 32 {
        out.push(0xa0 | bytes.len() as u8);
    } else {
        out.push(0xda);
        out.extend_from_slice(&(bytes.len() as u16).to_be_bytes());
    }
    out.extend_from_slice(bytes);
}

pub fn write_record(out: &mut Vec<u8>, name: &[u8], inc: u32, details: &Details, state: u8) {
    out.extend_from_slice(b"\x87\xa4Addr");
    write_raw(out, details.addr);
    out.extend_from_slice(b"\xabIncarnation");
    write_number(out, inc.into());
    out.extend_from_slice(b"\xa4Meta");
    write_raw(out, details.meta);
    out.extend_from_slice(b"\xa4Name");
    write_raw(out, name);
    out.extend_from_slice(b"\xa4Port");
    write_number(out, details.port.into());
    out.extend_from_slice(b"\xa5State");
    out.push(state);
    out.extend_from_slice(b"\xa3Vsn");
    write_raw(out, details.vsn);
}

pub fn write_header(out: &mut Vec<u8>, records: usize) {
    out.extend_from_slice(b"\x06\x83\xa4Join\xc2\xa5Nodes");
    write_number(out, records as u64);
    out.extend_from_slice(b"\xacUserStateLen\0");
}
