//! The work of swimtab and swimwatch as plain Rust, to compare their speed with:
//! `plain list|merge|timeline FILE..`, `plain packets`, and `plain calls take|known|finish|again NAMES`.

mod calls;
mod pack;
mod table;
mod timeline;
mod view;

use std::io::Write;
use std::process::exit;

fn refused(place: &str, fault: &str) -> ! {
    eprintln!("plain: {place}: {fault}");
    exit(3)
}

fn read(path: &str) -> Vec<u8> {
    std::fs::read(path).unwrap_or_else(|fault| refused(path, &fault.to_string()))
}

/// The claims of all these streams.
fn claims_of<'a>(paths: &[String], files: &'a [Vec<u8>]) -> Vec<pack::Claim<'a>> {
    let mut claims = Vec::new();
    for (path, bytes) in paths.iter().zip(files) {
        pack::stream(bytes, |claim| claims.push(claim)).unwrap_or_else(|fault| refused(path, fault));
    }
    claims
}

/// Puts the bytes of a line in hexadecimal where the line begins, and returns how many there are.
fn decode_hex(line: &mut [u8]) -> Option<usize> {
    const NONE: u8 = 255;
    static DIGITS: [u8; 256] = {
        let mut digits = [NONE; 256];
        let mut at = 0;
        while at < 16 {
            digits[b"0123456789abcdef"[at] as usize] = at as u8;
            digits[b"0123456789ABCDEF"[at] as usize] = at as u8;
            at += 1;
        }
        digits
    };
    let mut all = 0;
    for at in 0..line.len() / 2 {
        let (high, low) = (DIGITS[usize::from(line[2 * at])], DIGITS[usize::from(line[2 * at + 1])]);
        all |= high | low;
        line[at] = high << 4 | low;
    }
    (all < 16 && line.len() % 2 == 0).then_some(line.len() / 2)
}

/// The listing of packets in hexadecimal, one on each line, or the first faulty line.
fn packets(input: &mut [u8]) -> Result<Vec<u8>, (usize, pack::Fault)> {
    let mut lines = Vec::new();
    let mut bad_hex = None;
    for (line, number) in input.split_mut(|byte| *byte == b'\n').zip(1..) {
        let len = if line.last() == Some(&b'\r') { line.len() - 1 } else { line.len() };
        match decode_hex(&mut line[..len]) {
            Some(len) => lines.push(&line[..len]),
            None => {
                bad_hex = Some((number, "BadHex"));
                break;
            }
        }
    }
    let mut table = table::Gathered::default();
    for (line, number) in lines.into_iter().zip(1..).filter(|(line, _)| !line.is_empty()) {
        pack::datagram(line, |claim| table.take(&claim)).map_err(|fault| (number, fault))?;
    }
    bad_hex.map_or_else(|| Ok(table::listing(&table.sorted())), Err)
}

fn main() {
    let words: Vec<String> = std::env::args().skip(1).collect();
    let Some((verb, paths)) = words.split_first() else { exit(2) };
    let shown = match verb.as_str() {
        "list" | "merge" => {
            let files: Vec<Vec<u8>> = paths.iter().map(|path| read(path)).collect();
            let table = table::table_of(&claims_of(paths, &files));
            if verb == "list" { table::listing(&table) } else { table::dump(&table) }
        }
        "packets" => {
            let mut input = read("/dev/stdin");
            packets(&mut input).unwrap_or_else(|(line, fault)| refused(&format!("line {line}"), fault))
        }
        "timeline" => {
            let mut out = std::io::stdout().lock();
            for path in paths {
                let give = |text: &[u8]| out.write_all(text).unwrap_or_else(|_| exit(4));
                timeline::timeline(&read(path), give).unwrap_or_else(|fault| refused(path, fault));
            }
            return;
        }
        "calls" => match paths {
            [shape, count] => match calls::nanoseconds_of(shape, count.parse().unwrap_or(0)) {
                Some(took) => format!("{took}\n").into_bytes(),
                None => exit(3),
            },
            _ => exit(2),
        },
        _ => exit(2),
    };
    if std::io::stdout().write_all(&shown).is_err() {
        exit(4);
    }
}
