//! What `pmb decode` does, by a plain Rust program without proofs: line by line over a text in memory, from standard input to
//! standard output. bench/times.py builds it and compares the two.
use std::collections::HashMap;
use std::fmt::Write;
use std::io::{Read, Write as _};

struct Info(&'static str, usize, bool, bool);

fn info(code: u8) -> Option<Info> {
    Some(match code {
        0x00 => Info("PAGE", 1, true, true),
        0x01 => Info("OPERATION", 1, true, true),
        0x03 => Info("CLEAR_FAULTS", 0, false, true),
        0x05 => Info("PAGE_PLUS_WRITE", 0, false, true),
        0x06 => Info("PAGE_PLUS_READ", 0, true, false),
        0x10 => Info("WRITE_PROTECT", 1, true, true),
        0x20 => Info("VOUT_MODE", 1, true, false),
        0x21 => Info("VOUT_COMMAND", 2, true, true),
        0x30 => Info("COEFFICIENTS", 0, true, false),
        0x8B => Info("READ_VOUT", 2, true, false),
        _ => return None,
    })
}

fn pec(mut code: u8, bytes: &[u8], table: &[u8; 256]) -> u8 {
    for byte in bytes {
        code = table[(code ^ byte) as usize];
    }
    code
}

// The bytes of a part, or None for a word that isn't an even number of digits.
fn part(text: &str, bytes: &mut Vec<u8>) -> Option<()> {
    bytes.clear();
    for word in text.split(' ') {
        if word.len() % 2 == 1 {
            return None;
        }
        for pair in word.as_bytes().chunks(2) {
            let high = (pair[0] as char).to_digit(16)?;
            let low = (pair[1] as char).to_digit(16)?;
            bytes.push((high * 16 + low) as u8);
        }
    }
    Some(())
}

fn write_says(bytes: &[u8], table: &[u8; 256]) -> Result<(Option<u8>, u8, usize), String> {
    let short = || format!("F2 Short {}", bytes.len());
    if bytes.len() < 3 {
        return Err(short());
    }
    let code = bytes[1];
    let wanted = match info(code) {
        Some(Info(_, length, _, true)) if code != 5 => length + 3,
        _ if code == 5 => bytes[2] as usize + 4,
        _ => bytes.len(),
    };
    if bytes.len() < wanted {
        return Err(short());
    }
    if bytes.len() > wanted {
        return Err(format!("F3 Long {wanted}"));
    }
    let last = bytes.len() - 1;
    if pec(0, &bytes[..last], table) != bytes[last] {
        return Err(format!("F5 WrongPec {last}"));
    }
    match code {
        5 => Ok((Some(bytes[3]), bytes[4], 5)),
        _ => Ok((None, code, 2)),
    }
}

fn read_says(
    write: &[u8],
    read: &[u8],
    table: &[u8; 256],
) -> Result<(Option<u8>, u8, usize), String> {
    if write.len() < 2 {
        return Err("write F2 Short 1".to_string());
    }
    let plain = write[1] != 6;
    let code = if plain { write[1] } else { write[4] };
    let Some(Info(_, length, true, _)) = info(code) else {
        return Err("write F6 UnknownCode 1".to_string());
    };
    let wanted = length + if plain { 2 } else { 3 };
    if read.len() != wanted {
        return Err(format!("read F2 Short {}", read.len()));
    }
    let last = read.len() - 1;
    if pec(pec(0, write, table), &read[..last], table) != read[last] {
        return Err(format!("read F5 WrongPec {last}"));
    }
    if plain {
        Ok((None, code, 1))
    } else {
        Ok((Some(write[3]), code, 2))
    }
}

fn decode(text: &str, table: &[u8; 256]) -> String {
    let mut out = String::new();
    let (mut write, mut read) = (Vec::new(), Vec::new());
    let (mut accepted, mut faults, mut bad, mut lines) = (0, 0, 0, 0);
    let mut order = Vec::new();
    let mut counts: HashMap<u8, u64> = HashMap::new();
    for (place, line) in text.lines().enumerate() {
        if line.trim_matches(' ').is_empty() || line.starts_with('#') {
            continue;
        }
        lines += 1;
        let (front, back) = match line.split_once('/') {
            Some((front, back)) => (front, Some(back)),
            None => (line, None),
        };
        let number = place + 1;
        let fine = part(front, &mut write).is_some()
            && back.is_none_or(|back| part(back, &mut read).is_some());
        if !fine {
            bad += 1;
            writeln!(out, "{number} X2 BadHex").unwrap();
            continue;
        }
        let addr = write.first().map_or(0, |byte| byte / 2);
        let says = match back {
            None => write_says(&write, table).map_err(|fault| format!("write {fault}")),
            Some(_) => read_says(&write, &read, table),
        };
        match says {
            Ok((page, code, start)) => {
                accepted += 1;
                if !counts.contains_key(&code) {
                    order.push(code);
                }
                *counts.entry(code).or_insert(0) += 1;
                write!(out, "{number} {addr:02X} ").unwrap();
                if let Some(page) = page {
                    write!(out, "page {page} ").unwrap();
                }
                let bytes = if back.is_some() { &read } else { &write };
                let way = if back.is_some() { "read" } else { "write" };
                write!(out, "{} {way} ", info(code).map_or("", |line| line.0)).unwrap();
                for byte in bytes[start..bytes.len() - 1].iter().rev() {
                    write!(out, "{byte:02X}").unwrap();
                }
                out.push('\n');
            }
            Err(fault) => {
                faults += 1;
                writeln!(out, "{number} {addr:02X} {fault}").unwrap();
            }
        }
    }
    for code in order {
        writeln!(out, "count {} {}", info(code).map_or("", |line| line.0), counts[&code]).unwrap();
    }
    writeln!(out, "lines {lines} accepted {accepted} faults {faults} bad {bad}").unwrap();
    out
}

// The packet error code of each byte.
fn codes() -> [u8; 256] {
    let mut table = [0; 256];
    for (place, entry) in table.iter_mut().enumerate() {
        let mut code = place as u8;
        for _ in 0..8 {
            code = (code << 1) ^ if code > 127 { 7 } else { 0 };
        }
        *entry = code;
    }
    table
}

fn main() {
    let mut text = String::new();
    std::io::stdin().read_to_string(&mut text).unwrap();
    std::io::stdout().write_all(decode(&text, &codes()).as_bytes()).unwrap();
}
