//! Writes a dump of so many packets of twelve APIDs: `dumps FILE PACKETS`, or `dumps FILE PACKETS days`.
//!
//! Two thirds of the packets are the first link's, in order of time but for playback, which comes hours late and between real time. The
//! last third is the second link's, and repeats packets of the first. One packet in fifty is idle, one in a thousand a telecommand.
//!
//! With `days` it has packets of 16 octets, one a second, of one link alone, with the same playback, none idle, none repeated.

use std::io::{BufWriter, Write};

/// A packet with so many octets behind its primary header.
fn packet(g: u64, seconds: u64, length: usize) -> Vec<u8> {
    let apid = 1 + (g % 12) as u16;
    let telecommand = if g % 1000 == 999 { 0x1000 } else { 0 };
    let mut p = Vec::with_capacity(6 + length);
    p.extend_from_slice(&(0x0800u16 | telecommand | apid).to_be_bytes());
    p.extend_from_slice(&(0xC000u16 | (g / 12 % 16_384) as u16).to_be_bytes());
    p.extend_from_slice(&((length - 1) as u16).to_be_bytes());
    p.extend_from_slice(&(seconds as u32).to_be_bytes());
    p.extend_from_slice(&((g % 8 * 8192) as u16).to_be_bytes());
    for i in 6..length {
        p.push((g as usize * 31 + i) as u8);
    }
    p
}

fn idle() -> Vec<u8> {
    let mut p = vec![0x07, 0xFF, 0xC0, 0, 0, 31];
    p.resize(38, 0);
    p
}

/// The time of the first packet, in seconds.
const START: u64 = 1_772_352_000;

/// By how many seconds a packet comes late: every second block of 500 packets is playback of six hours before.
fn late(g: u64) -> u64 {
    if g / 500 % 2 == 1 { 21_600 } else { 0 }
}

fn two_links(packets: u64, out: &mut impl Write) {
    let first = packets * 2 / 3;
    for g in 0..packets {
        // the second link hears again what the first heard
        let h = if g < first { g } else { (g - first) * 2 };
        let length = 10 + (h.wrapping_mul(2_654_435_761) >> 7) as usize % 200;
        let p = if g % 50 == 49 { idle() } else { packet(h, START + h / 8 - late(h), length) };
        out.write_all(&p).unwrap();
    }
}

fn days(packets: u64, out: &mut impl Write) {
    for g in 0..packets {
        out.write_all(&packet(g, START + g - late(g), 10)).unwrap();
    }
}

fn main() {
    let words: Vec<String> = std::env::args().collect();
    let packets: u64 = words[2].parse().unwrap();
    let mut out = BufWriter::new(std::fs::File::create(&words[1]).unwrap());
    match words.get(3).map(String::as_str) {
        Some("days") => days(packets, &mut out),
        _ => two_links(packets, &mut out),
    }
}
