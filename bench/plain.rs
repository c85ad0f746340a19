//! A plain program that does what `rpkibasic again` does, as a measure: it reads signed data from standard input, walks
//! the signed value with a stack of ends, reads the algorithm and the signature, and writes all of it again.

use std::fs::File;
use std::io::{Read, Write};
use std::os::fd::AsFd;

struct Header {
    first: u8,
    size: usize,
    length: usize,
}

fn header(octets: &[u8]) -> Option<Header> {
    let first = *octets.first()?;
    let mut at = 1;
    if first & 0x1f == 0x1f {
        let mut number: u32 = 0;
        loop {
            let octet = *octets.get(at)?;
            at += 1;
            number = number.checked_mul(128)? + u32::from(octet & 0x7f);
            if number == 0 || at > 5 {
                return None;
            }
            if octet < 0x80 {
                break;
            }
        }
        if number < 31 {
            return None;
        }
    } else if first & 0xdf == 0 {
        return None;
    }
    let octet = *octets.get(at)?;
    at += 1;
    let mut length = usize::from(octet);
    if octet >= 0x80 {
        let count = usize::from(octet & 0x7f);
        if count == 0 || count > 4 {
            return None;
        }
        length = 0;
        for _ in 0..count {
            length = length * 256 + usize::from(*octets.get(at)?);
            at += 1;
            if length == 0 {
                return None;
            }
        }
        if length < 128 {
            return None;
        }
    }
    Some(Header { first, size: at, length })
}

fn whole(octets: &[u8]) -> Option<Header> {
    let found = header(octets)?;
    if octets.len() - found.size < found.length {
        return None;
    }
    Some(found)
}

/// How many octets the value in front takes.
fn walk(octets: &[u8]) -> Option<usize> {
    let first = whole(octets)?;
    let mut place = first.size;
    if first.first & 0x20 == 0 {
        return Some(place + first.length);
    }
    let mut ends = vec![place + first.length];
    while let Some(&end) = ends.last() {
        if place == end {
            ends.pop();
            continue;
        }
        let found = whole(&octets[place..end])?;
        place += found.size;
        if found.first & 0x20 == 0 {
            place += found.length;
        } else {
            ends.push(place + found.length);
        }
    }
    Some(place)
}

fn push_header(out: &mut Vec<u8>, first: u8, length: usize) {
    out.push(first);
    if length < 128 {
        out.push(length as u8);
        return;
    }
    let octets = (length as u32).to_be_bytes();
    let skip = octets.iter().take_while(|octet| **octet == 0).count();
    out.push(0x80 + (4 - skip) as u8);
    out.extend_from_slice(&octets[skip..]);
}

const ALGORITHM: &[u8] = &[
    0x30, 0x0d, 0x06, 0x09, 0x2a, 0x86, 0x48, 0x86, 0xf7, 0x0d, 0x01, 0x01, 0x0b, 0x05, 0x00,
];

fn again(input: &[u8]) -> Option<Vec<u8>> {
    let outer = whole(input)?;
    if outer.first != 0x30 || outer.size + outer.length != input.len() {
        return None;
    }
    let contents = &input[outer.size..];
    let signed = walk(contents)?;
    let rest = contents[signed..].strip_prefix(ALGORITHM)?;
    let bits = whole(rest)?;
    if bits.first != 0x03 || bits.size + bits.length != rest.len() || bits.length == 0 {
        return None;
    }
    let value = &rest[bits.size + 1..];
    let mut inner = Vec::new();
    push_header(&mut inner, 0x03, value.len() + 1);
    let length = signed + ALGORITHM.len() + inner.len() + 1 + value.len();
    let mut out = Vec::with_capacity(length + 6);
    push_header(&mut out, 0x30, length);
    out.extend_from_slice(&contents[..signed]);
    out.extend_from_slice(ALGORITHM);
    out.extend_from_slice(&inner);
    out.push(0);
    out.extend_from_slice(value);
    Some(out)
}

fn main() {
    let mut input = Vec::new();
    std::io::stdin().read_to_end(&mut input).expect("input");
    let out = again(&input).expect("signed data");
    // As a file: std's `Stdout` looks for the ends of lines in what goes through it.
    let output = std::io::stdout().as_fd().try_clone_to_owned().expect("output");
    File::from(output).write_all(&out).expect("output");
}
