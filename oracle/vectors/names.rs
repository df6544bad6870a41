//! `cases_names`, by the Rust's own `Link::parse` and `Link::name`. That a byte outside ASCII is unknown is document 01's: the Rust reads text.
use super::family::LINKS;
use crate::family::Link;

/// The code of the link that the bytes name, 7 where they name none.
fn parse(name: &[u8]) -> usize {
    match std::str::from_utf8(name) {
        Ok(text) if text.is_ascii() => Link::parse(text).map_or(7, |link| link as usize),
        _ => 7,
    }
}

pub fn put() {
    let groups: [&[&[u8]]; 4] = [
        &[b"logit", b"probit", b"cloglog", b"log", b"identity", b"inverse", b"sqrt"],
        &[b" \t\n\x0b\x0c\rLoGiT \r\n", b"CLOGLOG", b"SQRT", b"Identity\0", b"\x08log", b"log\x0e"],
        &[b"", b"   ", b"logi", b"logits", b"log it"],
        &[b"l\xf6g", b"\xa0log", b"log\x85", b"\xc3\x89log"],
    ];
    for group in groups {
        print!("parse");
        for name in group {
            print!(" {}", parse(name));
        }
        println!();
    }
    for link in LINKS {
        let name = link.name().as_bytes();
        print!("name {}", name.len());
        for at in 0..8 {
            print!(" {}", name.get(at).unwrap_or(&0));
        }
        println!();
    }
}
