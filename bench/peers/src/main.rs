//! Reads a value with der-parser, as `ber parse` does: `der_peer hold` takes its octets alone, and `der_peer parse` reads
//! it into a tree, whose contents stay where they are. Both write how many octets there are.

use std::io::{Read, Write};

fn main() {
    let mut octets = Vec::new();
    std::io::stdin().read_to_end(&mut octets).expect("input");
    let count = match std::env::args().nth(1).as_deref() {
        Some("hold") => octets.len(),
        Some("parse") => {
            let (rest, value) = der_parser::parse_ber(&octets).expect("a value");
            std::hint::black_box(&value);
            octets.len() - rest.len()
        }
        _ => std::process::exit(2),
    };
    writeln!(std::io::stdout(), "{count}").expect("output");
}
