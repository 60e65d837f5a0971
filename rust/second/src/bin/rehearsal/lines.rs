//! How things are written: docs/REHEARSAL.md, the section of that name.
//!   value           eight hexadecimal digits
//!   said, answer    what a call said; what an arriving frame met
//!   digest          of some words
//!   state           the digest of the state's numbers
//!   memory          the digest of all lent words

use second::{Expects, Said, Second};

/// The page's VALUE.
pub fn value(word: u32) -> String {
    format!("{word:08x}")
}

/// The page's SAID.
pub fn said(said: Said) -> String {
    format!("{} {}", said.refusal, value(said.value))
}

/// The page's ANSWER. `arrive` says no other numbers than these; one that it
/// should not say is written so that no line of the page can be equal to it.
pub fn answer(said: Said) -> String {
    match (said.refusal, said.value) {
        (0, 3) => "Ignored".to_string(),
        (0, 4) => "Discarded".to_string(),
        (0, 5) => "Filtered".to_string(),
        (0, 6) => "Dropped".to_string(),
        (0, 7) => "Stored".to_string(),
        (0, other) => format!("no answer of the page: {other}"),
        (refusal, _) => format!("refused {refusal}"),
    }
}

/// "d begins at 0; for each word w in turn e is (d turned left by 5 bits) + w,
/// mod 2^32, and d becomes the exclusive or of e and e shifted right by 13 bits"
pub fn digest(words: &[u32]) -> String {
    value(words.iter().fold(0, |d, w| with(d, *w)))
}

/// A digest with one word more.
pub fn with(d: u32, w: u32) -> u32 {
    let e = d.rotate_left(5).wrapping_add(w);
    e ^ (e >> 13)
}

/// The digest of the state's numbers, group after group in the page's order.
pub fn state(second: &Second) -> String {
    let registers = &second.registers;
    let mut numbers = vec![
        registers.n,
        registers.mac_cr,
        registers.addrh,
        registers.addrl,
        registers.hashh,
        registers.hashl,
        registers.drops,
    ];
    numbers.extend(expected(second.port.expects));
    numbers.extend([u32::from(second.port.error), second.port.whole]);
    for ring in [
        second.tx_data,
        second.tx_status,
        second.rx_data,
        second.rx_status,
    ] {
        numbers.extend([ring.place, ring.count]);
    }
    digest(&numbers)
}

/// "what the port expects (0 an A, 1 a B, 2 payload words), the A held (0 if
/// none), the payload words left (0 if none), the first B of the open packet (0
/// if none is known), its sizes so far (0 if none)"
fn expected(expects: Expects) -> [u32; 5] {
    let (which, a, left, open) = match expects {
        Expects::A { open } => (0, 0, 0, open),
        Expects::B { a, open } => (1, a, 0, open),
        Expects::Rest { a, left, open } => (2, a, left, Some(open)),
    };
    let (b, sizes) = open.map_or((0, 0), |open| (open.b, open.sizes));
    [which, a, left, b, sizes]
}

/// However many words are lent.
pub fn memory(second: &Second) -> String {
    digest(&second.memory)
}
