//! What the tests share: states, frames, packets, and a list of all calls.
//! The FCS here is a second one, shifted right (EDB88320h), so that a slip in
//! the program's own does not hide itself.
#![allow(dead_code)]

use second::{Said, Second};

pub const RXALL: u32 = 1 << 31;
pub const FDPX: u32 = 1 << 20;
pub const MCPAS: u32 = 1 << 19;
pub const PRMS: u32 = 1 << 18;
pub const INVFILT: u32 = 1 << 17;
pub const PASSBAD: u32 = 1 << 16;
pub const HO: u32 = 1 << 15;
pub const HPFILT: u32 = 1 << 13;
pub const BCAST: u32 = 1 << 11;
pub const TXEN: u32 = 1 << 3;
pub const RXEN: u32 = 1 << 2;

pub const FIRST: u32 = 1 << 13;
pub const LAST: u32 = 1 << 12;
pub const NO_CRC: u32 = 1 << 13;
pub const NO_PADDING: u32 = 1 << 12;

pub const IGNORED: u32 = 3;
pub const DISCARDED: u32 = 4;
pub const FILTERED: u32 = 5;
pub const DROPPED: u32 = 6;
pub const STORED: u32 = 7;

/// 01, row 12: the address 02-11-22-33-44-55
pub const OURS: [u8; 6] = [0x02, 0x11, 0x22, 0x33, 0x44, 0x55];
pub const ANOTHER: [u8; 6] = [0x02, 0x11, 0x22, 0x33, 0x44, 0x56];
pub const GROUP: [u8; 6] = [0x01, 0x00, 0x5E, 0x00, 0x00, 0x01];
pub const BROADCAST: [u8; 6] = [0xFF; 6];

/// What lies in the memory before anything is put there.
pub const OLD: u32 = 0xA5C3_96E1;

pub fn took(value: u32) -> Said {
    Said { refusal: 0, value }
}

pub fn refused(refusal: u32) -> Said {
    Said { refusal, value: 0 }
}

pub fn fresh() -> Second {
    Second::fresh(vec![OLD; 4096])
}

/// Fresh, with this MAC_CR and the address of row 12.
pub fn with_mac_cr(mac_cr: u32) -> Second {
    let mut second = fresh();
    assert_eq!(second.mac_write(3, 0x3322_1102), took(0));
    assert_eq!(second.mac_write(2, 0x0000_5544), took(0));
    assert_eq!(second.mac_write(1, mac_cr), took(0));
    second
}

/// With n set to this before anything is enabled.
pub fn with_split(n: u32, mac_cr: u32) -> Second {
    let mut second = with_mac_cr(0);
    assert_eq!(second.set_split(n), took(0));
    assert_eq!(second.mac_write(1, mac_cr), took(0));
    second
}

pub fn check_of(bytes: &[u8]) -> u32 {
    let mut register = u32::MAX;
    for byte in bytes {
        register ^= u32::from(*byte);
        for _ in 0..8 {
            register = if register & 1 == 1 {
                (register >> 1) ^ 0xEDB8_8320
            } else {
                register >> 1
            };
        }
    }
    !register
}

/// A frame of `len` bytes, 18 or more, with a good FCS.
pub fn frame(len: usize, to: [u8; 6], v: u16) -> Vec<u8> {
    let mut bytes: Vec<u8> = to.to_vec();
    bytes.extend([0x02, 0xAA, 0xBB, 0xCC, 0xDD, 0xEE]);
    bytes.extend(v.to_be_bytes());
    while bytes.len() < len - 4 {
        bytes.push((bytes.len() * 7 + 1) as u8);
    }
    bytes.extend(check_of(&bytes).to_le_bytes());
    bytes
}

/// The status of this frame, alone in a fresh state under this MAC_CR.
pub fn status_of(mac_cr: u32, bytes: &[u8], flags: u32) -> u32 {
    let mut second = with_mac_cr(mac_cr);
    assert_eq!(second.arrive(bytes, flags), took(STORED));
    second.rx_status_pop().value
}

/// 01: "25-24 end alignment", "20-16 start offset o", "10-0 size s"
pub fn a(alignment: u32, offset: u32, marks: u32, size: u32) -> u32 {
    alignment << 24 | offset << 16 | marks | size
}

/// 01: "31-16 tag", "10-0 packet length p"
pub fn b(tag: u32, marks: u32, p: u32) -> u32 {
    tag << 16 | marks | p
}

/// Writes these words, each of which the port takes.
pub fn write(second: &mut Second, words: &[u32]) {
    for (k, word) in words.iter().enumerate() {
        assert_eq!(second.tx_word(*word), took(0), "word {k}, {word:08X}h");
    }
}

/// A packet in one aligned buffer at offset 0.
pub fn write_packet(second: &mut Second, tag: u32, marks: u32, bytes: &[u8]) {
    let p = bytes.len() as u32;
    write(second, &[a(0, 0, FIRST | LAST, p), b(tag, marks, p)]);
    write(second, &words_of(bytes));
}

pub fn words_of(bytes: &[u8]) -> Vec<u32> {
    bytes
        .chunks(4)
        .map(|four| {
            four.iter()
                .rev()
                .fold(0, |word, byte| word << 8 | u32::from(*byte))
        })
        .collect()
}

/// Sends and answers the frame.
pub fn sent(second: &mut Second, outcome: u32) -> Vec<u8> {
    let mut out = vec![0xEE; 1600];
    let said = second.send(outcome, &mut out);
    assert_eq!(said.refusal, 0);
    let length = said.value as usize;
    assert!(
        out[length..].iter().all(|byte| *byte == 0xEE),
        "the rest stays"
    );
    out.truncate(length);
    out
}

/// Bytes that are all different from their neighbours.
pub fn bytes(count: usize) -> Vec<u8> {
    (0..count).map(|k| (k * 5 + 3) as u8).collect()
}

pub type Call = (&'static str, fn(&mut Second) -> Said);

/// Every call but reset, with inputs that a fresh state has nothing against
/// save 10 and 11.
pub const CALLS: [Call; 18] = [
    ("mac_write", |s| s.mac_write(4, 1)),
    ("mac_read", |s| s.mac_read(1)),
    ("set_split", |s| s.set_split(5)),
    ("split", |s| s.split()),
    ("rx_fifo_inf", |s| s.rx_fifo_inf()),
    ("tx_fifo_inf", |s| s.tx_fifo_inf()),
    ("rx_drop", |s| s.rx_drop()),
    ("dump_tx_data", |s| s.dump_tx_data()),
    ("dump_tx_status", |s| s.dump_tx_status()),
    ("dump_rx", |s| s.dump_rx()),
    ("arrive", |s| s.arrive(&frame(64, BROADCAST, 0x0800), 0)),
    ("rx_data_read", |s| s.rx_data_read()),
    ("rx_status_pop", |s| s.rx_status_pop()),
    ("rx_status_peek", |s| s.rx_status_peek()),
    ("tx_word", |s| s.tx_word(a(0, 0, FIRST | LAST, 1))),
    ("send", |s| s.send(0, &mut [0; 1518])),
    ("tx_status_pop", |s| s.tx_status_pop()),
    ("tx_status_peek", |s| s.tx_status_peek()),
];

/// The same calls with everything wrong about their inputs that can be.
pub const BAD_CALLS: [Call; 9] = [
    ("mac_write no register", |s| s.mac_write(0, u32::MAX)),
    ("mac_write bad value", |s| s.mac_write(1, u32::MAX)),
    ("mac_read", |s| s.mac_read(6)),
    ("set_split", |s| s.set_split(15)),
    ("arrive length", |s| s.arrive(&[], u32::MAX)),
    ("arrive flags", |s| s.arrive(&[0; 64], u32::MAX)),
    ("tx_word", |s| s.tx_word(0)),
    ("send", |s| s.send(u32::MAX, &mut [])),
    ("send outcome", |s| s.send(2, &mut [0; 1518])),
];
