//! The receive filter. 01, An arriving frame, "Filter".

mod common;
use common::*;

/// The five mode bits from a number, MCPAS highest.
fn setting(mode: u32) -> u32 {
    let bit = |place: u32, mask: u32| if mode >> place & 1 == 1 { mask } else { 0 };
    bit(4, MCPAS) | bit(3, PRMS) | bit(2, INVFILT) | bit(1, HO) | bit(0, HPFILT)
}

/// What 01's table says of a setting: for group addresses, for individual ones.
/// Written out one by one, `e` equal, `n` not equal, `h` hash, `p` pass.
const TABLE: [(u32, &str); 15] = [
    (0b00000, "ee"),
    (0b00001, "he"),
    (0b00011, "hh"),
    (0b00100, "nn"),
    (0b01000, "pp"),
    (0b01001, "pp"),
    (0b01010, "pp"),
    (0b01011, "pp"),
    (0b11000, "pp"),
    (0b11001, "pp"),
    (0b11010, "pp"),
    (0b11011, "pp"),
    (0b10000, "pe"),
    (0b10001, "pe"),
    (0b10011, "ph"),
];

fn passes(mac_cr: u32, ours: [u8; 6], hash: bool, to: [u8; 6]) -> bool {
    let mut second = fresh();
    let [q, r, s, t, u, v] = ours;
    second.mac_write(3, u32::from_le_bytes([q, r, s, t]));
    second.mac_write(2, u32::from_le_bytes([u, v, 0, 0]));
    let table = if hash { u32::MAX } else { 0 };
    second.mac_write(4, table);
    second.mac_write(5, table);
    assert_eq!(second.mac_write(1, mac_cr | RXEN), took(0));
    match second.arrive(&frame(64, to, 0x0800), 0).value {
        STORED => true,
        FILTERED => false,
        other => panic!("answered {other}"),
    }
}

// 01: "Of the table of the 32 settings 15 are defined; writing one of the other
// 17 is a bad value."
#[test]
fn fifteen_settings_are_taken_and_seventeen_are_bad_values() {
    let mut taken = 0;
    for mode in 0..32 {
        let said = fresh().mac_write(1, setting(mode));
        let defined = TABLE.iter().any(|row| row.0 == mode);
        assert_eq!(
            said,
            if defined { took(0) } else { refused(4) },
            "{mode:05b}"
        );
        taken += u32::from(defined);
    }
    assert_eq!(taken, 15);
}

// 01, the filter's table, every defined setting against group and individual
// addresses, equal or not, with and without their hash bit
#[test]
fn each_defined_setting_judges_as_its_row() {
    for (mode, rules) in TABLE {
        for to in [GROUP, OURS] {
            let rule = rules.as_bytes()[usize::from(to != GROUP)];
            for ours in [to, ANOTHER] {
                for hash in [false, true] {
                    let expected = match rule {
                        b'e' => to == ours,
                        b'n' => to != ours,
                        b'h' => hash,
                        _ => true,
                    };
                    let got = passes(setting(mode), ours, hash, to);
                    assert_eq!(
                        got, expected,
                        "{mode:05b} {to:02X?} {ours:02X?} hash {hash}"
                    );
                }
            }
        }
    }
}

// 01: "Destination FFFFFFFFFFFFh passes exactly when BCAST is clear, in every
// mode (ours)."
#[test]
fn broadcast_passes_exactly_when_bcast_is_clear_in_every_mode() {
    for (mode, _) in TABLE {
        for ours in [BROADCAST, OURS] {
            for hash in [false, true] {
                assert!(passes(setting(mode), ours, hash, BROADCAST));
                assert!(!passes(setting(mode) | BCAST, ours, hash, BROADCAST));
            }
        }
    }
}

// 01: BCAST speaks of FFFFFFFFFFFFh alone
#[test]
fn bcast_says_nothing_of_other_group_addresses() {
    assert!(passes(MCPAS | BCAST, OURS, false, GROUP));
    assert!(passes(
        MCPAS | BCAST,
        OURS,
        false,
        [0xFF, 0xFF, 0xFF, 0xFF, 0xFF, 0xFE]
    ));
}

// 01: "A group address has bit 0 of its first byte set."
#[test]
fn bit_0_of_the_first_byte_makes_a_group_address() {
    assert!(passes(
        MCPAS,
        OURS,
        false,
        [0x03, 0x11, 0x22, 0x33, 0x44, 0x55]
    ));
    assert!(!passes(
        MCPAS,
        OURS,
        false,
        [0xFE, 0xFF, 0xFF, 0xFF, 0xFF, 0xFF]
    ));
}

// 01, Memory: ADDRH 0000FFFFh and ADDRL FFFFFFFFh fresh, so nothing but
// broadcast passes, and that by BCAST
#[test]
fn fresh_registers_let_only_broadcast_pass() {
    let mut second = fresh();
    second.mac_write(1, RXEN);
    assert_eq!(second.arrive(&frame(64, OURS, 0x0800), 0), took(FILTERED));
    assert_eq!(second.arrive(&frame(64, GROUP, 0x0800), 0), took(FILTERED));
    assert_eq!(
        second.arrive(&frame(64, BROADCAST, 0x0800), 0),
        took(STORED)
    );
}

// 01: "20 FDPX (kept, no effect)"
#[test]
fn fdpx_is_kept_and_has_no_effect() {
    let mut with = with_mac_cr(RXEN | FDPX);
    let mut without = with_mac_cr(RXEN);
    assert_eq!(with.mac_read(1), took(RXEN | FDPX));
    for to in [OURS, ANOTHER, GROUP, BROADCAST] {
        let bytes = frame(64, to, 0x0800);
        assert_eq!(with.arrive(&bytes, 0), without.arrive(&bytes, 0));
    }
    with.registers.mac_cr = RXEN;
    assert_eq!(with, without);
}
