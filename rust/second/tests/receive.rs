//! An arriving frame. 01, An arriving frame.

mod common;
use common::*;

// 01, line 1: "L is 0 or above 2,048: refusal 1."
#[test]
fn lengths_end_at_1_and_2048() {
    let mut second = with_mac_cr(RXEN | PASSBAD | PRMS);
    assert_eq!(second.arrive(&[], 0), refused(1));
    assert_eq!(second.arrive(&[0], 0), took(DISCARDED));
    assert_eq!(second.arrive(&frame(2048, OURS, 0x0800), 0), took(STORED));
    assert_eq!(second.arrive(&frame(2049, OURS, 0x0800), 0), refused(1));
}

// 01: "only bits 6 (collision seen), 3 (MII error) and 2 (dribble) may be set"
#[test]
fn flags_other_than_6_3_and_2_are_refused() {
    for bit in 0..32 {
        let said = with_mac_cr(RXEN | PASSBAD).arrive(&frame(64, OURS, 0x0800), 1 << bit);
        assert_eq!(
            said,
            if [6, 3, 2].contains(&bit) {
                took(STORED)
            } else {
                refused(2)
            }
        );
    }
}

// 01, lines 1, 2 and 3: the first that applies answers
#[test]
fn a_bad_input_is_refused_also_with_rxen_clear() {
    let mut second = with_mac_cr(0);
    assert_eq!(second.arrive(&[], 1), refused(1));
    assert_eq!(second.arrive(&[0], 1), refused(2));
    assert_eq!(second.arrive(&[0], 0), took(IGNORED));
}

// 01, line 3: "RXEN clear: Ignored."
#[test]
fn with_rxen_clear_every_frame_is_ignored() {
    let mut second = with_mac_cr(PASSBAD | RXALL | PRMS | TXEN);
    for len in [18, 63, 64, 1518, 1519] {
        assert_eq!(
            second.arrive(&frame(len, OURS, 0x0800), 0x4C),
            took(IGNORED)
        );
    }
    assert_eq!(second.arrive(&[1], 0), took(IGNORED));
}

// 01, line 4: "L below 14 (ours)"
#[test]
fn thirteen_bytes_are_discarded_and_fourteen_are_not() {
    let mut second = with_mac_cr(RXEN | PASSBAD | RXALL | PRMS);
    assert_eq!(second.arrive(&[0; 13], 0), took(DISCARDED));
    assert_eq!(second.arrive(&[0; 14], 0), took(STORED));
}

// 01, line 4: "with PASSBAD clear, L below 64 or collision seen: Discarded"
#[test]
fn runts_and_collisions_need_passbad() {
    for (len, flags, bad) in [
        (63, 0, true),
        (64, 0, false),
        (64, 0x40, true),
        (64, 0x0C, false),
    ] {
        let bytes = frame(len, OURS, 0x0800);
        let without = if bad { DISCARDED } else { STORED };
        assert_eq!(with_mac_cr(RXEN).arrive(&bytes, flags), took(without));
        assert_eq!(
            with_mac_cr(RXEN | PASSBAD).arrive(&bytes, flags),
            took(STORED)
        );
    }
}

// 01, line 4 speaks of no FCS and of no length above: such frames are stored
// with PASSBAD clear
#[test]
fn a_bad_fcs_or_a_long_frame_needs_no_passbad() {
    let mut second = with_mac_cr(RXEN);
    let mut bad = frame(64, OURS, 0x0800);
    bad[63] ^= 1;
    assert_eq!(second.arrive(&bad, 0), took(STORED));
    assert_eq!(second.arrive(&frame(2000, OURS, 0x0800), 0), took(STORED));
}

// 01, lines 4 and 5: the first that applies answers
#[test]
fn discarded_comes_before_filtered() {
    let mut second = with_mac_cr(RXEN);
    assert_eq!(
        second.arrive(&frame(63, ANOTHER, 0x0800), 0),
        took(DISCARDED)
    );
    assert_eq!(
        second.arrive(&frame(64, ANOTHER, 0x0800), 0),
        took(FILTERED)
    );
}

// 01, lines 5 and 6: the first that applies answers
#[test]
fn filtered_comes_before_dropped() {
    let mut second = with_mac_cr(RXEN);
    second.rx_status.count = 176;
    assert_eq!(
        second.arrive(&frame(64, ANOTHER, 0x0800), 0),
        took(FILTERED)
    );
    assert_eq!(second.rx_drop(), took(0));
    assert_eq!(second.arrive(&frame(64, OURS, 0x0800), 0), took(DROPPED));
    assert_eq!(second.rx_drop(), took(1));
}

// 01, line 5: "Filter says no and RXALL is clear"
#[test]
fn rxall_stores_what_the_filter_refuses_and_marks_it() {
    let bytes = frame(64, BROADCAST, 0x0800);
    assert_eq!(with_mac_cr(RXEN | BCAST).arrive(&bytes, 0), took(FILTERED));
    assert_eq!(status_of(RXEN | BCAST | RXALL, &bytes, 0), 0x4040_2020);
    assert_eq!(status_of(RXEN | RXALL, &bytes, 0), 0x0040_2020);
}

// 01, line 6: "Free RX data words below L/4 rounded up, or no free RX status:
// Dropped, RX_DROP plus one and no other change."
#[test]
fn a_frame_is_dropped_by_data_words_or_by_statuses() {
    for (data, statuses, answer) in [
        (2640 - 17, 175, STORED),
        (2640 - 16, 175, DROPPED),
        (2640 - 17, 176, DROPPED),
        (2640, 176, DROPPED),
    ] {
        let mut second = with_mac_cr(RXEN);
        second.rx_data.count = data;
        second.rx_status.count = statuses;
        let mut expected = second.clone();
        assert_eq!(
            second.arrive(&frame(65, OURS, 0x0800), 0),
            took(answer),
            "{data} {statuses}"
        );
        if answer == DROPPED {
            expected.registers.drops += 1;
            assert_eq!(second, expected);
        } else {
            assert_eq!(second.rx_fifo_inf(), took((176 << 16) | (2640 * 4)));
        }
    }
}

// 01: "Ignored, Discarded and Filtered change nothing."
#[test]
fn ignored_discarded_and_filtered_change_nothing() {
    for (mac_cr, len, answer) in [
        (0, 64, IGNORED),
        (RXEN, 63, DISCARDED),
        (RXEN, 64, FILTERED),
    ] {
        let mut second = with_mac_cr(mac_cr);
        let before = second.clone();
        assert_eq!(second.arrive(&frame(len, ANOTHER, 0x0800), 0), took(answer));
        assert_eq!(second, before);
    }
}

// 01, line 7: "data words, first byte in bits 7 to 0, unused bytes of the last
// word zero (ours); one status"
#[test]
fn a_stored_frame_reads_back_byte_for_byte() {
    for len in 64..=67 {
        let bytes = frame(len, OURS, 0x0800);
        let mut second = with_mac_cr(RXEN);
        assert_eq!(second.arrive(&bytes, 0), took(STORED));
        let mut read = Vec::new();
        for _ in 0..len.div_ceil(4) {
            read.extend(second.rx_data_read().value.to_le_bytes());
        }
        assert_eq!(read[..len], bytes);
        assert!(read[len..].iter().all(|byte| *byte == 0));
        assert_eq!(second.rx_data_read(), refused(11));
        assert_eq!(second.rx_status_pop().value, (len as u32) << 16 | 0x20);
        assert_eq!(second.rx_status_pop(), refused(11));
    }
}

// 01, RX status: "6, 3, 2: the flags", "15: 11, 7, 6 or 1 is set"; any
// combination as it came (decided point 17)
#[test]
fn flags_go_into_the_status_as_they_came() {
    let bytes = frame(64, OURS, 0x0800);
    for (flags, status) in [
        (0x04, 0x0040_0024),
        (0x08, 0x0040_0028),
        (0x0C, 0x0040_002C),
        (0x40, 0x0040_8060),
        (0x4C, 0x0040_806C),
    ] {
        assert_eq!(status_of(RXEN | PASSBAD, &bytes, flags), status);
    }
}

// 01, RX status: "1: the FCS does not fit the bytes before it (ours)"
#[test]
fn any_bit_turned_over_sets_bits_15_and_1() {
    let good = frame(64, OURS, 0x0800);
    for byte in 14..64 {
        for bit in 0..8 {
            let mut bad = good.clone();
            bad[byte] ^= 1 << bit;
            assert_eq!(
                status_of(RXEN, &bad, 0),
                0x0040_8022,
                "byte {byte}, bit {bit}"
            );
        }
    }
}

// 01, RX status: "10: group, not broadcast (ours)", "13: broadcast"
#[test]
fn group_sets_bit_10_and_broadcast_bit_13() {
    assert_eq!(
        status_of(RXEN | MCPAS, &frame(64, GROUP, 0x0800), 0),
        0x0040_0420
    );
    assert_eq!(
        status_of(RXEN | MCPAS, &frame(64, BROADCAST, 0x0800), 0),
        0x0040_2020
    );
    assert_eq!(
        status_of(RXEN | MCPAS, &frame(64, OURS, 0x0800), 0),
        0x0040_0020
    );
}

// 01, RX status: "5: V > 1,500", "12: V is at most 1,500 and either V + 18 > L,
// or L > 64 and V + 18 is not L (ours)"
#[test]
fn v_of_1500_is_a_length_and_1501_is_a_type() {
    for (len, v, status) in [
        (1518, 1500, 0x05EE_0000),
        (1518, 1501, 0x05EE_0020),
        (1518, 1499, 0x05EE_1000),
        (1517, 1500, 0x05ED_1000),
        (1517, 1499, 0x05ED_0000),
        (64, 0, 0x0040_0000),
        (65, 0, 0x0041_1000),
        (65, 47, 0x0041_0000),
        (65, 48, 0x0041_1000),
        (64, 1500, 0x0040_1000),
        (64, 1501, 0x0040_0020),
    ] {
        assert_eq!(
            status_of(RXEN, &frame(len, OURS, v), 0),
            status,
            "L {len}, V {v}"
        );
    }
}

// 01, RX status: bit 12 with L below 64 asks V + 18 > L alone
#[test]
fn a_runt_may_have_a_v_too_small_but_not_too_large() {
    assert_eq!(
        status_of(RXEN | PASSBAD, &frame(63, OURS, 45), 0),
        0x003F_8800
    );
    assert_eq!(
        status_of(RXEN | PASSBAD, &frame(63, OURS, 44), 0),
        0x003F_8800
    );
    assert_eq!(
        status_of(RXEN | PASSBAD, &frame(63, OURS, 46), 0),
        0x003F_9800
    );
}

// 01, RX status: V lies "in the two bytes that begin at offset 12, high byte
// first", also where they are bytes of the FCS
#[test]
fn of_14_bytes_the_last_two_are_v() {
    let mut bytes = [0; 14];
    bytes[..6].copy_from_slice(&OURS);
    bytes[12] = 0x05;
    bytes[13] = 0xDD; // 1,501
    assert_eq!(status_of(RXEN | PASSBAD, &bytes, 0), 0x000E_8822);
    bytes[13] = 0xDC; // 1,500
    assert_eq!(status_of(RXEN | PASSBAD, &bytes, 0), 0x000E_9802);
}

// 01, RX status: "11: L < 64. 7: L > 1,518."; the packet length in bits 29 to 16
#[test]
fn the_length_stands_in_bits_29_to_16_at_both_ends() {
    assert_eq!(
        status_of(RXEN | PASSBAD, &frame(18, OURS, 0x0800), 0),
        0x0012_8820
    );
    assert_eq!(status_of(RXEN, &frame(2048, OURS, 0x0800), 0), 0x0800_80A0);
}
