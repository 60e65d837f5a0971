//! The twelve rows of 01, by what a host sees.

mod common;
use common::*;
use second::{layout, Second};

fn sizes(n: u32) -> Option<[u32; 4]> {
    layout(n).map(|at| {
        [
            at.tx_data.size,
            at.tx_status.size,
            at.rx_data.size,
            at.rx_status.size,
        ]
    })
}

/// Words of the four FIFOs, found by filling each until it refuses or drops.
fn filled(n: u32) -> [u32; 4] {
    [
        tx_data_words(n),
        tx_statuses(n),
        rx_data_words(n),
        rx_statuses(n),
    ]
}

fn tx_data_words(n: u32) -> u32 {
    let mut second = with_split(n, 0);
    // a packet of four words, then its payload words one by one
    let mut words = 0;
    loop {
        for word in [a(0, 0, FIRST | LAST, 8), b(0, 0, 8), 0, 0] {
            if second.tx_word(word).refusal == 9 {
                return words;
            }
            words += 1;
        }
    }
}

fn tx_statuses(n: u32) -> u32 {
    let mut second = with_split(n, TXEN);
    for count in 0.. {
        write_packet(&mut second, 0, 0, &[1]);
        if second.send(0, &mut [0; 1518]).refusal == 12 {
            return count;
        }
    }
    unreachable!()
}

/// Frames of 16 bytes; the statuses are taken away, the data stays.
fn rx_data_words(n: u32) -> u32 {
    let mut second = with_split(n, RXEN | PASSBAD);
    for count in 0.. {
        if second.arrive(&frame(18, BROADCAST, 0x0800)[..16], 0) == took(DROPPED) {
            return count * 4;
        }
        assert_eq!(second.rx_status_pop().refusal, 0);
    }
    unreachable!()
}

/// Frames of 16 bytes; the data is taken away, the statuses stay.
fn rx_statuses(n: u32) -> u32 {
    let mut second = with_split(n, RXEN | PASSBAD);
    for count in 0.. {
        if second.arrive(&frame(18, BROADCAST, 0x0800)[..16], 0) == took(DROPPED) {
            return count;
        }
        for _ in 0..4 {
            assert_eq!(second.rx_data_read().refusal, 0);
        }
    }
    unreachable!()
}

// 01, row 1: "n = 5: 1,152, 128, 2,640, 176 words."
#[test]
fn row_01_sizes_at_n_5() {
    assert_eq!(sizes(5), Some([1152, 128, 2640, 176]));
    assert_eq!(filled(5), [1152, 128, 2640, 176]);
}

// 01, row 2: "n = 2: 384, 128, 3,360, 224. n = 14: 3,456, 128, 480, 32."
#[test]
fn row_02_sizes_at_n_2_and_n_14() {
    assert_eq!(sizes(2), Some([384, 128, 3360, 224]));
    assert_eq!(filled(2), [384, 128, 3360, 224]);
    assert_eq!(sizes(14), Some([3456, 128, 480, 32]));
    assert_eq!(filled(14), [3456, 128, 480, 32]);
}

// 01, Memory: "exactly 4,096 words", "TX_FIF_SZ is n, 2 to 14"
#[test]
fn the_four_fifos_fill_the_memory_for_every_n() {
    for n in 0..20 {
        let sum = sizes(n).map(|four| four.iter().sum::<u32>());
        assert_eq!(sum, (2..=14).contains(&n).then_some(4096), "n {n}");
        if let Some(at) = layout(n) {
            assert_eq!(at.tx_data.start, 0);
            assert_eq!(at.tx_status.start, at.tx_data.size);
            assert_eq!(at.rx_data.start, at.tx_status.start + at.tx_status.size);
            assert_eq!(at.rx_status.start, at.rx_data.start + at.rx_data.size);
        }
    }
}

/// Payload words that the host writes and that are stored, by watching the
/// level: thrown away in front, stored, thrown away behind.
fn payload(second: &mut Second, first_a: u32, p: u32) -> [u32; 3] {
    write(second, &[first_a, b(0, 0, p)]);
    let mut counts = [0; 3];
    let mut free = second.tx_fifo_inf().value;
    // the packet is whole when its last word is taken
    while second.port.whole == 0 {
        write(second, &[0]);
        let now = second.tx_fifo_inf().value;
        let part = if now != free {
            1
        } else if counts[1] == 0 {
            0
        } else {
            2
        };
        counts[part] += 1;
        free = now;
    }
    counts
}

// 01, row 3: "o 5, s 61, align 16: host 20 payload words, stored 16, thrown
// away 1 in front, 3 behind."
#[test]
fn row_03_offset_5_size_61_alignment_16() {
    assert_eq!(
        payload(&mut fresh(), a(1, 5, FIRST | LAST, 61), 61),
        [1, 16, 3]
    );
}

// 01, row 4: "o 31, s 2, align 32: host 16, stored 2, 7 and 7 thrown away."
#[test]
fn row_04_offset_31_size_2_alignment_32() {
    assert_eq!(
        payload(&mut fresh(), a(2, 31, FIRST | LAST, 2), 2),
        [7, 2, 7]
    );
}

// 01, row 5: "Fresh TX_FIFO_INF 00001200h; after row 3 as a first buffer 000011B8h."
#[test]
fn row_05_tx_fifo_inf_fresh_and_after_row_03() {
    let mut second = fresh();
    assert_eq!(second.tx_fifo_inf(), took(0x0000_1200));
    payload(&mut second, a(1, 5, FIRST | LAST, 61), 61);
    assert_eq!(second.tx_fifo_inf(), took(0x0000_11B8));
}

// 01, row 6: "Tag BEEFh: clean BEEF0000h; late collision BEEF8200h; deferred
// BEEF0001h." By these words a late collision is bit 9, deferred bit 0.
#[test]
fn row_06_tx_status_of_tag_beef() {
    for (outcome, status) in [(0, 0xBEEF_0000), (0x200, 0xBEEF_8200), (1, 0xBEEF_0001)] {
        let mut second = with_mac_cr(TXEN);
        write_packet(&mut second, 0xBEEF, 0, &bytes(60));
        assert_eq!(sent(&mut second, outcome).len(), 64);
        assert_eq!(second.tx_status_peek(), took(status));
        assert_eq!(second.tx_status_pop(), took(status));
    }
}

// 01, row 7: "64 bytes, broadcast, V 0800h, good: 00402020h."
#[test]
fn row_07_broadcast_of_64_bytes() {
    assert_eq!(
        status_of(RXEN, &frame(64, BROADCAST, 0x0800), 0),
        0x0040_2020
    );
}

// 01, row 8: "63 bytes, individual, V 0800h, good, PASSBAD: 003F8820h; without
// PASSBAD Discarded."
#[test]
fn row_08_runt_of_63_bytes() {
    let runt = frame(63, OURS, 0x0800);
    assert_eq!(status_of(RXEN | PASSBAD, &runt, 0), 0x003F_8820);
    assert_eq!(with_mac_cr(RXEN).arrive(&runt, 0), took(DISCARDED));
}

// 01, row 9: "1,518 bytes, individual, V 0800h, good: 05EE0020h; 1,519: 05EF80A0h."
#[test]
fn row_09_longest_frame_and_one_byte_more() {
    assert_eq!(status_of(RXEN, &frame(1518, OURS, 0x0800), 0), 0x05EE_0020);
    assert_eq!(status_of(RXEN, &frame(1519, OURS, 0x0800), 0), 0x05EF_80A0);
}

// 01, row 10: "As row 7 but individual, filter no, RXALL: 40400020h."
#[test]
fn row_10_filter_no_under_rxall() {
    assert_eq!(
        status_of(RXEN | RXALL, &frame(64, ANOTHER, 0x0800), 0),
        0x4040_0020
    );
}

// 01, row 11: "Individual, good, filter yes: L 64, V 46: 00400000h; V 47:
// 00401000h; L 65, V 46: 00411000h."
#[test]
fn row_11_lengths_that_do_not_agree() {
    assert_eq!(status_of(RXEN, &frame(64, OURS, 46), 0), 0x0040_0000);
    assert_eq!(status_of(RXEN, &frame(64, OURS, 47), 0), 0x0040_1000);
    assert_eq!(status_of(RXEN, &frame(65, OURS, 46), 0), 0x0041_1000);
}

// 01, row 12: "Address 02-11-22-33-44-55: ADDRL 33221102h, ADDRH 00005544h. One
// 65-byte frame waiting: RX_FIFO_INF 00010044h."
#[test]
fn row_12_our_address_and_one_frame_waiting() {
    let mut second = fresh();
    second.mac_write(3, 0x3322_1102);
    second.mac_write(2, 0x0000_5544);
    second.mac_write(1, RXEN);
    let to = [0x02, 0x11, 0x22, 0x33, 0x44, 0x55];
    assert_eq!(second.arrive(&frame(65, to, 0x0800), 0), took(STORED));
    assert_eq!(second.rx_fifo_inf(), took(0x0001_0044));
    for k in 0..6 {
        let mut other = to;
        other[k] ^= 0x80;
        assert_eq!(
            second.arrive(&frame(65, other, 0x0800), 0),
            took(FILTERED),
            "byte {k}"
        );
    }
}
