//! Sending. 01, Words for transmission, last paragraph.

mod common;
use common::*;

fn with_check(mut bytes: Vec<u8>) -> Vec<u8> {
    bytes.extend(check_of(&bytes).to_le_bytes());
    bytes
}

fn padded(mut bytes: Vec<u8>) -> Vec<u8> {
    bytes.resize(60, 0);
    with_check(bytes)
}

// 01: "If p < 60 (ours) and bit 12 is clear, zeros follow up to 60 and the FCS
// is added, whatever bit 13 says; otherwise the FCS is added exactly when bit 13
// is clear."
#[test]
fn padding_and_fcs_by_p_and_bits_13_and_12() {
    for p in [1, 2, 3, 4, 59, 60, 61, 1514] {
        let packet = bytes(p);
        let short = p < 60;
        let whole = |marks| {
            let mut second = with_mac_cr(TXEN);
            write_packet(&mut second, 1, marks, &packet);
            sent(&mut second, 0)
        };
        let usual = if short {
            padded(packet.clone())
        } else {
            with_check(packet.clone())
        };
        let without = if short {
            padded(packet.clone())
        } else {
            packet.clone()
        };
        assert_eq!(whole(0), usual, "p {p}");
        assert_eq!(whole(NO_CRC), without, "p {p}");
        assert_eq!(whole(NO_PADDING), with_check(packet.clone()), "p {p}");
        assert_eq!(whole(NO_CRC | NO_PADDING), packet, "p {p}");
    }
}

// 01: p to 1,518 with bit 13 set; the longest frame is 1,518 bytes either way
#[test]
fn the_longest_frames_have_1518_bytes() {
    for (p, marks) in [(1514, 0), (1518, NO_CRC)] {
        let mut second = with_mac_cr(TXEN);
        write_packet(&mut second, 1, marks, &bytes(p));
        let mut out = [0xEE; 1518];
        assert_eq!(second.send(0, &mut out), took(1518));
        assert_eq!(out[..p], bytes(p));
    }
}

// 01: "The frame fills the front of the out buffer, the rest stays"
#[test]
fn the_rest_of_the_out_buffer_stays() {
    let mut second = with_mac_cr(TXEN);
    write_packet(&mut second, 1, NO_CRC | NO_PADDING, &[1, 2, 3]);
    let mut out = bytes(3000);
    assert_eq!(second.send(0, &mut out), took(3));
    assert_eq!(out[..3], [1, 2, 3]);
    assert_eq!(out[3..], bytes(3000)[3..]);
}

// 01: "an outcome (bits 11, 10, 9, 8, 6-3, 2, 0 of the status)", "bit 15 set if
// 11, 10, 9, 8 or 2 is"
#[test]
fn outcome_bits_one_by_one() {
    for bit in 0..32 {
        let mut second = with_mac_cr(TXEN);
        write_packet(&mut second, 0x8001, 0, &[1]);
        let said = second.send(1 << bit, &mut [0; 1518]);
        if [11, 10, 9, 8, 6, 5, 4, 3, 2, 0].contains(&bit) {
            assert_eq!(said, took(64), "bit {bit}");
            let fault = if [11, 10, 9, 8, 2].contains(&bit) {
                0x8000
            } else {
                0
            };
            assert_eq!(second.tx_status_pop(), took(0x8001_0000 | fault | 1 << bit));
        } else {
            assert_eq!(said, refused(2), "bit {bit}");
        }
    }
}

// 01: "Sending takes the oldest whole packet", "the packet's words are freed,
// and one status goes in"
#[test]
fn packets_go_out_in_the_order_they_came() {
    let mut second = with_mac_cr(TXEN);
    for tag in 1..=5 {
        write_packet(
            &mut second,
            tag,
            NO_CRC | NO_PADDING,
            &bytes(tag as usize * 3),
        );
    }
    // an open one behind them
    write(&mut second, &[a(0, 0, FIRST, 4), b(6, 0, 8)]);
    let mut held = second.tx_data.count;
    for tag in 1..=5_u32 {
        assert_eq!(sent(&mut second, 0), bytes(tag as usize * 3));
        held -= 2 + (3 * tag).div_ceil(4);
        assert_eq!(second.tx_data.count, held);
    }
    assert_eq!(second.send(0, &mut [0; 1518]), refused(11));
    for tag in 1..=5 {
        assert_eq!(second.tx_status_pop(), took(tag << 16));
    }
    assert_eq!(second.tx_status_pop(), refused(11));
    write(&mut second, &[1, a(0, 0, LAST, 4), b(6, 0, 8), 2]);
    assert_eq!(sent(&mut second, 0).len(), 64);
    assert_eq!(second.tx_data.count, 0);
}

// Decided point 7: "With a transmit error standing, sending goes on."
#[test]
fn sending_goes_on_with_an_error_standing() {
    let mut second = with_mac_cr(TXEN);
    write_packet(&mut second, 1, 0, &[1]);
    assert_eq!(second.tx_word(0), refused(7));
    assert_eq!(sent(&mut second, 0).len(), 64);
    assert!(second.port.error);
}

// 01: "tag in 31-16" of the first B
#[test]
fn the_tag_comes_back_in_the_status() {
    for tag in [0, 1, 0x7FFF, 0x8000, 0xFFFF] {
        let mut second = with_mac_cr(TXEN);
        write_packet(&mut second, tag, 0, &[1]);
        sent(&mut second, 0xF7D);
        assert_eq!(second.tx_status_pop(), took(tag << 16 | 0x8F7D));
    }
}

// 01: a peek is no read
#[test]
fn a_peek_leaves_the_status_where_it_is() {
    let mut second = with_mac_cr(TXEN | RXEN);
    write_packet(&mut second, 5, 0, &[1]);
    sent(&mut second, 0);
    second.arrive(&frame(64, OURS, 0x0800), 0);
    let before = second.clone();
    assert_eq!(second.tx_status_peek(), took(5 << 16));
    assert_eq!(second.rx_status_peek(), took(0x0040_0020));
    assert_eq!(second, before);
}
