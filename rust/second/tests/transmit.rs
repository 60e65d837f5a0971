//! Words for transmission. 01, Words for transmission.

mod common;
use common::*;
use second::{Expects, Open, Second};

const NONE_OPEN: Expects = Expects::A { open: None };

// 01: "25-24 end alignment (0, 1, 2 mean 4, 16, 32 bytes; 3 bad)", "size s (0 bad)"
#[test]
fn alignment_3_and_size_0_are_bad() {
    for alignment in 0..4 {
        let said = fresh().tx_word(a(alignment, 0, FIRST, 5));
        assert_eq!(said, if alignment < 3 { took(0) } else { refused(7) });
    }
    assert_eq!(fresh().tx_word(a(0, 0, FIRST, 0)), refused(7));
    assert_eq!(fresh().tx_word(a(0, 31, FIRST, 0x7FF)), took(0));
}

// 01: "First is bad with a packet open, and missing First is bad with none open."
#[test]
fn first_stands_exactly_where_no_packet_is_open() {
    let mut second = fresh();
    assert_eq!(second.clone().tx_word(a(0, 0, LAST, 4)), refused(7));
    write(&mut second, &[a(0, 0, FIRST, 4), b(1, 0, 8), 0]);
    assert_eq!(second.clone().tx_word(a(0, 0, FIRST | LAST, 4)), refused(7));
    write(&mut second, &[a(0, 0, LAST, 4), b(1, 0, 8), 0]);
    assert_eq!(second.clone().tx_word(a(0, 0, LAST, 4)), refused(7));
    assert_eq!(second.tx_word(a(0, 0, FIRST | LAST, 4)), took(0));
}

// 01: "Other bits are stored and mean nothing."
#[test]
fn other_bits_of_a_and_b_are_stored_and_mean_nothing() {
    let odd_a = !(0x031F_0000 | FIRST | LAST | 0x7FF) | a(0, 1, FIRST | LAST, 6);
    let odd_b = (!(0xFFFF_0000 | NO_CRC | NO_PADDING | 0x7FF)) | b(0x1234, NO_PADDING, 6);
    let mut plain = with_mac_cr(TXEN);
    let mut odd = with_mac_cr(TXEN);
    write(
        &mut plain,
        &[
            a(0, 1, FIRST | LAST, 6),
            b(0x1234, NO_PADDING, 6),
            0x0302_0100,
            0x0706_0504,
        ],
    );
    write(&mut odd, &[odd_a, odd_b, 0x0302_0100, 0x0706_0504]);
    assert_eq!(odd.memory[..2], [odd_a, odd_b]);
    assert_eq!(sent(&mut odd, 0), sent(&mut plain, 0));
    assert_eq!(odd.tx_status_pop(), plain.tx_status_pop());
}

// 01: "The first B's p must be 1 to 1,514, or to 1,518 with bit 13 set."
#[test]
fn p_ends_at_1514_and_with_no_crc_at_1518() {
    for (marks, p, good) in [
        (0, 0, false),
        (0, 1, true),
        (0, 1514, true),
        (0, 1515, false),
        (NO_PADDING, 1515, false),
        (NO_CRC, 0, false),
        (NO_CRC, 1515, true),
        (NO_CRC, 1518, true),
        (NO_CRC, 1519, false),
    ] {
        let mut second = fresh();
        write(&mut second, &[a(0, 0, FIRST, 1)]);
        let said = second.tx_word(b(0, marks, p));
        assert_eq!(said, if good { took(0) } else { refused(7) }, "p {p}");
    }
}

// 01: "Sizes so far must not pass p, and equal p at Last; each B judges this for
// its own buffer."
#[test]
fn each_b_judges_the_sizes_of_its_own_buffer() {
    for (marks, size, p, good) in [
        (FIRST, 11, 10, false),
        (FIRST, 10, 10, true),
        (FIRST, 9, 10, true),
        (FIRST | LAST, 9, 10, false),
        (FIRST | LAST, 10, 10, true),
        (FIRST | LAST, 11, 10, false),
    ] {
        let mut second = fresh();
        write(&mut second, &[a(0, 0, marks, size)]);
        assert_eq!(
            second.tx_word(b(0, 0, p)),
            if good { took(0) } else { refused(8) }
        );
    }
    for (marks, size, good) in [
        (0, 7, false),
        (0, 6, true),
        (0, 5, true),
        (LAST, 5, false),
        (LAST, 6, true),
        (LAST, 7, false),
    ] {
        let mut second = fresh();
        write(
            &mut second,
            &[a(0, 0, FIRST, 4), b(0, 0, 10), 0, a(0, 0, marks, size)],
        );
        assert_eq!(
            second.tx_word(b(0, 0, 10)),
            if good { took(0) } else { refused(8) }
        );
    }
}

// 01: "Later B words repeat tag and p."; decided point 8: no other bit
#[test]
fn a_later_b_repeats_tag_and_p_and_no_other_bit() {
    for (word, good) in [
        (b(7, 0, 8), true),
        (b(7, NO_CRC | NO_PADDING, 8), true),
        (b(7, 0xC800, 8), true),
        (b(6, 0, 8), false),
        (b(7, 0, 9), false),
        (b(0x8007, 0, 8), false),
        (b(7, 0, 8 + 1024), false),
    ] {
        let mut second = fresh();
        write(
            &mut second,
            &[a(0, 0, FIRST, 4), b(7, 0, 8), 0, a(0, 0, LAST, 4)],
        );
        assert_eq!(
            second.tx_word(word),
            if good { took(0) } else { refused(8) },
            "{word:08X}h"
        );
    }
}

// 01: "Bits 13 and 12 count in the first buffer's B only."
#[test]
fn bits_13_and_12_of_a_later_b_do_not_count() {
    let mut second = with_mac_cr(TXEN);
    write(&mut second, &[a(0, 0, FIRST, 4), b(7, 0, 8), 0x0403_0201]);
    write(
        &mut second,
        &[a(0, 0, LAST, 4), b(7, NO_CRC | NO_PADDING, 8), 0x0807_0605],
    );
    assert_eq!(sent(&mut second, 0).len(), 64);
    write(
        &mut second,
        &[a(0, 0, FIRST, 4), b(7, NO_CRC | NO_PADDING, 8), 0x0403_0201],
    );
    write(&mut second, &[a(0, 0, LAST, 4), b(7, 0, 8), 0x0807_0605]);
    assert_eq!(sent(&mut second, 0), [1, 2, 3, 4, 5, 6, 7, 8]);
}

// Decided point 7: "A non-Last buffer that reaches p is accepted; every later B
// then gets 8."
#[test]
fn after_a_buffer_that_reaches_p_every_later_b_is_refused() {
    for marks in [0, LAST] {
        let mut second = fresh();
        write(
            &mut second,
            &[a(0, 0, FIRST, 4), b(7, 0, 4), 0, a(0, 0, marks, 1)],
        );
        assert_eq!(second.tx_word(b(7, 0, 4)), refused(8));
    }
}

// Decided point 7: "TX words need no TXEN."
#[test]
fn words_are_taken_with_txen_clear() {
    let mut second = with_mac_cr(0);
    write_packet(&mut second, 1, 0, &bytes(9));
    assert_eq!(second.port.whole, 1);
    assert_eq!(second.send(0, &mut [0; 1518]), refused(10));
}

// 01: "A packet is whole when the last word of its Last buffer is taken."
#[test]
fn a_packet_is_whole_at_its_last_word_and_not_before() {
    let mut second = with_mac_cr(TXEN);
    write(
        &mut second,
        &[
            a(0, 0, FIRST, 4),
            b(7, 0, 8),
            1,
            a(0, 0, LAST, 4),
            b(7, 0, 8),
        ],
    );
    assert_eq!(second.send(0, &mut [0; 1518]), refused(11));
    write(&mut second, &[2]);
    assert_eq!(second.port.expects, NONE_OPEN);
    assert_eq!(second.send(0, &mut [0; 1518]), took(64));
}

// Decided point 10: whole "also where that word is thrown away"
#[test]
fn a_packet_waits_for_words_that_are_thrown_away() {
    let mut second = with_mac_cr(TXEN);
    write(
        &mut second,
        &[a(1, 0, FIRST | LAST, 1), b(7, 0, 1), 1, 2, 3],
    );
    assert_eq!(second.send(0, &mut [0; 1518]), refused(11));
    write(&mut second, &[4]);
    assert_eq!(second.send(0, &mut [0; 1518]), took(64));
}

// 01: "The packet is, buffer after buffer, the s bytes from the buffer's byte o
// on.", for all offsets and alignments and sizes from 1 to 40
#[test]
fn the_packet_is_the_bytes_from_byte_o_on() {
    for alignment in 0..3 {
        for offset in 0..32 {
            for size in 1..=40 {
                one_buffer(alignment, offset, size);
            }
        }
    }
}

fn one_buffer(alignment: u32, offset: u32, size: u32) {
    let unit = [4, 16, 32][alignment as usize];
    // 01: "(o + s) rounded up to the alignment"
    let host = bytes(((offset + size).div_ceil(unit) * unit) as usize);
    let mut second = with_mac_cr(TXEN);
    write(
        &mut second,
        &[
            a(alignment, offset, FIRST | LAST, size),
            b(7, NO_CRC | NO_PADDING, size),
        ],
    );
    write(&mut second, &words_of(&host));
    assert_eq!(second.port.expects, NONE_OPEN);
    // 01: "not the first o/4 (rounded down) words, then ((o mod 4) + s)/4 rounded up"
    assert_eq!(second.tx_data.count, 2 + (offset % 4 + size).div_ceil(4));
    let from = offset as usize;
    assert_eq!(sent(&mut second, 0), host[from..from + size as usize]);
    assert_eq!(second.tx_data.count, 0);
}

// 01: "buffer after buffer"
#[test]
fn three_buffers_make_one_packet() {
    let mut second = with_mac_cr(TXEN);
    write(
        &mut second,
        &[
            a(0, 2, FIRST, 3),
            b(7, NO_CRC | NO_PADDING, 9),
            0x0201_FFFF,
            0xFFFF_FF03,
        ],
    );
    write(
        &mut second,
        &[a(1, 4, 0, 1), b(7, 0, 9), 9, 0xFFFF_FF04, 9, 9],
    );
    write(
        &mut second,
        &[a(2, 31, LAST, 5), b(7, 0, 9), 9, 9, 9, 9, 9, 9, 9],
    );
    write(
        &mut second,
        &[0x05FF_FFFF, 0x0908_0706, 9, 9, 9, 9, 9, 9, 9],
    );
    // A, B, 2; A, 1; A, 2
    assert_eq!(second.tx_data.count, 4 + 2 + 3);
    assert_eq!(sent(&mut second, 0), [1, 2, 3, 4, 5, 6, 7, 8, 9]);
}

// 01: "of the payload ... the rest are thrown away and need no room"; decided
// point 9: "a later B and payload to be thrown away are accepted"
#[test]
fn a_full_fifo_takes_what_is_not_stored() {
    let mut second = fresh();
    fill_but(&mut second, 4);
    write(&mut second, &[a(0, 0, FIRST, 1), b(7, 0, 2), 0]);
    write(&mut second, &[a(2, 31, LAST, 1)]);
    assert_eq!(second.tx_fifo_inf().value & 0xFFFF, 0);
    write(&mut second, &[b(7, 0, 2), 1, 2, 3, 4, 5, 6, 7]);
    assert_eq!(second.tx_word(8), refused(9));
}

/// Fills TX data with packets of 3 words and one larger, so that `free` words
/// are free.
fn fill_but(second: &mut Second, free: u32) {
    let room = |second: &Second| second.tx_fifo_inf().value / 4;
    while room(second) > free + 6 {
        write_packet(second, 0, 0, &[1]);
    }
    let words = room(second) - free - 2;
    write_packet(second, 0, 0, &bytes(4 * words as usize));
    assert_eq!(room(second), free);
}

// 01, 9: "a word to be stored finds TX data full"; decided point 9: on a full
// FIFO "a bad A is 7; a first B is judged for p (7), sizes (8), then room (9)"
#[test]
fn on_a_full_fifo_a_and_first_b_are_judged_before_room() {
    let mut second = fresh();
    fill_but(&mut second, 0);
    assert_eq!(second.clone().tx_word(a(3, 0, FIRST, 1)), refused(7));
    assert_eq!(second.clone().tx_word(a(0, 0, LAST, 1)), refused(7));
    assert_eq!(second.tx_word(a(0, 0, FIRST, 1)), refused(9));

    let mut second = fresh();
    fill_but(&mut second, 1);
    write(&mut second, &[a(0, 0, FIRST, 9)]);
    assert_eq!(second.clone().tx_word(b(7, 0, 1515)), refused(7));
    assert_eq!(second.clone().tx_word(b(7, 0, 8)), refused(8));
    assert_eq!(second.tx_word(b(7, 0, 9)), refused(9));
}

// 01: "7, 8 and 9 set the transmit error"; decided point 15: they "leave the
// port where it stood, an open packet open"
#[test]
fn a_transmit_error_leaves_the_port_where_it_stood() {
    let mut at_a = fresh();
    write(&mut at_a, &[a(0, 0, FIRST, 4), b(7, 0, 8), 1]);
    let mut at_b = at_a.clone();
    write(&mut at_b, &[a(0, 0, LAST, 4)]);
    let mut at_payload = fresh();
    fill_but(&mut at_payload, 2);
    write(&mut at_payload, &[a(0, 0, FIRST, 4), b(7, 0, 8)]);
    for (mut second, word, refusal) in [
        (at_a, a(0, 0, FIRST, 4), 7),
        (at_b, b(8, 0, 8), 8),
        (at_payload, 0, 9),
    ] {
        let mut expected = second.clone();
        expected.port.error = true;
        assert_eq!(second.tx_word(word), refused(refusal));
        assert_eq!(second, expected);
        assert_eq!(second.tx_word(word), refused(6));
        assert_eq!(second, expected);
    }
}

// 01, 6: "TX word while a transmit error stands"; only a dump of TX data or a
// reset takes it away
#[test]
fn the_error_stands_until_a_dump_or_a_reset() {
    let mut second = with_mac_cr(0);
    assert_eq!(second.tx_word(0), refused(7));
    for (name, call) in CALLS {
        if name != "dump_tx_data" {
            call(&mut second);
            assert_eq!(
                second.tx_word(a(0, 0, FIRST, 1)),
                refused(6),
                "after {name}"
            );
        }
    }
    let mut dumped = second.clone();
    assert_eq!(dumped.dump_tx_data(), took(0));
    assert_eq!(dumped.tx_word(a(0, 0, FIRST, 1)), took(0));
    assert_eq!(second.reset(), took(0));
    assert_eq!(second.tx_word(a(0, 0, FIRST, 1)), took(0));
}

// Decided point 15: "Sizes so far rise when a B is accepted."
#[test]
fn what_the_port_expects_after_each_word() {
    let mut second = fresh();
    let first = a(1, 3, FIRST, 6);
    let later = a(0, 0, LAST, 4);
    let open = |sizes| Open {
        b: b(7, NO_CRC, 10),
        sizes,
    };
    for (word, expects) in [
        (
            first,
            Expects::B {
                a: first,
                open: None,
            },
        ),
        (
            b(7, NO_CRC, 10),
            Expects::Rest {
                a: first,
                left: 4,
                open: open(6),
            },
        ),
        (
            1,
            Expects::Rest {
                a: first,
                left: 3,
                open: open(6),
            },
        ),
        (
            2,
            Expects::Rest {
                a: first,
                left: 2,
                open: open(6),
            },
        ),
        (
            3,
            Expects::Rest {
                a: first,
                left: 1,
                open: open(6),
            },
        ),
        (
            4,
            Expects::A {
                open: Some(open(6)),
            },
        ),
        (
            later,
            Expects::B {
                a: later,
                open: Some(open(6)),
            },
        ),
        (
            b(7, 0, 10),
            Expects::Rest {
                a: later,
                left: 1,
                open: open(10),
            },
        ),
        (5, NONE_OPEN),
    ] {
        write(&mut second, &[word]);
        assert_eq!(second.port.expects, expects);
    }
    assert_eq!(
        second.memory[..7],
        [first, b(7, NO_CRC, 10), 1, 2, 3, later, 5]
    );
    assert_eq!(second.memory[7], OLD);
}
