//! The four slips. 01, Slips seen in other models.

mod common;
use common::*;

// 01: "Posting the status before all data words are known to fit."
#[test]
fn a_frame_that_does_not_fit_posts_no_status_and_no_word() {
    let mut second = with_split(14, RXEN);
    assert_eq!(second.arrive(&frame(1518, OURS, 0x0800), 0), took(STORED));
    // 480 - 380 = 100 words are free, 101 are asked
    let mut expected = second.clone();
    expected.registers.drops = 1;
    assert_eq!(second.arrive(&frame(401, OURS, 0x0800), 0), took(DROPPED));
    assert_eq!(second, expected);
    assert_eq!(second.arrive(&frame(400, OURS, 0x0800), 0), took(STORED));
}

// 01: "Counting end padding from the first payload byte and not from the
// buffer's first word; row 3 differs."
#[test]
fn end_padding_counts_from_the_buffers_first_word() {
    let mut second = fresh();
    write(&mut second, &[a(1, 5, FIRST | LAST, 61), b(7, 0, 61)]);
    // (5 + 61) rounded up to 16 is 80 bytes, 20 words; from the first payload
    // byte it would be 64 bytes and the words in front
    for k in 0..20 {
        assert_eq!(second.port.whole, 0, "word {k}");
        write(&mut second, &[k]);
    }
    assert_eq!(second.port.whole, 1);
}

// 01: "Charging TX data for B words of later buffers."
#[test]
fn a_later_b_costs_no_word() {
    let mut second = fresh();
    write(
        &mut second,
        &[a(0, 0, FIRST, 4), b(7, 0, 8), 1, a(0, 0, LAST, 4)],
    );
    let before = second.tx_fifo_inf();
    let memory = second.memory.clone();
    write(&mut second, &[b(7, 0, 8)]);
    assert_eq!(second.tx_fifo_inf(), before);
    assert_eq!(second.memory, memory);
}

// 01: "Leaving old memory in the unused bytes of a last RX word, which carries
// another frame's content out."
#[test]
fn the_unused_bytes_of_a_last_word_carry_nothing_out() {
    for len in 65..=68 {
        let mut second = with_mac_cr(RXEN);
        assert!(second.memory.iter().all(|word| *word == OLD));
        second.arrive(&frame(len, OURS, 0x0800), 0);
        let mut last = 0;
        for _ in 0..17 {
            last = second.rx_data_read().value;
        }
        let used = len - 64;
        assert!(
            last.to_le_bytes()[used..].iter().all(|byte| *byte == 0),
            "L {len}"
        );
        assert_eq!(last.to_le_bytes()[..used], frame(len, OURS, 0x0800)[64..]);
    }
}
