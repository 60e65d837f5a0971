//! FCS and hash.

mod common;
use common::*;
use second::{fcs, hash};

// IEEE 802.3, 3.2.9; the check value of CRC-32 in common use
#[test]
fn fcs_of_the_nine_digits() {
    assert_eq!(fcs(b"123456789"), 0xCBF4_3926);
}

// Values of the crc32 function of zlib, which computes the same FCS
#[test]
fn fcs_of_some_bytes_as_zlib_has_it() {
    assert_eq!(fcs(b""), 0);
    assert_eq!(fcs(b"a"), 0xE8B7_BE43);
    assert_eq!(fcs(&[0; 4]), 0x2144_DF1C);
    assert_eq!(fcs(&[0xFF; 4]), 0xFFFF_FFFF);
    assert_eq!(fcs(&[0; 60]), 0x0412_8908);
    assert_eq!(
        fcs(b"The quick brown fox jumps over the lazy dog"),
        0x414F_A339
    );
}

// IEEE 802.3, 3.2.9: bytes followed by their FCS leave the same remainder
// always; complemented and reversed it is 2144DF1Ch.
#[test]
fn bytes_with_their_fcs_leave_one_remainder() {
    for len in [0, 1, 14, 60, 1514] {
        let mut all = bytes(len);
        all.extend(fcs(&bytes(len)).to_le_bytes());
        assert_eq!(fcs(&all), 0x2144_DF1C, "{len} bytes");
    }
}

// The FCS of the tests shifts right, that of the program shifts left.
#[test]
fn shifting_left_and_shifting_right_agree() {
    for len in 0..200 {
        assert_eq!(fcs(&bytes(len)), check_of(&bytes(len)), "{len} bytes");
    }
}

// 01, Hash, worked with the crc32 function of zlib, its complement taken back
// and its 32 bits reversed: the top six.
#[test]
fn hash_of_some_addresses() {
    assert_eq!(hash([0x01, 0x00, 0x5E, 0x00, 0x00, 0x01]), 31);
    assert_eq!(hash([0x01, 0x00, 0x5E, 0x00, 0x00, 0xFB]), 15);
    assert_eq!(hash([0x33, 0x33, 0x00, 0x00, 0x00, 0x01]), 62);
    assert_eq!(hash([0x01, 0x80, 0xC2, 0x00, 0x00, 0x00]), 25);
    assert_eq!(hash([0x01, 0x80, 0xC2, 0x00, 0x00, 0x01]), 3);
    assert_eq!(hash([0x02, 0x11, 0x22, 0x33, 0x44, 0x55]), 49);
    assert_eq!(hash([0x00; 6]), 14);
    assert_eq!(hash([0xFF; 6]), 63);
}

// 01, Hash: "the highest chooses HASHH (1) or HASHL (0), the other five, x^30
// the highest, number the bit". Addresses and their numbers as above.
#[test]
fn hash_31_is_bit_31_of_hashl_and_hash_62_is_bit_30_of_hashh() {
    for (to, register, bit) in [
        (GROUP, 5, 31),
        ([0x33, 0x33, 0, 0, 0, 1], 4, 30),
        ([0x01, 0x80, 0xC2, 0, 0, 1], 5, 3),
    ] {
        for other in 0..32 {
            for table in [4, 5] {
                let mut second = with_mac_cr(RXEN | HPFILT);
                second.mac_write(table, 1 << other);
                let said = second.arrive(&frame(64, to, 0x0800), 0);
                let hit = table == register && other == bit;
                assert_eq!(said, took(if hit { STORED } else { FILTERED }));
            }
        }
    }
}
