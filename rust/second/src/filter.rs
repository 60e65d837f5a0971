//! The receive filter. Paper 01, An arriving frame, "Filter".
//!   rules       what a MAC_CR asks of group and of individual addresses; none
//!               for one of the 17 undefined settings
//!   passes      whether the filter says yes
//!   broadcast, group   what kind of address it is; broadcast is a group too

use crate::crc;
use crate::registers::{Registers, BCAST, HO, HPFILT, INVFILT, MCPAS, PRMS};

pub(crate) type Address = [u8; 6];

#[derive(Clone, Copy, Debug, PartialEq, Eq)]
pub(crate) enum Rule {
    Equal,
    NotEqual,
    Hash,
    Pass,
}

pub(crate) struct Rules {
    group: Rule,
    individual: Rule,
}

/// 01: "by (MCPAS, PRMS, INVFILT, HO, HPFILT), after 000", the seven rows in
/// their order.
pub(crate) fn rules(mac_cr: u32) -> Option<Rules> {
    let bit = |mask: u32| u8::from(mac_cr & mask != 0);
    let (group, individual) = match [bit(MCPAS), bit(PRMS), bit(INVFILT), bit(HO), bit(HPFILT)] {
        [0, 0, 0, 0, 0] => (Rule::Equal, Rule::Equal),
        [0, 0, 0, 0, 1] => (Rule::Hash, Rule::Equal),
        [0, 0, 0, 1, 1] => (Rule::Hash, Rule::Hash),
        [0, 0, 1, 0, 0] => (Rule::NotEqual, Rule::NotEqual),
        [_, 1, 0, _, _] => (Rule::Pass, Rule::Pass),
        [1, 0, 0, 0, _] => (Rule::Pass, Rule::Equal),
        [1, 0, 0, 1, 1] => (Rule::Pass, Rule::Hash),
        _ => return None,
    };
    Some(Rules { group, individual })
}

pub(crate) fn broadcast(to: Address) -> bool {
    to == [0xFF; 6]
}

/// 01: "A group address has bit 0 of its first byte set."
pub(crate) fn group(to: Address) -> bool {
    to[0] & 1 == 1
}

/// 01: "Destination FFFFFFFFFFFFh passes exactly when BCAST is clear, in every
/// mode (ours). Otherwise, by" the table.
pub(crate) fn passes(registers: &Registers, to: Address) -> bool {
    if broadcast(to) {
        return !registers.is_set(BCAST);
    }
    let Some(rules) = rules(registers.mac_cr) else {
        return false; // never: such a MAC_CR is out of its range
    };
    match if group(to) {
        rules.group
    } else {
        rules.individual
    } {
        Rule::Equal => to == registers.our_address(),
        Rule::NotEqual => to != registers.our_address(),
        Rule::Hash => hash_bit(registers, to),
        Rule::Pass => true,
    }
}

/// 01: "of the register's top six bits, x^31 down, the highest chooses HASHH
/// (1) or HASHL (0), the other five, x^30 the highest, number the bit, 0 to 31;
/// pass if it is 1."
fn hash_bit(registers: &Registers, to: Address) -> bool {
    let six = crc::hash(to);
    let table = if six & 0x20 != 0 {
        registers.hashh
    } else {
        registers.hashl
    };
    (table >> (six & 0x1F)) & 1 == 1
}
