//! Registers. Paper 01, Registers; the fresh values from Memory.
//!   Registers   n, the five MAC registers and RX_DROP
//!   accepts     whether a write of this value to this register is good; that
//!               there is such a register is judged before
//!   MAC_CR bits under 000's names

pub(crate) const RXALL: u32 = 1 << 31;
pub(crate) const FDPX: u32 = 1 << 20;
pub(crate) const MCPAS: u32 = 1 << 19;
pub(crate) const PRMS: u32 = 1 << 18;
pub(crate) const INVFILT: u32 = 1 << 17;
pub(crate) const PASSBAD: u32 = 1 << 16;
pub(crate) const HO: u32 = 1 << 15;
pub(crate) const HPFILT: u32 = 1 << 13;
pub(crate) const BCAST: u32 = 1 << 11;
pub(crate) const TXEN: u32 = 1 << 3;
pub(crate) const RXEN: u32 = 1 << 2;

/// 01: "MAC_CR bits carried"
const CARRIED: u32 =
    RXALL | FDPX | MCPAS | PRMS | INVFILT | PASSBAD | HO | HPFILT | BCAST | TXEN | RXEN;

#[derive(Clone, Copy, Debug, PartialEq, Eq)]
pub struct Registers {
    /// TX_FIF_SZ
    pub n: u32,
    pub mac_cr: u32,
    pub addrh: u32,
    pub addrl: u32,
    pub hashh: u32,
    pub hashl: u32,
    /// RX_DROP, any number
    pub drops: u32,
}

impl Registers {
    /// 01: "n = 5; MAC_CR 0 (ours); ADDRH 0000FFFFh; ADDRL FFFFFFFFh; HASHH,
    /// HASHL, RX_DROP 0"
    pub const FRESH: Registers = Registers {
        n: 5,
        mac_cr: 0,
        addrh: 0x0000_FFFF,
        addrl: 0xFFFF_FFFF,
        hashh: 0,
        hashl: 0,
        drops: 0,
    };

    pub(crate) fn is_set(&self, bit: u32) -> bool {
        self.mac_cr & bit != 0
    }

    /// 01: "MAC registers by number: 1 MAC_CR, 2 ADDRH, 3 ADDRL, 4 HASHH, 5 HASHL."
    pub(crate) fn numbered(&mut self, register: u32) -> Option<&mut u32> {
        match register {
            1 => Some(&mut self.mac_cr),
            2 => Some(&mut self.addrh),
            3 => Some(&mut self.addrl),
            4 => Some(&mut self.hashh),
            5 => Some(&mut self.hashl),
            _ => None,
        }
    }

    /// 01: "Our address, in wire order, is ADDRL bits 7-0, 15-8, 23-16, 31-24,
    /// ADDRH bits 7-0, 15-8."
    pub(crate) fn our_address(&self) -> [u8; 6] {
        let [a, b, c, d] = self.addrl.to_le_bytes();
        let [e, f, ..] = self.addrh.to_le_bytes();
        [a, b, c, d, e, f]
    }

    /// 01, Ranges: "registers as a write accepts"
    pub(crate) fn are_as_written(&self) -> bool {
        accepts(1, self.mac_cr) && accepts(2, self.addrh)
    }
}

/// 01: "Any other bit set is a bad value; so is an ADDRH above FFFFh." and "Of
/// the table of the 32 settings 15 are defined; writing one of the other 17 is
/// a bad value."
pub(crate) fn accepts(register: u32, value: u32) -> bool {
    match register {
        1 => value & !CARRIED == 0 && crate::filter::rules(value).is_some(),
        2 => value <= 0xFFFF,
        _ => true,
    }
}
