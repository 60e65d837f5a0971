//! Command words taken apart. Paper 01, Words for transmission.
//!   Buffer    what an A says; none for alignment 3 or size 0
//!   tag, length, good_first   what a B says

/// One transmit buffer as its A describes it.
#[derive(Clone, Copy, Debug, PartialEq, Eq)]
pub(crate) struct Buffer {
    /// end alignment in bytes: 4, 16 or 32
    alignment: u32,
    /// o
    pub(crate) offset: u32,
    pub(crate) first: bool,
    pub(crate) last: bool,
    /// s
    pub(crate) size: u32,
}

impl Buffer {
    /// 01: "A: 25-24 end alignment (0, 1, 2 mean 4, 16, 32 bytes; 3 bad), 20-16
    /// start offset o, 13 first, 12 last, 10-0 size s (0 bad)." "Other bits are
    /// stored and mean nothing."
    pub(crate) fn of(a: u32) -> Option<Buffer> {
        let alignment = match (a >> 24) & 3 {
            0 => 4,
            1 => 16,
            2 => 32,
            _ => return None,
        };
        let size = a & 0x7FF;
        if size == 0 {
            return None;
        }
        Some(Buffer {
            alignment,
            offset: (a >> 16) & 0x1F,
            first: a & (1 << 13) != 0,
            last: a & (1 << 12) != 0,
            size,
        })
    }

    /// 01: "First is bad with a packet open, and missing First is bad with none
    /// open."
    pub(crate) fn of_when(a: u32, packet_open: bool) -> Option<Buffer> {
        Buffer::of(a).filter(|buffer| buffer.first != packet_open)
    }

    /// 01: "The host writes (o + s) rounded up to the alignment, over 4, payload
    /// words."
    pub(crate) fn host_words(&self) -> u32 {
        (self.offset + self.size).next_multiple_of(self.alignment) / 4
    }

    /// 01: "of the payload, not the first o/4 (rounded down) words"
    pub(crate) fn words_in_front(&self) -> u32 {
        self.offset / 4
    }

    /// 01: "then ((o mod 4) + s)/4 rounded up"
    pub(crate) fn stored_words(&self) -> u32 {
        (self.offset % 4 + self.size).div_ceil(4)
    }

    /// Whether the payload word written as number `k` of this buffer is stored;
    /// 01: "the rest are thrown away and need no room".
    pub(crate) fn stores(&self, k: u32) -> bool {
        k >= self.words_in_front() && k - self.words_in_front() < self.stored_words()
    }

    /// 01: "Sizes so far must not pass p, and equal p at Last; each B judges
    /// this for its own buffer." The sizes with this buffer's; none if they
    /// disagree with p.
    pub(crate) fn added_to(&self, sizes: u32, p: u32) -> Option<u32> {
        let sum = sizes + self.size;
        if sum > p || (self.last && sum != p) {
            return None;
        }
        Some(sum)
    }
}

/// 01: "31-16 tag"
pub(crate) fn tag(b: u32) -> u32 {
    b >> 16
}

/// 01: "10-0 packet length p"
pub(crate) fn length(b: u32) -> u32 {
    b & 0x7FF
}

/// 01: "13 no CRC"
pub(crate) fn no_crc(b: u32) -> bool {
    b & (1 << 13) != 0
}

/// 01: "12 no padding"
pub(crate) fn no_padding(b: u32) -> bool {
    b & (1 << 12) != 0
}

/// 01: "The first B's p must be 1 to 1,514, or to 1,518 with bit 13 set."
pub(crate) fn good_first(b: u32) -> bool {
    let most = if no_crc(b) { 1518 } else { 1514 };
    (1..=most).contains(&length(b))
}
