//! The four FIFOs in the lent memory. Paper 01, Memory.
//!   layout   where each FIFO lies for a given n; none for n outside 2 to 14
//!   Area     first word and size of one FIFO
//!   Ring     place of the oldest word in the area, and count of words held

/// 01: "The caller lends exactly 4,096 words of 32 bits, 16 KB."
pub(crate) const MEMORY_WORDS: usize = 4096;

/// First word in the memory, and words.
#[derive(Clone, Copy, Debug, PartialEq, Eq)]
pub struct Area {
    pub start: u32,
    pub size: u32,
}

#[derive(Clone, Copy, Debug, PartialEq, Eq)]
pub struct Layout {
    pub tx_data: Area,
    pub tx_status: Area,
    pub rx_data: Area,
    pub rx_status: Area,
}

/// 01: "In words, in this order from word 0", and the table below it.
pub fn layout(n: u32) -> Option<Layout> {
    if !(2..=14).contains(&n) {
        return None;
    }
    let tx_data = Area {
        start: 0,
        size: 256 * n - 128,
    };
    let tx_status = Area {
        start: tx_data.start + tx_data.size,
        size: 128,
    };
    let rx_data = Area {
        start: tx_status.start + tx_status.size,
        size: 240 * (16 - n),
    };
    let rx_status = Area {
        start: rx_data.start + rx_data.size,
        size: 16 * (16 - n),
    };
    Some(Layout {
        tx_data,
        tx_status,
        rx_data,
        rx_status,
    })
}

#[derive(Clone, Copy, Debug, PartialEq, Eq)]
pub struct Ring {
    pub place: u32,
    pub count: u32,
}

impl Ring {
    /// 01: "Word k put into a FIFO since its last restart, counting from 0,
    /// goes to place k mod size", so a restart begins at place 0.
    pub const EMPTY: Ring = Ring { place: 0, count: 0 };
}

impl Area {
    pub(crate) fn holds(self, ring: Ring) -> bool {
        ring.place < self.size && ring.count <= self.size
    }

    pub(crate) fn free(self, ring: Ring) -> u32 {
        self.size.saturating_sub(ring.count)
    }

    /// The word `k` behind the oldest; none unless it is held.
    pub(crate) fn word(self, ring: Ring, memory: &[u32], k: u32) -> Option<u32> {
        if k >= ring.count {
            return None;
        }
        memory.get(self.index(ring, k)).copied()
    }

    /// 01: "A put writes that word only". The caller has seen that one is free.
    pub(crate) fn put(self, ring: &mut Ring, memory: &mut [u32], word: u32) {
        if let Some(cell) = memory.get_mut(self.index(*ring, ring.count)) {
            *cell = word;
            ring.count += 1;
        }
    }

    /// 01: "Room freed by a read is used again." "a read or restart writes no
    /// memory". The caller has seen that so many words are held.
    pub(crate) fn let_go(self, ring: &mut Ring, words: u32) {
        ring.place = (ring.place + words) % self.size;
        ring.count -= words;
    }

    fn index(self, ring: Ring, k: u32) -> usize {
        (self.start + (ring.place + k) % self.size) as usize
    }
}
