//! The head packet, read back from the memory. Paper 01, refusal 15 "the head
//! packet in memory is none the port would store"; decided point 6: from the
//! oldest word, within the words held, payload words free, nothing behind it
//! judged.
//!   Head   first B, the packet's bytes, the words it takes
//!   head   reads it through a function that gives the k-th oldest word, or
//!          none where none is held; answers none if the port would not store it

use crate::command::{good_first, length, Buffer};

#[derive(Clone, Debug, PartialEq, Eq)]
pub(crate) struct Head {
    pub(crate) b: u32,
    pub(crate) bytes: Vec<u8>,
    pub(crate) words: u32,
}

pub(crate) fn head(word: impl Fn(u32) -> Option<u32>) -> Option<Head> {
    let mut buffer = Buffer::of_when(word(0)?, false)?;
    let b = word(1)?;
    if !good_first(b) {
        return None;
    }
    let mut head = Head {
        b,
        bytes: Vec::new(),
        words: 2,
    };
    let mut sizes = 0;
    loop {
        sizes = buffer.added_to(sizes, length(b))?;
        head.read_payload(&buffer, &word)?;
        if buffer.last {
            return Some(head);
        }
        // 01: "Stored: A always; B if First", so the next A stands here
        buffer = Buffer::of_when(word(head.words)?, true)?;
        head.words += 1;
    }
}

impl Head {
    /// 01: "The packet is, buffer after buffer, the s bytes from the buffer's
    /// byte o on." The first stored word begins at the buffer's byte o less
    /// o mod 4.
    fn read_payload(&mut self, buffer: &Buffer, word: impl Fn(u32) -> Option<u32>) -> Option<()> {
        let mut payload = Vec::new();
        for k in 0..buffer.stored_words() {
            payload.extend(word(self.words + k)?.to_le_bytes());
        }
        let from = (buffer.offset % 4) as usize;
        self.bytes
            .extend(payload.iter().skip(from).take(buffer.size as usize));
        self.words += buffer.stored_words();
        Some(())
    }
}
