//! The bodies of held records.

use std::collections::TryReserveError;

// The usual size of a block in bytes.
const BLOCK_SIZE: usize = 256 * 1024;

/// Bodies in blocks. The memory of a block is used again once all of its bodies are released.
pub(crate) struct Bodies {
    blocks: Vec<Block>,
    // The block that bodies are appended to.
    current: usize,
    // Other blocks without bodies.
    vacant: Vec<usize>,
}

#[derive(Default)]
struct Block {
    bytes: Vec<u8>,
    count: usize,
}

/// A body: a range of the bytes of a block.
#[derive(Clone, Copy)]
pub(crate) struct Body {
    block: u32,
    // Below `BLOCK_SIZE`: a longer body has a block of its own.
    start: u32,
    len: usize,
}

impl Bodies {
    pub(crate) fn new() -> Self {
        Bodies {
            blocks: Vec::new(),
            current: 0,
            vacant: Vec::new(),
        }
    }

    // Makes a block with capacity for a body the current one.
    #[cold]
    fn start_block(&mut self, len: usize) -> Result<(), TryReserveError> {
        let is_vacant = |block: &Block| block.count == 0;
        let next = if self.blocks.get(self.current).is_some_and(is_vacant) {
            self.current
        } else if let Some(vacant) = self.vacant.pop() {
            vacant
        } else {
            self.blocks.try_reserve(1)?;
            self.blocks.push(Block::default());
            // Room for each block, so that `release` needs no memory.
            self.vacant.try_reserve(self.blocks.len())?;
            self.blocks.len() - 1
        };
        self.current = next;
        let block = &mut self.blocks[next];
        block.bytes.clear();
        block.bytes.try_reserve_exact(len.max(BLOCK_SIZE))
    }

    /// Copies a body.
    #[inline]
    pub(crate) fn append(&mut self, bytes: &[u8]) -> Result<Body, TryReserveError> {
        let fits = |block: &Block| {
            let used = block.bytes.len();
            used < BLOCK_SIZE && bytes.len() <= block.bytes.capacity() - used
        };
        if !self.blocks.get(self.current).is_some_and(fits) {
            self.start_block(bytes.len())?;
        }
        let block = &mut self.blocks[self.current];
        let start = block.bytes.len();
        block.bytes.extend_from_slice(bytes);
        block.count += 1;
        Ok(Body {
            block: self.current as u32,
            start: start as u32,
            len: bytes.len(),
        })
    }

    /// Returns the bytes of a body that isn't released.
    #[inline]
    pub(crate) fn get(&self, body: Body) -> &[u8] {
        let start = body.start as usize;
        &self.blocks[body.block as usize].bytes[start..start + body.len]
    }

    /// Releases a body, once.
    #[inline]
    pub(crate) fn release(&mut self, body: Body) {
        let index = body.block as usize;
        let block = &mut self.blocks[index];
        block.count -= 1;
        if block.count == 0 {
            block.bytes.clear();
            if block.bytes.capacity() > BLOCK_SIZE {
                block.bytes = Vec::new();
            }
            if index != self.current {
                self.vacant.push(index);
            }
        }
    }
}
