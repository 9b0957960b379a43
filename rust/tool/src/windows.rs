//! Windows over a recording of any size: each goes on where reading stopped in the one before.

use crate::ahead::{Ahead, Block, Sizes};
use crate::failure::Failure;
use std::fs::File;
use std::io::Read;

/// A window as the library's readers take it: `buf[start..end]`, which starts at `base` of the recording.
#[derive(Clone, Copy, Debug)]
pub struct Window<'a> {
    pub buf: &'a [u8],
    pub start: usize,
    pub end: usize,
    pub base: u64,
}

impl<'a> Window<'a> {
    /// The window's bytes.
    pub fn bytes(&self) -> &'a [u8] {
        &self.buf[self.start..self.end]
    }
}

/// The windows of a source, one at a time. The bytes stand in a block as it was read, or, where a packet is longer than blocks allow,
/// in one gathered from several.
pub struct Windows {
    ahead: Ahead,
    /// The block that the window is in; `None`: it is in `gathered`.
    block: Option<Block>,
    /// Used again for each long packet, so that it grows no further than the longest one needs.
    gathered: Vec<u8>,
    start: usize,
    end: usize,
    base: u64,
}

impl Windows {
    /// The windows of a source that begins at `base` of the recording. The first is empty.
    pub fn over<R>(source: R, base: u64, sizes: Sizes) -> Result<Windows, Failure>
    where
        R: Read + Send + 'static,
    {
        Ahead::stream(source, base, sizes).map(|ahead| Windows::new(ahead, base))
    }

    /// The windows of a file from `base` of the recording on, which begins at `origin` of the file and ends, as it was opened, at `end`.
    pub fn over_file(
        file: File,
        origin: u64,
        base: u64,
        end: u64,
        sizes: Sizes,
    ) -> Result<Windows, Failure> {
        Ahead::file(file, origin, base, end, sizes).map(|ahead| Windows::new(ahead, base))
    }

    fn new(ahead: Ahead, base: u64) -> Windows {
        Windows {
            ahead,
            block: None,
            gathered: Vec::new(),
            start: 0,
            end: 0,
            base,
        }
    }

    /// The window that is there now.
    pub fn window(&self) -> Window<'_> {
        Window {
            buf: self.buffer(),
            start: self.start,
            end: self.end,
            base: self.base,
        }
    }

    /// The window starts this many bytes further on.
    pub fn pass(&mut self, bytes: usize) {
        let passed = bytes.min(self.end - self.start);
        self.start += passed;
        self.base += passed as u64;
    }

    /// Puts more bytes behind those of the window, as many as make `need` if the source has them, at least one. False: it has none.
    pub fn grow(&mut self, need: usize) -> Result<bool, Failure> {
        let block = match self.ahead.next()? {
            Some(block) => block,
            None => return Ok(false),
        };
        let rest = self.end - self.start;
        if rest <= block.read().start && rest + block.read().len() >= need {
            self.move_into(block);
        } else {
            self.gather(block, need)?;
        }
        Ok(true)
    }

    fn buffer(&self) -> &[u8] {
        match &self.block {
            Some(block) => block.buffer(),
            None => &self.gathered,
        }
    }

    /// The window's bytes go into the headroom of this block.
    fn move_into(&mut self, mut block: Block) {
        self.start = block.put_ahead(self.window().bytes());
        self.end = block.read().end;
        if let Some(before) = self.block.replace(block) {
            self.ahead.give_back(before);
        }
    }

    /// Gathers the window's bytes, this block's and as many blocks' behind it as `need` takes.
    fn gather(&mut self, block: Block, need: usize) -> Result<(), Failure> {
        self.gather_rest(need)?;
        self.append(block);
        while self.gathered.len() < need {
            match self.ahead.next()? {
                Some(block) => self.append(block),
                None => break,
            }
        }
        self.end = self.gathered.len();
        Ok(())
    }

    /// Puts the window's bytes first in the gathered ones, with room behind them for `need` and a block.
    fn gather_rest(&mut self, need: usize) -> Result<(), Failure> {
        match self.block.take() {
            Some(before) => {
                self.gathered.clear();
                self.make_room(need)?;
                self.gathered
                    .extend_from_slice(&before.buffer()[self.start..self.end]);
                self.ahead.give_back(before);
            }
            None => {
                self.gathered.truncate(self.end);
                self.gathered.drain(..self.start);
                self.make_room(need)?;
            }
        }
        self.start = 0;
        Ok(())
    }

    /// Room for a packet of `need` bytes and a block that begins with its last one.
    fn make_room(&mut self, need: usize) -> Result<(), Failure> {
        let more = need.saturating_sub(self.gathered.len()) + self.ahead.sizes().full;
        self.gathered
            .try_reserve_exact(more)
            .map_err(|_| Failure::Memory(need))
    }

    fn append(&mut self, block: Block) {
        self.gathered
            .extend_from_slice(&block.buffer()[block.read()]);
        self.ahead.give_back(block);
    }
}
