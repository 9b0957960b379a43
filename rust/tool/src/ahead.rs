//! Reads a source ahead on threads of their own, into blocks that are handed back and filled again.

use crate::failure::Failure;
use crate::fill::{FileFrom, Fill, Over, Stream};
use std::fs::File;
use std::io::Read;
use std::ops::Range;
use std::sync::mpsc::{channel, Receiver, Sender, TryRecvError};
use std::sync::Arc;
use std::thread;

/// The longest packet of every type but 0x01, whose packets are up to 256 times as long.
const LONGEST_COMMON: usize = 524_288;

/// The most lanes; more would only take memory.
const MOST_LANES: usize = 4;

/// How many times as long as one that was filled the next block is.
const GROWTH: usize = 8;

/// How many bytes are read at a time, and how many from the block before can be put ahead of them.
#[derive(Clone, Copy, Debug)]
pub struct Sizes {
    /// In the first block: a short file needs no more. Blocks become longer while reads fill them,
    pub first: usize,
    /// up to this.
    pub full: usize,
    /// Ahead of each block's fill: the rest of the block before, a packet that was cut.
    pub headroom: usize,
    /// How many blocks a lane has at most: one that is looked at, and others that are filled meanwhile.
    pub blocks: usize,
    /// How many threads read a file that is longer than a block, in lanes: each every so manyth block.
    pub lanes: usize,
}

impl Sizes {
    /// The sizes that were measured to be fast; only packets of type 0x01 can be longer than the headroom.
    pub const FAST: Sizes = Sizes {
        first: 65_536,
        full: 4 << 20,
        headroom: LONGEST_COMMON,
        blocks: 3,
        lanes: 1,
    };

    /// The same, with as many lanes as this machine has processors beside the one that looks at the blocks.
    pub fn for_machine() -> Sizes {
        let threads = thread::available_parallelism().map_or(1, |threads| threads.get());
        Sizes {
            lanes: threads.saturating_sub(1).clamp(1, MOST_LANES),
            ..Sizes::FAST
        }
    }

    /// Blocks of this many bytes, for tests.
    pub fn all_of(bytes: usize) -> Sizes {
        Sizes {
            first: bytes,
            full: bytes,
            headroom: bytes.min(LONGEST_COMMON),
            lanes: 3,
            ..Sizes::FAST
        }
    }

    /// How many lanes a file of so many bytes is read in: one where little is to be read.
    fn lanes_for(&self, size: u64) -> usize {
        if size > self.full as u64 {
            self.lanes.max(1)
        } else {
            1
        }
    }

    /// The room of the block behind a full one.
    fn behind(&self, room: usize) -> usize {
        room.saturating_mul(GROWTH).min(self.full)
    }
}

/// Some bytes of a source, with headroom in front.
#[derive(Debug)]
pub struct Block {
    /// The lane that it came from and goes back to.
    lane: usize,
    bytes: Vec<u8>,
    headroom: usize,
    filled: usize,
}

impl Block {
    fn new(lane: usize, headroom: usize, room: usize) -> Result<Block, Failure> {
        let mut bytes = Vec::new();
        let length = headroom.saturating_add(room);
        if bytes.try_reserve_exact(length).is_err() {
            return Err(Failure::Memory(length));
        }
        bytes.resize(length, 0);
        Ok(Block {
            lane,
            bytes,
            headroom,
            filled: 0,
        })
    }

    /// The buffer: headroom, bytes read, and what an earlier use left behind them.
    pub fn buffer(&self) -> &[u8] {
        &self.bytes
    }

    /// Where the bytes read stand in the buffer.
    pub fn read(&self) -> Range<usize> {
        self.headroom..self.headroom + self.filled
    }

    /// Puts the rest of the block before right ahead of the bytes read, and says where it starts. It fits the headroom.
    pub fn put_ahead(&mut self, rest: &[u8]) -> usize {
        let start = self.headroom - rest.len();
        self.bytes[start..self.headroom].copy_from_slice(rest);
        start
    }

    /// How many bytes can be read into it.
    fn room(&self) -> usize {
        self.bytes.len() - self.headroom
    }
}

/// What a lane tells.
enum Report {
    Filled(Block),
    End,
    Failed(Failure),
}

/// The side of a lane that takes the blocks.
struct Lane {
    reports: Receiver<Report>,
    empty: Sender<Block>,
}

/// The side that takes the blocks of all lanes, in their order.
pub struct Ahead {
    lanes: Vec<Lane>,
    /// The lane that the next block comes from.
    turn: usize,
    ended: bool,
    sizes: Sizes,
}

impl Ahead {
    /// Starts to read a source, which begins at this place of the recording.
    /// No thread is waited for: one ends when a read ends and nobody takes its blocks any more.
    pub fn stream<R>(source: R, place: u64, sizes: Sizes) -> Result<Ahead, Failure>
    where
        R: Read + Send + 'static,
    {
        Ahead::start(vec![Stream(source)], place, None, sizes)
    }

    /// Starts to read a file from this place of the recording on, which begins at `origin` of the file and ends, as it was opened, at `end`.
    pub fn file(
        file: File,
        origin: u64,
        place: u64,
        end: u64,
        sizes: Sizes,
    ) -> Result<Ahead, Failure> {
        let file = Arc::new(file);
        let lane = |_| FileFrom::new(Arc::clone(&file), origin);
        let lanes = sizes.lanes_for(end.saturating_sub(place));
        Ahead::start((0..lanes).map(lane).collect(), place, Some(end), sizes)
    }

    /// A lane for each of these, all of one source.
    fn start<S: Fill>(
        sources: Vec<S>,
        place: u64,
        end: Option<u64>,
        sizes: Sizes,
    ) -> Result<Ahead, Failure> {
        let (count, mut lanes) = (sources.len(), Vec::new());
        for (lane, source) in sources.into_iter().enumerate() {
            let (filled, reports) = channel();
            let (empty, emptied) = channel();
            let mut reader = Reader {
                source,
                lane,
                lanes: count,
                sizes,
                place,
                end,
                room: sizes.first,
                made: 0,
                emptied,
            };
            reader.pass_over(lane);
            thread::Builder::new()
                .spawn(move || reader.read_all(&filled))
                .map_err(|error| Failure::Thread(Some(error)))?;
            lanes.push(Lane { reports, empty });
        }
        Ok(Ahead {
            lanes,
            turn: 0,
            ended: false,
            sizes,
        })
    }

    /// The next block, with at least one byte; `None` at the source's end.
    pub fn next(&mut self) -> Result<Option<Block>, Failure> {
        if self.ended {
            return Ok(None);
        }
        match self.lanes[self.turn].reports.recv() {
            Ok(Report::Filled(block)) => {
                // Behind a block that isn't full its lane has more to tell.
                if block.filled == block.room() {
                    self.turn = (self.turn + 1) % self.lanes.len();
                }
                Ok(Some(block))
            }
            Ok(Report::End) => {
                self.ended = true;
                Ok(None)
            }
            Ok(Report::Failed(failure)) => Err(failure),
            Err(_) => Err(Failure::Thread(None)),
        }
    }

    /// Hands a block back to be filled again.
    pub fn give_back(&self, block: Block) {
        // The thread may have ended: then nothing is to be filled.
        let _ = self.lanes[block.lane].empty.send(block);
    }

    /// The sizes of the blocks.
    pub fn sizes(&self) -> Sizes {
        self.sizes
    }
}

/// The side of a lane that fills its blocks, on its thread.
struct Reader<S> {
    source: S,
    lane: usize,
    /// How many lanes there are.
    lanes: usize,
    sizes: Sizes,
    /// The place in the recording that is read next.
    place: u64,
    /// Where the recording ends, as it was when it was opened.
    end: Option<u64>,
    /// How many bytes the next block is to hold.
    room: usize,
    /// How many blocks were made, but for those that took the place of a shorter one.
    made: usize,
    emptied: Receiver<Block>,
}

impl<S: Fill> Reader<S> {
    /// Fills blocks up to the source's end, a failure, or until nobody takes them.
    fn read_all(mut self, reports: &Sender<Report>) {
        loop {
            let mut block = match self.empty_block() {
                Ok(Some(block)) => block,
                Ok(None) => return,
                Err(failure) => {
                    let _ = reports.send(Report::Failed(failure));
                    return;
                }
            };
            let (filled, over) = self
                .source
                .fill(self.place, &mut block.bytes[block.headroom..]);
            block.filled = filled;
            self.passed(filled);
            if filled > 0 && reports.send(Report::Filled(block)).is_err() {
                return;
            }
            if let Some(over) = over {
                // Where nobody takes it, nobody needs it.
                let _ = reports.send(self.last_report(over));
                return;
            }
        }
    }

    /// A block that was handed back; a new one while there are few. `None` where nobody is left to hand one back.
    fn empty_block(&mut self) -> Result<Option<Block>, Failure> {
        let new = |reader: &Reader<S>| Block::new(reader.lane, reader.sizes.headroom, reader.room);
        let back = match self.emptied.try_recv() {
            Err(TryRecvError::Empty) if self.made < self.sizes.blocks => {
                self.made += 1;
                return new(self).map(Some);
            }
            Err(TryRecvError::Empty) => self.emptied.recv().ok(),
            Err(TryRecvError::Disconnected) => None,
            Ok(block) => Some(block),
        };
        match back {
            Some(block) if block.room() < self.room => new(self).map(Some),
            back => Ok(back),
        }
    }

    /// So many bytes were read into a block. Behind a full one come those of the other lanes.
    fn passed(&mut self, filled: usize) {
        if filled == self.room {
            self.pass_over(self.lanes);
        } else {
            self.place = self.place.saturating_add(filled as u64);
        }
    }

    /// Passes over so many full blocks.
    fn pass_over(&mut self, blocks: usize) {
        for _ in 0..blocks {
            self.place = self.place.saturating_add(self.room as u64);
            self.room = self.sizes.behind(self.room);
        }
    }

    /// The source gives no more: its end, ahead of the end that it had when it was opened, or an error.
    fn last_report(&self, over: Over) -> Report {
        let place = self.place;
        match (over, self.end) {
            (Over::Error(error), _) => Report::Failed(Failure::Read { place, error }),
            (Over::End, Some(size)) if place < size => {
                Report::Failed(Failure::Shorter { got: place, size })
            }
            (Over::End, _) => Report::End,
        }
    }
}
