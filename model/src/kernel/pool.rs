//! The pools of blocks: which are free, how few were, their generations, what the taken ones hold, and
//! which are retired.

use super::command::Handle;
use super::numbers::{BLOCKS, LAST_GENERATION};
use std::ops::{Range, RangeInclusive};

/// The blocks of each pool and how many bytes each of them holds, smallest first.
const POOLS: [(RangeInclusive<u8>, u8); 3] = [(0..=31, 16), (32..=47, 32), (48..=55, 64)];

/// What is known of an event besides its payload.
#[derive(Clone, Copy, Debug, PartialEq, Eq)]
pub struct Content {
    pub signal: u8,
    pub size: u8,
    pub holds: u8,
}

/// A taken block is new or counted: its references tell.
#[derive(Clone, Debug, Default, PartialEq, Eq)]
enum State {
    #[default]
    Free,
    Taken(Content),
    Retired,
}

#[derive(Clone, Debug, Default, PartialEq, Eq)]
struct Block {
    generation: u32,
    state: State,
}

#[derive(Clone, Debug, PartialEq, Eq)]
pub struct Pool {
    blocks: Vec<Block>,
    /// Of each pool the least number of free blocks that it has had since the fresh start.
    marks: [u8; POOLS.len()],
}

impl Pool {
    pub fn fresh() -> Self {
        Pool {
            blocks: BLOCKS.map(|_| Block::default()).collect(),
            marks: POOLS.map(|(blocks, _)| blocks.len() as u8),
        }
    }

    /// The lowest free block of the first pool whose blocks are large enough.
    pub fn lowest_free(&self, size: u8) -> Option<u8> {
        let (blocks, _) = POOLS.iter().find(|(_, bytes)| *bytes >= size)?;
        blocks.clone().find(|&block| self.is_free(block))
    }

    /// Puts a new event in a free block; the mark of the block's pool, this block counted as taken.
    /// The generation moved when the block was freed.
    pub fn fill(&mut self, block: u8, signal: u8, size: u8) -> u8 {
        self.block_mut(block).state = State::Taken(Content {
            signal,
            size,
            holds: 0,
        });
        self.lower_mark(pool_of(block))
    }

    /// Called for each block taken and nowhere else: nothing else makes the free ones fewer.
    fn lower_mark(&mut self, pool: usize) -> u8 {
        let mark = self.marks[pool].min(self.free_blocks(pool));
        self.marks[pool] = mark;
        mark
    }

    /// Counted anew each time, so that no counter can go astray.
    fn free_blocks(&self, pool: usize) -> u8 {
        let (blocks, _) = POOLS[pool].clone();
        let free = blocks.filter(|&block| self.is_free(block));
        free.count() as u8
    }

    /// A retired block is not free: it counts as taken.
    fn is_free(&self, block: u8) -> bool {
        self.blocks[usize::from(block)].state == State::Free
    }

    /// Gives a taken block back with the next generation; where there is none, it is retired and keeps its own.
    pub fn free(&mut self, block: u8) {
        let freed = self.block_mut(block);
        if freed.generation == LAST_GENERATION {
            freed.state = State::Retired;
        } else {
            freed.state = State::Free;
            freed.generation += 1;
        }
    }

    /// What the block holds; nothing if it is not taken or there is no such block.
    pub fn content(&self, block: u8) -> Option<&Content> {
        match &self.blocks.get(usize::from(block))?.state {
            State::Taken(content) => Some(content),
            State::Free | State::Retired => None,
        }
    }

    /// What a taken block holds.
    pub fn content_mut(&mut self, block: u8) -> &mut Content {
        match &mut self.block_mut(block).state {
            State::Taken(content) => content,
            State::Free | State::Retired => unreachable!("the block is taken"),
        }
    }

    /// The handle with the generation that the block has now, be it taken or not.
    pub fn handle(&self, block: u8) -> Handle {
        Handle {
            block,
            generation: self.blocks[usize::from(block)].generation,
        }
    }

    /// Whether the block is free or retired, or the generation differs; so for absent blocks too.
    pub fn is_stale(&self, handle: Handle) -> bool {
        self.content(handle.block).is_none() || self.handle(handle.block) != handle
    }

    /// Spares a test millions of frees.
    #[cfg(test)]
    pub fn set_generation(&mut self, block: u8, generation: u32) {
        self.block_mut(block).generation = generation;
    }

    fn block_mut(&mut self, block: u8) -> &mut Block {
        &mut self.blocks[usize::from(block)]
    }
}

/// The part of the payload area that belongs to a block.
pub fn place(block: u8) -> Range<usize> {
    let begin = (0..block).map(block_bytes).sum();
    begin..begin + block_bytes(block)
}

fn block_bytes(block: u8) -> usize {
    let (_, bytes) = POOLS[pool_of(block)];
    usize::from(bytes)
}

/// The number of the pool that has the block.
fn pool_of(block: u8) -> usize {
    let pool = POOLS.iter().position(|(blocks, _)| blocks.contains(&block));
    pool.expect("each block is in a pool")
}

#[cfg(test)]
mod tests {
    use super::*;
    use crate::kernel::numbers::PAYLOADS_BYTES;

    #[test]
    fn places_follow_each_other_and_fill_the_area() {
        assert_eq!(place(0), 0..16);
        assert_eq!(place(31), 496..512);
        assert_eq!(place(32), 512..544);
        assert_eq!(place(47), 992..1_024);
        assert_eq!(place(48), 1_024..1_088);
        assert_eq!(place(55), 1_472..PAYLOADS_BYTES);
        assert!(BLOCKS.skip(1).all(|b| place(b - 1).end == place(b).start));
    }

    #[test]
    fn the_size_chooses_the_pool() {
        let pool = Pool::fresh();
        for (size, block) in [
            (0, 0),
            (16, 0),
            (17, 32),
            (20, 32),
            (32, 32),
            (33, 48),
            (64, 48),
        ] {
            assert_eq!(pool.lowest_free(size), Some(block));
        }
    }

    #[test]
    fn the_lowest_free_block_comes_first() {
        let mut pool = Pool::fresh();
        for block in 0..=5 {
            pool.fill(block, 4, 1);
        }
        pool.free(4);
        pool.free(2);
        assert_eq!(pool.lowest_free(1), Some(2));
        pool.fill(2, 4, 1);
        assert_eq!(pool.lowest_free(1), Some(4));
    }

    #[test]
    fn no_block_is_borrowed_from_a_larger_pool() {
        let mut pool = Pool::fresh();
        for block in 0..=31 {
            pool.fill(block, 4, 16);
        }
        assert_eq!(pool.lowest_free(16), None);
        assert_eq!(pool.lowest_free(17), Some(32));
    }

    #[test]
    fn the_mark_stays_where_the_pool_was_lowest() {
        let mut pool = Pool::fresh();
        assert_eq!(pool.fill(48, 4, 64), 7);
        assert_eq!(pool.fill(49, 4, 64), 6);
        pool.free(48);
        pool.free(49);
        assert_eq!(pool.fill(48, 4, 64), 6);
        assert_eq!(pool.fill(32, 4, 32), 15);
        assert_eq!(pool.fill(0, 4, 16), 31);
    }

    /// Takes the block, which has to be the lowest free one of its pool, and frees it; the handle that it had.
    fn live_and_die(pool: &mut Pool, block: u8) -> Handle {
        let (_, bytes) = POOLS[pool_of(block)];
        assert_eq!(pool.lowest_free(bytes), Some(block));
        pool.fill(block, 4, bytes);
        let handle = pool.handle(block);
        assert!(!pool.is_stale(handle));
        pool.free(block);
        assert!(pool.is_stale(handle));
        handle
    }

    #[test]
    fn the_generation_goes_up_at_each_free() {
        let mut pool = Pool::fresh();
        for generation in 0..300 {
            assert_eq!(pool.handle(0).generation, generation);
            assert!(pool.is_stale(pool.handle(0)));
            assert_eq!(live_and_die(&mut pool, 0).generation, generation);
        }
    }

    /// Block 48 is handed out once with each generation from this one on, and after the last it is retired.
    fn hand_out_all(first: u32) {
        let mut pool = Pool::fresh();
        pool.set_generation(48, first);
        for generation in first..=LAST_GENERATION {
            assert_eq!(live_and_die(&mut pool, 48).generation, generation);
        }
        assert!(!pool.is_free(48));
        assert_eq!(pool.handle(48).generation, LAST_GENERATION);
        assert!(pool.is_stale(pool.handle(48)));
        assert_eq!(pool.lowest_free(64), Some(49));
    }

    #[test]
    fn the_last_handles_of_a_block_are_handed_out_once() {
        hand_out_all(LAST_GENERATION);
        hand_out_all(LAST_GENERATION - 1);
        hand_out_all(LAST_GENERATION - 300);
    }

    #[test]
    #[cfg_attr(
        debug_assertions,
        ignore = "sixteen million lives are quick only in an optimised build"
    )]
    fn all_handles_of_a_block_are_handed_out_once() {
        hand_out_all(0);
    }

    #[test]
    fn a_retired_block_is_stale_with_every_generation() {
        let mut pool = Pool::fresh();
        pool.set_generation(7, LAST_GENERATION);
        pool.fill(7, 4, 1);
        pool.free(7);
        for generation in [0, 1, 255, 65_535, LAST_GENERATION - 1, LAST_GENERATION] {
            let block = 7;
            assert!(pool.is_stale(Handle { block, generation }));
        }
    }

    #[test]
    fn a_retired_block_counts_as_taken() {
        let mut pool = Pool::fresh();
        for block in 48..=55 {
            pool.set_generation(block, LAST_GENERATION);
            assert_eq!(pool.fill(block, 4, 64), 55 - block);
            pool.free(block);
        }
        assert_eq!(pool.free_blocks(2), 0);
        assert_eq!(pool.lowest_free(64), None);
        assert_eq!(pool.lowest_free(32), Some(32));
    }

    #[test]
    fn each_byte_of_a_generation_counts() {
        let mut pool = Pool::fresh();
        for fitting in [0, 0x01_0203, 0x80_8080, LAST_GENERATION] {
            pool.set_generation(9, fitting);
            pool.fill(9, 4, 1);
            let is_stale = |generation| {
                let block = 9;
                pool.is_stale(Handle { block, generation })
            };
            assert!(!is_stale(fitting));
            assert!((0..24).all(|bit| is_stale(fitting ^ 1 << bit)));
        }
    }
}
