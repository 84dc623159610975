//! Blocks of eight lanes, each of 16, 32 or 64 bits.

use std::ops::{Add, Sub};
use std::simd::prelude::*;
use std::simd::{Select, SimdElement, simd_swizzle};

pub const LANES: usize = 8;

pub type Block<T> = Simd<T, LANES>;

/// What is at the positions of a machine, block by block. Operations by falling tail run down the first lanes of all
/// blocks, then down the second lanes, and so on. If nothing waits at a position, its head is `NONE`.
#[derive(Clone, Copy)]
pub struct Row<'r, T: SimdElement> {
    pub heads: &'r [Block<T>],
    pub times: &'r [Block<T>],
    pub tails: &'r [Block<T>],
}

/// A number in a lane, and what is done with blocks of such numbers. Times of events are stored one greater, so that 0
/// is `NONE`.
pub trait Lane: SimdElement + Ord + Add<Output = Self> + Sub<Output = Self> + Send + Sync {
    const NONE: Self;
    const NEVER: Self;
    /// Time 0.
    const BEGIN: Self;

    fn of(number: u64) -> Self;
    fn number(self) -> u64;
    fn saturating_add(self, other: Self) -> Self;
    fn in_all_lanes(self) -> Block<Self>;
    fn greatest(block: Block<Self>) -> Self;

    /// The first place of the least number of some blocks, and this number.
    fn least(blocks: &[Block<Self>]) -> (usize, Self);

    /// The least number above a limit; if there is none, a number that isn't above the limit.
    fn least_above(blocks: &[Block<Self>], limit: Self) -> Self;

    /// A bit for each lane of up to eight blocks: is it below the limit, and not `NONE`?
    fn moments_below(blocks: &[Block<Self>], limit: Self) -> u64;

    /// A bit for each lane of up to eight blocks: is it below the limit?
    fn below(blocks: &[Block<Self>], limit: Self) -> u64;

    /// A bit for each lane of up to eight blocks: is it this number?
    fn equal_to(blocks: &[Block<Self>], number: Self) -> u64;

    /// The load of what waits with a head of at least `from`, served by falling tail from 0 on: the greatest end, tail
    /// included.
    fn load(row: Row<Self>, from: Self) -> Self;

    /// For each lane the own span of the operation that waits there: the greatest end, tails included, of the others on
    /// the machine, if the operation goes first and they follow; but no less than the operation's own end.
    fn own_spans(row: Row<Self>, spans: &mut [Block<Self>]);
}

/// In each lane the sum of the lanes up to it.
macro_rules! sums_up_to {
    ($lanes:expr) => {{
        let zero = Block::splat(0);
        let sums = $lanes;
        let sums = sums + simd_swizzle!(sums, zero, [8, 0, 1, 2, 3, 4, 5, 6]);
        let sums = sums + simd_swizzle!(sums, zero, [8, 8, 0, 1, 2, 3, 4, 5]);
        sums + simd_swizzle!(sums, zero, [8, 8, 8, 8, 0, 1, 2, 3])
    }};
}

/// In each lane the greatest of the lanes before it, or 0.
macro_rules! greatest_before {
    ($lanes:expr) => {{
        let zero = Block::splat(0);
        let most = $lanes;
        let most = most.simd_max(simd_swizzle!(most, zero, [8, 0, 1, 2, 3, 4, 5, 6]));
        let most = most.simd_max(simd_swizzle!(most, zero, [8, 8, 0, 1, 2, 3, 4, 5]));
        let most = most.simd_max(simd_swizzle!(most, zero, [8, 8, 8, 8, 0, 1, 2, 3]));
        simd_swizzle!(most, zero, [8, 0, 1, 2, 3, 4, 5, 6])
    }};
}

/// In each lane the greatest of the lanes after it, or 0.
macro_rules! greatest_behind {
    ($lanes:expr) => {{
        let zero = Block::splat(0);
        let most = $lanes;
        let most = most.simd_max(simd_swizzle!(most, zero, [1, 2, 3, 4, 5, 6, 7, 8]));
        let most = most.simd_max(simd_swizzle!(most, zero, [2, 3, 4, 5, 6, 7, 8, 8]));
        let most = most.simd_max(simd_swizzle!(most, zero, [4, 5, 6, 7, 8, 8, 8, 8]));
        simd_swizzle!(most, zero, [1, 2, 3, 4, 5, 6, 7, 8])
    }};
}

/// The bits of a test of each block, two blocks at a time, since the masks of two fit one register.
macro_rules! bits_of {
    ($blocks:expr, $test:expr) => {{
        let (pairs, last) = $blocks.as_chunks::<2>();
        let mut bits = 0;
        for (number, [low, high]) in pairs.iter().enumerate() {
            bits |= joined!($test(*low), $test(*high)).to_bitmask() << (2 * LANES * number);
        }
        if let [last] = last {
            bits |= $test(*last).to_bitmask() << (2 * LANES * pairs.len());
        }
        bits
    }};
}

macro_rules! joined {
    ($low:expr, $high:expr) => {{
        let lanes =
            simd_swizzle!($low.to_simd(), $high.to_simd(), [0, 1, 2, 3, 4, 5, 6, 7, 8, 9, 10, 11, 12, 13, 14, 15]);
        // SAFETY: the lanes of two masks are those of a mask
        unsafe { Mask::<_, { 2 * LANES }>::from_simd_unchecked(lanes) }
    }};
}

macro_rules! lane {
    ($number:ident) => {
        impl Lane for $number {
            const NONE: Self = 0;
            const NEVER: Self = Self::MAX;
            const BEGIN: Self = 1;

            #[inline(always)]
            fn of(number: u64) -> Self {
                number.try_into().expect("lanes are wide enough for all moments of the instance")
            }

            #[inline(always)]
            fn number(self) -> u64 {
                self.into()
            }

            #[inline(always)]
            fn saturating_add(self, other: Self) -> Self {
                self.saturating_add(other)
            }

            #[inline(always)]
            fn in_all_lanes(self) -> Block<Self> {
                Block::splat(self)
            }

            #[inline(always)]
            fn greatest(block: Block<Self>) -> Self {
                block.reduce_max()
            }

            #[inline(always)]
            fn least(blocks: &[Block<Self>]) -> (usize, Self) {
                let least =
                    blocks.iter().fold(Block::splat(Self::MAX), |least, block| least.simd_min(*block)).reduce_min();
                let is_least = |block: Block<Self>| block.simd_eq(Block::splat(least));
                if let [low, high] = blocks {
                    let bits = joined!(is_least(*low), is_least(*high)).to_bitmask();
                    return (bits.trailing_zeros() as usize, least);
                }
                let mut bits = blocks.iter().map(|block| is_least(*block).to_bitmask()).enumerate();
                let (number, bits) = bits.find(|(_, bits)| *bits != 0).expect("the least is one of them");
                (number * LANES + bits.trailing_zeros() as usize, least)
            }

            #[inline(always)]
            fn least_above(blocks: &[Block<Self>], limit: Self) -> Self {
                // what isn't above the limit wraps to the greatest numbers
                let from = Block::splat(limit + 1);
                let least = blocks.iter().fold(Block::splat(Self::MAX), |least, block| least.simd_min(*block - from));
                least.reduce_min().wrapping_add(limit + 1)
            }

            #[inline(always)]
            fn moments_below(blocks: &[Block<Self>], limit: Self) -> u64 {
                // 0 less 1 wraps to the greatest number
                let one = Block::splat(1);
                let limit = Block::splat(limit - 1);
                bits_of!(blocks, |block: Block<Self>| (block - one).simd_lt(limit))
            }

            #[inline(always)]
            fn below(blocks: &[Block<Self>], limit: Self) -> u64 {
                let limit = Block::splat(limit);
                bits_of!(blocks, |block: Block<Self>| block.simd_lt(limit))
            }

            #[inline(always)]
            fn equal_to(blocks: &[Block<Self>], number: Self) -> u64 {
                let number = Block::splat(number);
                bits_of!(blocks, |block: Block<Self>| block.simd_eq(number))
            }

            #[inline(always)]
            fn load(row: Row<Self>, from: Self) -> Self {
                let zero = Block::splat(0);
                let from = Block::splat(from);
                let mut sums = zero;
                let mut greatest = zero;
                for ((heads, times), tails) in row.heads.iter().zip(row.times).zip(row.tails) {
                    let is_served = heads.simd_ge(from);
                    sums += is_served.select(*times, zero);
                    // if nothing is served in a lane, this is the end of what was served before
                    greatest = greatest.simd_max(sums + is_served.select(*tails, zero));
                }
                // in an empty lane this is no more than the end of what was served before
                (greatest + (sums_up_to!(sums) - sums)).reduce_max()
            }

            #[inline(always)]
            fn own_spans(row: Row<Self>, spans: &mut [Block<Self>]) {
                let zero = Block::splat(0);
                let mut sums = zero;
                let mut greatest = zero;
                for (((heads, times), tails), span) in row.heads.iter().zip(row.times).zip(row.tails).zip(&mut *spans) {
                    *span = greatest;
                    let waits = heads.simd_ne(zero);
                    sums += waits.select(*times, zero);
                    greatest = greatest.simd_max(sums + waits.select(*tails, zero));
                }
                let lanes_before = sums_up_to!(sums) - sums;
                let ends = lanes_before + greatest;
                let before = greatest_before!(ends);
                let mut behind = greatest_behind!(ends);
                let mut clocks = lanes_before + sums;
                for (((heads, times), tails), span) in row.heads.iter().zip(row.times).zip(row.tails).zip(spans).rev() {
                    let waits = heads.simd_ne(zero);
                    let first = before.simd_max(lanes_before + *span);
                    *span = *heads + *times + first.simd_max(behind.saturating_sub(*times));
                    behind = behind.simd_max(clocks + waits.select(*tails, zero));
                    clocks -= waits.select(*times, zero);
                }
            }
        }
    };
}

lane!(u16);
lane!(u32);
lane!(u64);
