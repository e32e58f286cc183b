//! An index from the hash of an id to its place: groups of 64 bytes with 12 lanes.

use super::region::Region;
use std::arch::x86_64::*;

const LANES: usize = 12;

/// The tags of the lanes, and behind them whether the group has overflowed.
#[repr(C, align(64))]
#[derive(Clone, Copy)]
struct Group {
    tags: [u8; 16],
    places: [u32; LANES],
}

pub struct Table {
    groups: Region<Group>,
    mask: usize,
    capacity: usize,
    /// Of each entry, in order of making.
    hashes: Region<u32>,
}

#[inline(always)]
pub fn hash(id: u128) -> u32 {
    let low = id as u64 ^ 0x243f_6a88_85a3_08e3;
    let high = (id >> 64) as u64 ^ 0x9e37_79b9_7f4a_7c15;
    let product = u128::from(low) * u128::from(high);
    (product as u64 ^ (product >> 64) as u64) as u32
}

#[inline(always)]
fn tag(hash: u32) -> u8 {
    ((hash >> 24) as u8).max(1)
}

impl Group {
    /// The lanes with a tag, as bits.
    #[inline(always)]
    fn lanes_with(&self, tag: u8) -> u32 {
        unsafe {
            let tags = _mm_load_si128(self.tags.as_ptr() as *const __m128i);
            let equal = _mm_cmpeq_epi8(tags, _mm_set1_epi8(tag as i8));
            _mm_movemask_epi8(equal) as u32 & 0xfff
        }
    }
}

impl Table {
    /// `room` is how many entries it holds without growing, `most` how many it can hold.
    pub fn new(room: usize, most: usize) -> Table {
        let groups = (room / 9 + 1).next_power_of_two();
        Table {
            groups: Region::zeroed(groups),
            mask: groups - 1,
            capacity: groups * 9,
            hashes: Region::new(most),
        }
    }

    #[inline(always)]
    pub fn prefetch(&self, hash: u32) {
        let group = self.groups.address(hash as usize & self.mask);
        unsafe { _mm_prefetch::<_MM_HINT_T0>(group as *const i8) }
    }

    #[inline(always)]
    pub fn find(&self, hash: u32, is_it: impl Fn(usize) -> bool) -> Option<usize> {
        let mut at = hash as usize & self.mask;
        loop {
            let group = self.groups.get(at);
            let mut lanes = group.lanes_with(tag(hash));
            while lanes != 0 {
                let place = group.places[lanes.trailing_zeros() as usize] as usize;
                if is_it(place) {
                    return Some(place);
                }
                lanes &= lanes - 1;
            }
            if group.tags[LANES] == 0 {
                return None;
            }
            at = (at + 1) & self.mask;
        }
    }

    #[inline(always)]
    pub fn push(&mut self, hash: u32) {
        if self.hashes.len() == self.capacity {
            self.grow();
        }
        self.put(hash, self.hashes.len() as u32);
        self.hashes.push(hash);
    }

    #[inline(always)]
    fn put(&mut self, hash: u32, place: u32) {
        let mut at = hash as usize & self.mask;
        loop {
            let group = self.groups.get_mut(at);
            let free = group.lanes_with(0);
            if free != 0 {
                let lane = free.trailing_zeros() as usize;
                group.tags[lane] = tag(hash);
                group.places[lane] = place;
                return;
            }
            group.tags[LANES] = 1;
            at = (at + 1) & self.mask;
        }
    }

    /// Takes the last entry off.
    pub fn pop(&mut self) {
        let place = self.hashes.len() - 1;
        let mut at = *self.hashes.get(place) as usize & self.mask;
        self.hashes.pop();
        loop {
            let group = self.groups.get_mut(at);
            for lane in 0..LANES {
                if group.tags[lane] != 0 && group.places[lane] == place as u32 {
                    group.tags[lane] = 0;
                    return;
                }
            }
            at = (at + 1) & self.mask;
        }
    }

    #[cold]
    #[inline(never)]
    fn grow(&mut self) {
        let groups = 2 * (self.mask + 1);
        std::mem::replace(&mut self.groups, Region::zeroed(groups)).free();
        self.mask = groups - 1;
        self.capacity = groups * 9;
        for place in 0..self.hashes.len() {
            if place + 16 < self.hashes.len() {
                self.prefetch(*self.hashes.get(place + 16));
            }
            self.put(*self.hashes.get(place), place as u32);
        }
    }
}
