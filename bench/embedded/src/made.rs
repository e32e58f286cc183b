//! Made packets: events of every kind from a seed, many of them with one field changed.

use peer::layout::{CREATE_ACCOUNTS, CREATE_TRANSFERS, LOOKUP_ACCOUNTS};

/// A generator of numbers (splitmix64).
pub struct Numbers(pub u64);

impl Numbers {
    pub fn next(&mut self) -> u64 {
        self.0 = self.0.wrapping_add(0x9e37_79b9_7f4a_7c15);
        let mut z = self.0;
        z = (z ^ (z >> 30)).wrapping_mul(0xbf58_476d_1ce4_e5b9);
        z = (z ^ (z >> 27)).wrapping_mul(0x94d0_49bb_1331_11eb);
        z ^ (z >> 31)
    }

    pub fn below(&mut self, end: u64) -> u64 {
        self.next() % end
    }

    fn one_in(&mut self, count: u64) -> bool {
        self.below(count) == 0
    }

    fn among<T: Copy>(&mut self, choices: &[T]) -> T {
        choices[self.below(choices.len() as u64) as usize]
    }
}

pub struct Made {
    pub operation: u8,
    pub data: Vec<u8>,
}

/// Account ids are 1 to this.
pub const ACCOUNTS: u64 = 300;

fn put(event: &mut [u8; 128], offset: usize, bytes: &[u8]) {
    event[offset..offset + bytes.len()].copy_from_slice(bytes);
}

/// Overwrites one field with zero, one, or its greatest number.
fn change_a_field(numbers: &mut Numbers, event: &mut [u8; 128]) {
    let (offset, size) = numbers.among(&[
        (0, 16), (16, 16), (32, 16), (48, 16), (64, 16), (80, 16), (96, 8), (104, 4), (108, 4), (112, 4), (116, 2),
        (118, 2), (120, 8),
    ]);
    let value = numbers.among(&[0_u128, 1, 2, 5, 31, u128::MAX, u128::MAX - 1]);
    put(event, offset, &value.to_le_bytes()[..size]);
}

fn account(numbers: &mut Numbers) -> [u8; 128] {
    let mut event = [0; 128];
    put(&mut event, 0, &u128::from(1 + numbers.below(ACCOUNTS)).to_le_bytes());
    put(&mut event, 112, &(1 + numbers.below(2) as u32).to_le_bytes());
    put(&mut event, 116, &1_u16.to_le_bytes());
    let flags = numbers.among(&[0_u16, 0, 0, 0, 2, 4, 6]);
    put(&mut event, 118, &flags.to_le_bytes());
    event
}

fn transfer(numbers: &mut Numbers, made: u64) -> [u8; 128] {
    let mut event = [0; 128];
    let near = |numbers: &mut Numbers| made.saturating_sub(numbers.below(60)).max(1);
    let id = if numbers.one_in(12) { near(numbers) } else { made + 1 };
    put(&mut event, 0, &u128::from(id).to_le_bytes());
    let flags = numbers.among(&[0_u16, 0, 0, 2, 2, 4, 8, 4, 8, 0, 2, 12]);
    if flags < 4 || numbers.one_in(3) {
        put(&mut event, 16, &u128::from(1 + numbers.below(ACCOUNTS)).to_le_bytes());
        put(&mut event, 32, &u128::from(1 + numbers.below(ACCOUNTS)).to_le_bytes());
        put(&mut event, 112, &(1 + numbers.below(2) as u32).to_le_bytes());
        put(&mut event, 116, &1_u16.to_le_bytes());
    }
    let amount = numbers.among(&[1_u128, 7, 40, u128::MAX, u128::MAX / 2]);
    put(&mut event, 48, &amount.to_le_bytes());
    if flags >= 4 {
        put(&mut event, 64, &u128::from(near(numbers)).to_le_bytes());
    }
    if flags == 2 && numbers.one_in(2) {
        put(&mut event, 108, &numbers.among(&[1_u32, 2, 3, u32::MAX]).to_le_bytes());
    }
    put(&mut event, 118, &flags.to_le_bytes());
    event
}

/// What was made so far: how many transfers, and some of them.
#[derive(Default)]
pub struct Past {
    made: u64,
    kept: Vec<[u8; 128]>,
}

impl Past {
    fn transfer(&mut self, numbers: &mut Numbers) -> [u8; 128] {
        if !self.kept.is_empty() && numbers.one_in(10) {
            return self.kept[numbers.below(self.kept.len() as u64) as usize];
        }
        let event = transfer(numbers, self.made);
        self.made += 1;
        if self.kept.len() < 50 {
            self.kept.push(event);
        } else {
            self.kept[(self.made % 50) as usize] = event;
        }
        event
    }
}

/// Makes a packet of up to `most` events.
pub fn packet(numbers: &mut Numbers, most: u64, past: &mut Past) -> Made {
    let count = numbers.below(most + 1);
    let operation =
        numbers.among(&[CREATE_ACCOUNTS, CREATE_TRANSFERS, CREATE_TRANSFERS, CREATE_TRANSFERS, LOOKUP_ACCOUNTS]);
    let mut data = Vec::new();
    for _ in 0..count {
        if operation == LOOKUP_ACCOUNTS {
            data.extend(u128::from(numbers.below(ACCOUNTS + 2)).to_le_bytes());
            continue;
        }
        let mut event = if operation == CREATE_ACCOUNTS { account(numbers) } else { past.transfer(numbers) };
        if numbers.one_in(4) {
            change_a_field(numbers, &mut event);
        }
        if numbers.one_in(8) {
            event[118] |= 1;
        }
        data.extend(event);
    }
    Made { operation, data }
}
