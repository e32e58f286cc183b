//! Ids as TigerBeetle's clients make them.

use std::collections::hash_map::RandomState;
use std::hash::BuildHasher;
use std::sync::Mutex;
use std::time::{SystemTime, UNIX_EPOCH};

/// The process that made the last id, its milliseconds, and its lower 80 bits.
static LAST: Mutex<(u32, u128, u128)> = Mutex::new((0, 0, 0));

/// Returns an id that is above all that this process made before: milliseconds since 1970 in 48 bits, above 80 bits that are
/// random in each millisecond's first id and rise by one in it. Those of a forked child differ from its parent's.
///
/// # Panics
///
/// If a millisecond has no id left.
pub fn id() -> u128 {
    let now = SystemTime::now().duration_since(UNIX_EPOCH).map_or(0, |since| since.as_millis());
    let mut last = LAST.lock().unwrap_or_else(|poisoned| poisoned.into_inner());
    // (a forked child has its parent's last id, and its parent's keys of `RandomState`)
    let process = std::process::id();
    if now > last.1 || process != last.0 {
        let random = u128::from(RandomState::new().hash_one((process, 0))) << 64;
        *last = (process, now.max(last.1), (random | u128::from(RandomState::new().hash_one((process, 1)))) >> 48);
    } else {
        last.2 += 1;
        assert!(last.2 >> 80 == 0, "no id is left in this millisecond");
    }
    last.1 << 80 | last.2
}

#[cfg(test)]
mod tests {
    use std::io::{Read, Write};

    extern "C" {
        fn fork() -> i32;
        fn _exit(status: i32) -> !;
    }

    /// Returns an id that a forked child makes.
    fn id_of_child() -> u128 {
        let (mut read, mut write) = std::io::pipe().expect("a pipe");
        // SAFETY: the child makes an id, writes it and ends; no other thread makes one.
        if unsafe { fork() } == 0 {
            let is_written = write.write_all(&super::id().to_le_bytes()).is_ok();
            unsafe { _exit(i32::from(!is_written)) }
        }
        drop(write);
        let mut bytes = [0; 16];
        read.read_exact(&mut bytes).expect("the child's id");
        u128::from_le_bytes(bytes)
    }

    #[test]
    fn ids_rise_and_a_forked_child_has_its_own() {
        let rising = [(); 10_000].map(|()| super::id());
        assert!(rising.windows(2).all(|pair| pair[0] < pair[1]));
        let wait = || std::thread::sleep(std::time::Duration::from_millis(2));
        let ids = [(); 8].map(|()| {
            wait();
            id_of_child()
        });
        // (a later millisecond makes ids differ by itself)
        let mut random: Vec<u128> = ids.iter().chain(&[super::id()]).map(|id| id & ((1 << 80) - 1)).collect();
        random.sort_unstable();
        random.dedup();
        assert_eq!(random.len(), 9, "{ids:x?}");
    }
}
