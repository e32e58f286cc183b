//! Submitters of a live run: the first serves the input, some others send packets, the rest sleep until the input has ended.

use std::io::{Read, Write, stdin, stdout};
use std::sync::OnceLock;

/// Whether the input has ended.
#[derive(Default)]
pub struct Over(OnceLock<()>);

impl Over {
    pub fn end(&self) {
        self.0.get_or_init(|| ());
    }

    pub fn is_ended(&self) -> bool {
        self.0.get().is_some()
    }

    /// Sleeps until the input has ended.
    pub fn wait(&self) {
        self.0.wait();
    }
}

/// What a submitter does until the input has ended.
pub enum Part {
    Echoes,
    Loads,
    Sleeps,
}

impl Part {
    /// Returns the part of a submitter, if this number of others send packets beside the first.
    pub fn of(submitter: u32, loads: u32) -> Part {
        match submitter {
            0 => Part::Echoes,
            _ if submitter <= loads => Part::Loads,
            _ => Part::Sleeps,
        }
    }
}

/// Serves each byte of the input, by its number, and writes a byte after it, until the input has ended.
pub fn echo<E>(mut serve: impl FnMut(u64) -> Result<(), E>) -> Result<(), E> {
    let mut input = stdin().lock();
    let mut output = stdout().lock();
    let mut byte = [0];
    let mut served = 0;
    while matches!(input.read(&mut byte), Ok(1)) {
        served += 1;
        serve(served)?;
        if output
            .write_all(b".")
            .and_then(|()| output.flush())
            .is_err()
        {
            break;
        }
    }
    Ok(())
}
