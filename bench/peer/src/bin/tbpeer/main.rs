//! A peer of `tbpipe list`, written by hand in Rust: the same scripts in, the same lines out.

mod list;
mod listing;
mod script;

use list::List;
use listing::put_listing;
use script::Script;
use std::io::{Read, Write};
use std::process::ExitCode;

const SCRIPT_MAX: usize = 16_777_216;

/// What is printed of a script, and whether it has no fault.
fn output_of(text: &[u8]) -> (Vec<u8>, bool) {
    if text.len() > SCRIPT_MAX {
        return (b"fault 0 script too long\n".to_vec(), false);
    }
    match Script::parse(text) {
        Ok(script) => {
            let mut list = List::new(script.clock(), script.limit());
            let lines = list.run(script.items);
            let mut out = Vec::new();
            put_listing(&mut out, &lines, &list);
            (out, true)
        }
        Err((line, fault)) => {
            let out = format!("fault {line} {}\n", fault.text());
            (out.into_bytes(), false)
        }
    }
}

fn main() -> ExitCode {
    let words: Vec<_> = std::env::args().skip(1).collect();
    if words != ["list"] {
        println!("usage: tbpeer list");
        return ExitCode::from(1);
    }
    let mut text = Vec::new();
    let most = SCRIPT_MAX as u64 + 1;
    if std::io::stdin()
        .lock()
        .take(most)
        .read_to_end(&mut text)
        .is_err()
    {
        println!("fault read failed");
        return ExitCode::from(2);
    }
    let (out, faultless) = output_of(&text);
    let mut stdout = std::io::stdout().lock();
    if stdout
        .write_all(&out)
        .and_then(|()| stdout.flush())
        .is_err()
    {
        return ExitCode::from(2);
    }
    ExitCode::from(u8::from(!faultless))
}
