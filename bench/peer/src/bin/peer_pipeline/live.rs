//! Submitters that wait: one for input, the others for its end.

use crate::submitter::Submitter;
use crate::waiting::Waiting;
use crate::{Opening, run};
use peer::events::{accounts, transfers};
use peer::live::{self, Over, Part};
use peer::packet::Refusal;
use peer::tally::Tally;

/// The packets that a submitter may have in flight.
const CREDIT: u64 = 16;

/// Sends a packet of one event for each byte of the input, and writes a byte once it has the reply.
fn echo<W: Waiting>(submitter: &mut Submitter<W>) -> Result<Tally, Refusal> {
    let mut tally = Tally::default();
    live::echo(|sent| {
        submitter.submit(transfers(submitter.submitter, sent, 1))?;
        submitter.receive(&mut tally);
        Ok(())
    })?;
    Ok(tally)
}

/// Sends packets of one event until the input has ended.
fn load<W: Waiting>(submitter: &mut Submitter<W>, over: &Over) -> Result<Tally, Refusal> {
    let mut tally = Tally::default();
    submitter.submit(accounts(submitter.submitter))?;
    submitter.receive(&mut tally);
    let mut sent = 0;
    while !over.is_ended() {
        submitter.submit(transfers(submitter.submitter, sent, 1))?;
        sent += 1;
        if sent >= CREDIT {
            submitter.receive(&mut tally);
        }
    }
    for _ in 1..CREDIT.min(sent + 1) {
        submitter.receive(&mut tally);
    }
    Ok(tally)
}

/// Takes a submitter's part until the input has ended, and ends.
fn drive<W: Waiting>(
    mut submitter: Submitter<W>,
    part: Part,
    over: &Over,
) -> Result<Tally, Refusal> {
    let tally = match part {
        Part::Echoes => {
            let tally = echo(&mut submitter);
            over.end();
            tally
        }
        Part::Loads => load(&mut submitter, over),
        Part::Sleeps => {
            over.wait();
            Ok(Tally::default())
        }
    };
    submitter.end();
    tally
}

/// A live run, until its input ends.
pub fn run_live<W: Waiting>(submitters: u32, loads: u32) -> Result<(), Refusal> {
    let over = Over::default();
    let opening = Opening {
        submitters,
        capacity: 64,
        limit: 8190,
        room: 0,
    };
    run::<W>(opening, CREDIT, |submitter| {
        let part = Part::of(submitter.submitter, loads);
        drive(submitter, part, &over)
    })?;
    Ok(())
}
