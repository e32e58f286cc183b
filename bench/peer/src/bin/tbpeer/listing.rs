//! What is printed.

use crate::list::{Line, List, Outcome, Reply};
use peer::layout::Account;

fn put(out: &mut Vec<u8>, text: &str) {
    out.extend_from_slice(text.as_bytes());
}

/// A number after a byte.
fn put_number(out: &mut Vec<u8>, front: u8, number: impl itoa::Integer) {
    out.push(front);
    put(out, itoa::Buffer::new().format(number));
}

fn put_balances(out: &mut Vec<u8>, front: u8, account: &Account) {
    put_number(out, front, account.debits_pending);
    put_number(out, front, account.debits_posted);
    put_number(out, front, account.credits_pending);
    put_number(out, front, account.credits_posted);
}

fn put_place(out: &mut Vec<u8>, place: u64) {
    put(out, " committed");
    put_number(out, b' ', place);
}

fn put_reply(out: &mut Vec<u8>, reply: &Reply) {
    put(out, "packet");
    put_number(out, b' ', reply.job.packet.submitter);
    put_number(out, b' ', reply.job.number);
    match &reply.outcome {
        Outcome::Failures(place, failures) => {
            put_place(out, *place);
            for failure in failures {
                put_number(out, b' ', failure.index);
                put_number(out, b':', failure.code);
            }
        }
        Outcome::Accounts(place, accounts) => {
            put_place(out, *place);
            for account in accounts {
                put_number(out, b' ', account.id);
                put_balances(out, b':', account);
            }
        }
        Outcome::Shutdown => put(out, " shutdown"),
    }
    out.push(b'\n');
}

fn put_line<'a>(out: &mut Vec<u8>, line: &Line, replies: &mut impl Iterator<Item = &'a Reply>) {
    match line {
        Line::Packet => {
            if let Some(reply) = replies.next() {
                put_reply(out, reply);
            }
        }
        Line::Refused(submitter, refusal) => put(
            out,
            &format!(
                "packet {submitter} refused {} {refusal:?}\n",
                *refusal as u32
            ),
        ),
        Line::Pulse(place) => put(out, &format!("pulse {place}\n")),
        Line::RefusedPulse => put(out, "pulse refused 12 MomentTooLarge\n"),
        Line::Shut => put(out, "shut\n"),
    }
}

fn put_account(out: &mut Vec<u8>, account: &Account) {
    put(out, "account");
    put_number(out, b' ', account.id);
    put_number(out, b' ', account.timestamp);
    put_balances(out, b' ', account);
    out.push(b'\n');
}

/// The lines of the items in their order, then the clock and the accounts.
pub fn put_listing(out: &mut Vec<u8>, lines: &[Line], list: &List) {
    let mut replies = list.replies.iter();
    for line in lines {
        put_line(out, line, &mut replies);
    }
    put(out, "clock");
    put_number(out, b' ', list.machine.clock());
    out.push(b'\n');
    for account in list.machine.accounts() {
        put_account(out, account);
    }
}
