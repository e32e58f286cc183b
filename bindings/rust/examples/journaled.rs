//! A ledger that survives the process: what is committed is in a file before it is printed, and is restored at the start.
//!
//!     cargo run --example journaled FILE CALLS
//!
//! Makes the calls of a little bank up to number CALLS: two accounts, then transfers, and now and then a pulse. Each takes one place of the
//! ledger, and is printed as `committed PLACE`. So the next run goes on at the first place that isn't in the file. The file is synced once for
//! four calls.
//!
//! The file is a header and a record for each entry: a mark, the body's size and its sum, and the body. The mark is the file's own, and random,
//! so that nobody can put a record into the events of a packet. It is a journal of this program only, and a lock keeps other processes out
//! (`File::try_lock`, from Rust 1.89 on).
//!
//! A crash may leave the records of the last commit in part. What follows the whole records is cut off, and kept in `FILE.cut1`, or with the
//! next free number. If a later record says that it was stored, the file is damaged: it is refused and stays as it was. A file whose end is
//! gone or damaged, from any place on, can't be told from one that a crash left.

use kip::{
    Account, CreateAccountResult, CreateTransferResult, Entry, Item, Ledger, Recorded, Refusal, Transfer, CREATE_ACCOUNTS, CREATE_TRANSFERS,
};
use std::collections::hash_map::RandomState;
use std::fs::{File, TryLockError};
use std::hash::BuildHasher;
use std::io::{stdout, Error, ErrorKind, Read, Seek, SeekFrom, Write};
use std::os::unix::fs::MetadataExt;
use std::path::{Path, PathBuf};
use std::process::ExitCode;

type Failure = Box<dyn std::error::Error>;

/// How a record begins: 16 digits that the file's header has.
type Mark = [u8; 16];

/// How the file begins: with the settings that the ledger has at each start. The mark follows, twice, and the end of the line.
const HEADER: &[u8] = b"kip journal 2: clock 0, limit 8190, submitters 1, mark ";
/// How many calls a sync is for.
const GROUP: u64 = 4;
/// What a pulse's record has for an operation.
const PULSE: u8 = 0;

/// A record that is whole.
struct Record {
    size: usize,
    /// The place below which all was stored when this was written.
    stored: u64,
    entry: Entry,
}

/// Returns the FNV-1a sum of a body, by which one that was written in part is known.
fn sum_of(body: &[u8]) -> u64 {
    body.iter().fold(0xcbf2_9ce4_8422_2325, |sum, byte| (sum ^ u64::from(*byte)).wrapping_mul(0x100_0000_01b3))
}

fn header_of(mark: &[u8]) -> Vec<u8> {
    [HEADER, mark, b" ", mark, b"\n"].concat()
}

/// Returns the mark in the header of a file, if that is whole.
fn mark_in(bytes: &[u8]) -> Option<Mark> {
    let mark: &Mark = bytes.strip_prefix(HEADER)?.first_chunk()?;
    (bytes.starts_with(&header_of(mark)) && mark.iter().all(u8::is_ascii_hexdigit)).then_some(*mark)
}

/// Returns whether a new file may have this after a crash: a part of a header, and zeros.
fn is_new(bytes: &[u8]) -> bool {
    let whole = header_of(&[0; 16]);
    let fits = |(byte, its): (&u8, &u8)| *byte == 0 || byte == its || *its == 0 && byte.is_ascii_hexdigit();
    bytes.len() <= whole.len() && bytes.iter().zip(&whole).all(fits)
}

fn record_of(mark: &Mark, entry: &Entry, stored: u64) -> Vec<u8> {
    let (number, submitter, operation, events) = match &entry.item {
        Item::Packet { submitter, number, operation, events } => (*number, *submitter, *operation, &events[..]),
        Item::Pulse { moment } => (*moment, 0, PULSE, &[][..]),
    };
    let words = [stored, entry.place, number].map(u64::to_le_bytes).concat();
    let body = [&words, &submitter.to_le_bytes()[..], &[operation], events].concat();
    [&mark[..], &(body.len() as u32).to_le_bytes(), &sum_of(&body).to_le_bytes(), &body].concat()
}

/// Cuts a field off the start of what is left.
fn cut<const SIZE: usize>(rest: &mut &[u8]) -> Option<[u8; SIZE]> {
    let (field, after) = rest.split_first_chunk()?;
    *rest = after;
    Some(*field)
}

/// Returns the record at the start of these bytes, if there is a whole one.
fn record_at(mark: &Mark, bytes: &[u8]) -> Option<Record> {
    let mut rest = bytes.strip_prefix(mark)?;
    let size = u32::from_le_bytes(cut(&mut rest)?) as usize;
    let sum = u64::from_le_bytes(cut(&mut rest)?);
    let mut body = rest.get(..size)?;
    if sum_of(body) != sum {
        return None;
    }
    let size = bytes.len() - rest.len() + size;
    let stored = u64::from_le_bytes(cut(&mut body)?);
    let place = u64::from_le_bytes(cut(&mut body)?);
    let number = u64::from_le_bytes(cut(&mut body)?);
    let submitter = u32::from_le_bytes(cut(&mut body)?);
    let item = match cut(&mut body)? {
        [PULSE] => Item::Pulse { moment: number },
        [operation] => Item::Packet { submitter, number, operation, events: body.to_vec() },
    };
    Some(Record { size, stored, entry: Entry { place, item } })
}

/// Restores all whole records. Returns where those of the last commit begin in the file, and where they end.
fn restore_all(ledger: &mut Ledger<Recorded>, mark: &Mark, bytes: &[u8]) -> Result<(usize, usize), Failure> {
    let (mut last, mut end) = (0, header_of(mark).len());
    while let Some(record) = record_at(mark, &bytes[end..]) {
        ledger.restore(&record.entry).map_err(|why| match why {
            Refusal::NoMemory => format!("there isn't enough memory to restore the record at byte {end}"),
            why => format!("the record at byte {end} is no entry of this journal: {why}"),
        })?;
        if record.stored == record.entry.place {
            last = end;
        }
        end += record.size;
    }
    // What follows was never acknowledged, unless a later record says that the place of this one was stored.
    let place = ledger.places();
    if (end..bytes.len()).any(|at| record_at(mark, &bytes[at..]).is_some_and(|later| later.stored > place)) {
        return Err(format!("the file is damaged at byte {end}: put a copy back").into());
    }
    Ok((last, end))
}

/// Keeps bytes that are cut off in a new file next to this one, and returns its name. If they can't be kept, no new file is left.
fn keep_cut(path: &Path, bytes: &[u8]) -> Result<PathBuf, Failure> {
    let named = |number: u64| {
        let mut name = path.as_os_str().to_owned();
        name.push(format!(".cut{number}"));
        PathBuf::from(name)
    };
    let mut number = 1;
    while named(number).exists() {
        number += 1;
    }
    let name = named(number);
    let kept = File::create_new(&name).and_then(|mut kept| {
        let stored = kept.write_all(bytes).and_then(|()| kept.sync_all()).and_then(|()| sync_name(&name));
        stored.inspect_err(|_| drop(std::fs::remove_file(&name)))
    });
    kept.map_err(|why| {
        let is_full = matches!(why.kind(), ErrorKind::StorageFull | ErrorKind::QuotaExceeded | ErrorKind::FileTooLarge);
        let advice = if is_full { ": free some space and start again" } else { "" };
        format!("the file's end, which isn't whole, can't be kept in {}: {why}{advice}", name.display())
    })?;
    Ok(name)
}

/// The file, which ends with a whole record.
struct Journal {
    path: PathBuf,
    file: File,
    mark: Mark,
    /// How long the file is.
    size: u64,
    /// The place below which all is stored.
    stored: u64,
}

impl Journal {
    /// Opens the file for this process only, and restores what it has. A new one gets its header.
    fn open(path: &Path, ledger: &mut Ledger<Recorded>) -> Result<Journal, Failure> {
        let mut file = File::options().read(true).write(true).create(true).truncate(false).open(path)?;
        if !file.metadata()?.is_file() {
            return Err("it isn't a plain file: give another".into());
        }
        file.try_lock().map_err(|why| match why {
            TryLockError::WouldBlock => "another process has the file open".to_string(),
            TryLockError::Error(why) => format!("the file can't be locked: {why}"),
        })?;
        let mut bytes = Vec::new();
        file.read_to_end(&mut bytes)?;
        if mark_in(&bytes).is_none() && is_new(&bytes) {
            bytes = header_of(format!("{:016x}", RandomState::new().hash_one(0)).as_bytes());
        }
        let mark = mark_in(&bytes).ok_or("the file is another program's, or its header is damaged: give another")?;
        let (last, end) = restore_all(ledger, &mark, &bytes)?;
        if end < bytes.len() {
            let kept = keep_cut(path, &bytes[end..])?;
            eprintln!("journaled: the last {} bytes aren't whole: they are cut off, and kept in {}", bytes.len() - end, kept.display());
        }
        file.set_len(end as u64)?;
        // (a run that was killed or whose sync failed may have left this in the computer's memory only, so it is written again)
        file.seek(SeekFrom::Start(last as u64))?;
        file.write_all(&bytes[last..end])?;
        file.sync_all()?;
        sync_name(path)?;
        Ok(Journal { path: path.to_owned(), file, mark, size: end as u64, stored: ledger.places() })
    }

    /// Appends entries, and returns once they are on the disk.
    fn append(&mut self, entries: &[Entry]) -> std::io::Result<()> {
        let records: Vec<u8> = entries.iter().flat_map(|entry| record_of(&self.mark, entry, self.stored)).collect();
        self.must_be_there()?;
        self.file.write_all(&records)?;
        self.file.sync_data()?;
        self.stored += entries.len() as u64;
        self.size += records.len() as u64;
        self.must_be_there()
    }

    /// Fails if the file isn't where it was, or isn't as long as this process made it.
    fn must_be_there(&self) -> std::io::Result<()> {
        let open = self.file.metadata()?;
        let is_named = std::fs::metadata(&self.path).is_ok_and(|it| (it.dev(), it.ino()) == (open.dev(), open.ino()));
        if !is_named || open.len() != self.size {
            return Err(Error::other("the file isn't where it was, or another program changed it"));
        }
        Ok(())
    }
}

/// Has the disk keep the name of the file too, which may be linked to from another folder.
fn sync_name(path: &Path) -> std::io::Result<()> {
    let real = std::fs::canonicalize(path)?;
    File::open(real.parent().unwrap_or(&real))?.sync_all()
}

/// Queues call `number` of the bank. A transfer's id is its number, so that none is posted twice.
fn queue(ledger: &mut Ledger<Recorded>, number: u64) -> Result<(), Refusal> {
    if number == 0 {
        let account = Account { ledger: 1, code: 1, ..Account::default() };
        let accounts = [Account { id: 1, ..account }, Account { id: 2, ..account }].map(|it| it.to_bytes()).concat();
        ledger.submit(0, CREATE_ACCOUNTS, &accounts, number)?;
    } else if number.is_multiple_of(10) {
        ledger.pulse(number.saturating_mul(1_000_000_000))?;
    } else {
        let (id, amount) = (u128::from(number), u128::from(number));
        let transfer = Transfer { id, debit_account_id: 1, credit_account_id: 2, amount, ledger: 1, code: 1, ..Transfer::default() };
        ledger.submit(0, CREATE_TRANSFERS, &transfer.to_bytes(), number)?;
    }
    Ok(())
}

/// Reads all replies. An event that fails as `exists` was committed before, so it isn't made twice.
fn read_replies(ledger: &mut Ledger<Recorded>) -> Result<(), Failure> {
    let mut buffer = Vec::new();
    while let Some(reply) = ledger.reply(&mut buffer)? {
        for failure in reply.failures()? {
            let exists = match reply.operation {
                CREATE_ACCOUNTS => CreateAccountResult::of(failure.result) == Some(CreateAccountResult::Exists),
                _ => CreateTransferResult::of(failure.result) == Some(CreateTransferResult::Exists),
            };
            if !exists {
                return Err(format!("call {}: {failure}", reply.user_data).into());
            }
        }
    }
    Ok(())
}

fn run(path: &Path, calls: u64) -> Result<(), Failure> {
    let mut ledger = Ledger::open_recorded(0, 8190, 1)?;
    let mut journal = Journal::open(path, &mut ledger).map_err(|why| format!("{}: {why}", path.display()))?;
    let mut place = ledger.places();
    writeln!(stdout(), "recovered {place}")?;
    while place < calls {
        let end = calls.min(place + GROUP);
        for number in place..end {
            queue(&mut ledger, number)?;
        }
        ledger.commit(|entries| journal.append(entries))?;
        read_replies(&mut ledger)?;
        for number in place..end {
            writeln!(stdout(), "committed {number}")?;
        }
        place = end;
    }
    let debits = ledger.lookup_account(1).map_or(0, |account| account.debits_posted);
    writeln!(stdout(), "debits {debits}, clock {}", ledger.clock())?;
    Ok(())
}

fn main() -> ExitCode {
    let words: Vec<_> = std::env::args_os().skip(1).collect();
    let done = match &words[..] {
        [path, calls] => match calls.to_str().and_then(|it| it.parse().ok()) {
            Some(calls) => run(Path::new(path), calls),
            None => Err("CALLS is a number".into()),
        },
        _ => Err("usage: journaled FILE CALLS".into()),
    };
    match done {
        Ok(()) => ExitCode::SUCCESS,
        Err(why) => {
            eprintln!("journaled: {why}");
            ExitCode::from(2)
        }
    }
}
