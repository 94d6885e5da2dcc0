//! Reads a book and payment files with `csv`, and makes the calls over a vector of balances under one mutex, by a thread
//! for each process. For files of the stated forms it prints what the proved program prints, but that the calls of
//! different processes may stand in another order. It checks nothing that it doesn't need.
//!
//!     plain run BOOK PAY...       reads the files, makes the calls, and prints the report
//!     plain accept BOOK REPORT PAY...
//!                                 makes the calls again in the order of a report, and accepts it if it is that run's
//!     plain check BOOK PAY...     reads the files, and prints how many calls they have
//!     plain records BOOK PAY...   reads the records alone, and prints how many there are
//!     plain named BOOK PAY...     reads a book with names and its pay-outs, and prints how many calls there are

use csv::{ByteRecord, Reader, ReaderBuilder};
use std::collections::HashMap;
use std::error::Error;
use std::io::Write;
use std::sync::Mutex;
use std::{env, fs, io, str, thread};

type Outcome<T> = Result<T, Box<dyn Error>>;

struct Account {
    opening: u64,
    owners: Vec<usize>,
}

struct Book {
    processes: usize,
    own_room: u32,
    request_room: u32,
    accounts: Vec<Account>,
}

enum Call {
    Transfer { from: usize, to: usize, amount: u64 },
    Read { account: usize },
}

enum Reply {
    Done,
    Short,
    NotOwner,
    Full,
    Balance(u64),
}

/// The balances, and the room used: by each process on its own accounts, and by each process on each shared account.
struct State {
    balances: Vec<u64>,
    sent: Vec<u32>,
    asked: Vec<u32>,
}

impl State {
    fn new(book: &Book) -> State {
        State {
            balances: book.accounts.iter().map(|account| account.opening).collect(),
            sent: vec![0; book.processes],
            asked: vec![0; book.processes * book.accounts.len()],
        }
    }

    fn step(&mut self, book: &Book, process: usize, call: &Call) -> Reply {
        let (from, to, amount) = match *call {
            Call::Read { account } => return Reply::Balance(self.balances[account]),
            Call::Transfer { from, to, amount } => (from, to, amount),
        };
        let owners = &book.accounts[from].owners;
        if !owners.contains(&process) {
            return Reply::NotOwner;
        }
        let is_shared = owners.len() > 1;
        let (used, room) = if is_shared {
            (&mut self.asked[process * book.accounts.len() + from], book.request_room)
        } else {
            (&mut self.sent[process], book.own_room)
        };
        if *used == room {
            return Reply::Full;
        }
        if self.balances[from] < amount {
            if is_shared {
                *used += 1;
            }
            return Reply::Short;
        }
        *used += 1;
        self.balances[from] -= amount;
        self.balances[to] += amount;
        Reply::Done
    }
}

fn reader(bytes: &[u8]) -> Reader<&[u8]> {
    ReaderBuilder::new()
        .has_headers(false)
        .flexible(true)
        .from_reader(bytes)
}

fn number(text: &[u8]) -> Outcome<u64> {
    Ok(str::from_utf8(text)?.parse()?)
}

fn number_at(row: &ByteRecord, i: usize) -> Outcome<u64> {
    number(row.get(i).ok_or("a field is missing")?)
}

fn read_book(bytes: &[u8]) -> Outcome<Book> {
    let mut rows = reader(bytes);
    let mut row = ByteRecord::new();
    let mut book = Book {
        processes: 0,
        own_room: 0,
        request_room: 0,
        accounts: Vec::new(),
    };
    while rows.read_byte_record(&mut row)? {
        match row.get(0) {
            Some(b"book") => {}
            Some(b"processes") => book.processes = number_at(&row, 1)? as usize,
            Some(b"limits") => {
                book.own_room = number_at(&row, 1)? as u32;
                book.request_room = number_at(&row, 2)? as u32;
            }
            _ => book.accounts.push(read_account(&row)?),
        }
    }
    Ok(book)
}

fn read_account(row: &ByteRecord) -> Outcome<Account> {
    let mut owners = Vec::new();
    let list = row.get(3).ok_or("a field is missing")?;
    for owner in list.split(|byte| *byte == b' ') {
        if !owner.is_empty() {
            owners.push(number(owner)? as usize);
        }
    }
    Ok(Account {
        opening: number_at(row, 2)?,
        owners,
    })
}

fn read_calls(bytes: &[u8]) -> Outcome<Vec<Call>> {
    let mut rows = reader(bytes);
    let mut row = ByteRecord::new();
    let mut calls = Vec::new();
    while rows.read_byte_record(&mut row)? {
        calls.push(match row.get(0) {
            Some(b"transfer") => Call::Transfer {
                from: number_at(&row, 1)? as usize,
                to: number_at(&row, 2)? as usize,
                amount: number_at(&row, 3)?,
            },
            _ => Call::Read {
                account: number_at(&row, 1)? as usize,
            },
        });
    }
    Ok(calls)
}

fn read_files(names: &[String]) -> Outcome<Vec<Vec<Call>>> {
    names.iter().map(|name| read_calls(&fs::read(name)?)).collect()
}

/// The places of names.
type Places = HashMap<Vec<u8>, usize>;

/// A book with names: how many processes it has, and where each account stands.
struct NamedBook {
    processes: Places,
    accounts: Places,
    terms: Vec<Account>,
}

/// A call of a file with names. A transfer is the pay-out with its one target.
enum NamedCall {
    Pay {
        from: usize,
        targets: Vec<(usize, u64)>,
    },
    Read {
        account: usize,
    },
}

fn place(places: &Places, row: &ByteRecord, i: usize) -> Outcome<usize> {
    let name = row.get(i).ok_or("a field is missing")?;
    Ok(*places.get(name).ok_or("a name is unknown")?)
}

fn named_account(processes: &Places, row: &ByteRecord) -> Outcome<Account> {
    let mut owners = Vec::new();
    let list = row.get(3).ok_or("a field is missing")?;
    for owner in list.split(|byte| *byte == b' ') {
        if !owner.is_empty() {
            owners.push(*processes.get(owner).ok_or("a name is unknown")?);
        }
    }
    Ok(Account {
        opening: number_at(row, 2)?,
        owners,
    })
}

fn read_named_book(bytes: &[u8]) -> Outcome<NamedBook> {
    let mut rows = reader(bytes);
    let mut row = ByteRecord::new();
    let mut book = NamedBook {
        processes: HashMap::new(),
        accounts: HashMap::new(),
        terms: Vec::new(),
    };
    while rows.read_byte_record(&mut row)? {
        match row.get(0) {
            Some(b"book" | b"limits") => {}
            Some(b"processes") => {
                for name in row.iter().skip(1) {
                    book.processes.insert(name.to_vec(), book.processes.len());
                }
            }
            _ => {
                let name = row.get(1).ok_or("a field is missing")?;
                book.accounts.insert(name.to_vec(), book.accounts.len());
                book.terms.push(named_account(&book.processes, &row)?);
            }
        }
    }
    Ok(book)
}

fn read_named_calls(accounts: &Places, bytes: &[u8]) -> Outcome<Vec<NamedCall>> {
    let mut rows = reader(bytes);
    let mut row = ByteRecord::new();
    let mut calls = Vec::new();
    while rows.read_byte_record(&mut row)? {
        let account = place(accounts, &row, 1)?;
        if row.get(0) == Some(b"read") {
            calls.push(NamedCall::Read { account });
            continue;
        }
        let mut targets = Vec::with_capacity(4);
        for i in (2..row.len()).step_by(2) {
            targets.push((place(accounts, &row, i)?, number_at(&row, i + 1)?));
        }
        calls.push(NamedCall::Pay {
            from: account,
            targets,
        });
    }
    Ok(calls)
}

/// Reads a book with names and its payment files into calls.
fn checked_named(book: &str, payments: &[String]) -> Outcome<Text> {
    let book = read_named_book(&fs::read(book)?)?;
    let mut count = 0;
    let mut seen = 0;
    for name in payments {
        for call in read_named_calls(&book.accounts, &fs::read(name)?)? {
            count += 1;
            seen += match &call {
                NamedCall::Pay { from, targets } => from + targets.len(),
                NamedCall::Read { account } => *account,
            };
        }
    }
    std::hint::black_box(seen);
    let mut text = Text::default();
    text.word("checked ").number(book.processes.len() as u64);
    text.word(" ").number(book.terms.len() as u64);
    text.word(" ").number(count).word("\n");
    Ok(text)
}

fn count_records(names: &[String]) -> Outcome<u64> {
    let mut count = 0;
    for name in names {
        let bytes = fs::read(name)?;
        let mut rows = reader(&bytes);
        let mut row = ByteRecord::new();
        while rows.read_byte_record(&mut row)? {
            count += 1;
        }
    }
    Ok(count)
}

/// A text that is made in memory, word by word.
#[derive(Default)]
struct Text {
    bytes: Vec<u8>,
}

impl Text {
    fn word(&mut self, word: &str) -> &mut Text {
        self.bytes.extend_from_slice(word.as_bytes());
        self
    }

    fn number(&mut self, n: u64) -> &mut Text {
        let mut buffer = itoa::Buffer::new();
        self.word(buffer.format(n))
    }

    fn call(&mut self, call: &Call) -> &mut Text {
        match *call {
            Call::Transfer { from, to, amount } => self
                .word(" transfer ")
                .number(from as u64)
                .word(" ")
                .number(to as u64)
                .word(" ")
                .number(amount),
            Call::Read { account } => self.word(" read ").number(account as u64),
        }
    }

    fn reply(&mut self, reply: &Reply) -> &mut Text {
        match *reply {
            Reply::Done => self.word(" done\n"),
            Reply::Short => self.word(" short\n"),
            Reply::NotOwner => self.word(" not-owner\n"),
            Reply::Full => self.word(" full\n"),
            Reply::Balance(balance) => self.word(" ").number(balance).word("\n"),
        }
    }
}

/// The calls that were made: of each its process, its place in that one's file, and the reply; and the state after them.
struct Run {
    state: State,
    lines: Vec<(usize, usize, Reply)>,
}

impl Run {
    fn new(book: &Book, calls: usize) -> Run {
        Run {
            state: State::new(book),
            lines: Vec::with_capacity(calls),
        }
    }

    fn make(&mut self, book: &Book, process: usize, place: usize, call: &Call) {
        let reply = self.state.step(book, process, call);
        self.lines.push((process, place, reply));
    }
}

fn calls_in(files: &[Vec<Call>]) -> usize {
    files.iter().map(Vec::len).sum()
}

/// Makes the calls of all files at once, each file's by a thread.
fn run(book: &Book, files: &[Vec<Call>]) -> Outcome<Run> {
    let shared = Mutex::new(Run::new(book, calls_in(files)));
    thread::scope(|threads| {
        for (process, file) in files.iter().enumerate() {
            let shared = &shared;
            threads.spawn(move || {
                for (place, call) in file.iter().enumerate() {
                    shared.lock().unwrap().make(book, process, place, call);
                }
            });
        }
    });
    Ok(shared.into_inner()?)
}

/// Makes the calls again in the order in which a report has their processes.
fn replay(book: &Book, files: &[Vec<Call>], report: &[u8]) -> Outcome<Run> {
    let calls = calls_in(files);
    let mut made = vec![0; files.len()];
    let mut run = Run::new(book, calls);
    for line in report.split(|byte| *byte == b'\n').skip(1).take(calls) {
        let process = number(line.split(|byte| *byte == b' ').next().ok_or("a line is empty")?)? as usize;
        let place = *made.get(process).ok_or("a process is unknown")?;
        let call = files[process].get(place).ok_or("a process has more calls than its file")?;
        made[process] += 1;
        run.make(book, process, place, call);
    }
    Ok(run)
}

/// A line for each call in the order in which they were made, and then the balances.
fn report(book: &Book, files: &[Vec<Call>], run: &Run) -> Text {
    let mut text = Text::default();
    text.word("journal ").number(run.lines.len() as u64).word("\n");
    for (process, place, reply) in &run.lines {
        text.number(*process as u64).word(" ").number(*place as u64 + 1);
        text.call(&files[*process][*place]).reply(reply);
    }
    text.word("balances ").number(book.accounts.len() as u64).word("\n");
    for (account, balance) in run.state.balances.iter().enumerate() {
        text.number(account as u64).word(" ").number(*balance).word("\n");
    }
    text.word("total ").number(run.state.balances.iter().sum()).word("\n");
    text
}

/// Says how many calls a report has, if it is the report of a run in its order.
fn accepted(book: &str, report_name: &str, payments: &[String]) -> Outcome<Text> {
    let book = read_book(&fs::read(book)?)?;
    let files = read_files(payments)?;
    let given = fs::read(report_name)?;
    if report(&book, &files, &replay(&book, &files, &given)?).bytes != given {
        return Err("the report is not one of a run of the files".into());
    }
    let mut text = Text::default();
    text.word("accepted ").number(calls_in(&files) as u64).word("\n");
    Ok(text)
}

fn checked(book: &Book, files: &[Vec<Call>]) -> Text {
    let mut text = Text::default();
    text.word("checked ").number(book.processes as u64);
    text.word(" ").number(book.accounts.len() as u64);
    text.word(" ").number(calls_in(files) as u64).word("\n");
    text
}

fn main() -> Outcome<()> {
    let words: Vec<String> = env::args().skip(1).collect();
    let [command, names @ ..] = words.as_slice() else {
        return Err("plain run|check|records|named BOOK PAY..., or accept BOOK REPORT PAY...".into());
    };
    let [book, payments @ ..] = names else {
        return Err("a book is missing".into());
    };
    let text = match command.as_str() {
        "records" => {
            let mut text = Text::default();
            text.number(count_records(names)?).word("\n");
            text
        }
        "named" => checked_named(book, payments)?,
        "accept" => {
            let [report, payments @ ..] = payments else {
                return Err("a report is missing".into());
            };
            accepted(book, report, payments)?
        }
        command => {
            let book = read_book(&fs::read(book)?)?;
            let files = read_files(payments)?;
            if command == "run" { report(&book, &files, &run(&book, &files)?) } else { checked(&book, &files) }
        }
    };
    io::stdout().write_all(&text.bytes)?;
    Ok(())
}
