//! A plain program beside `journal`, for `measure_journal.sh`. It sorts as many keys of the same shape as `journal` does, and builds
//! the same lines. Where records and rounds stand in this closing is known, so it looks for no key, and it checks nothing.

use std::time::Instant;

const PROCESSES: u32 = 16;
const TURNS: u32 = 15;

#[derive(Clone, Copy)]
#[allow(dead_code)]
struct Targets {
    len: u32,
    list: [(u32, u64); 4],
}

#[derive(Clone, Copy)]
enum Call {
    Transfer {
        from: u32,
        to: u32,
        #[allow(dead_code)]
        amount: u64,
    },
    Read { account: u32 },
    #[allow(dead_code)]
    Pay { from: u32, targets: Targets },
}

#[derive(Clone, Copy)]
enum Reply {
    Done,
    Balance(u64),
}

struct Counts {
    len: u32,
    list: [u32; 16],
}

enum At {
    Front(Counts),
    Own(u32),
    #[allow(dead_code)]
    Round { round: u32, place: u32 },
}

struct Receipt {
    call: Call,
    reply: Reply,
    at: At,
}

struct Line {
    process: u32,
    number: u32,
    call: Call,
    reply: Reply,
}

struct Keyed {
    key: u64,
    process: u32,
    number: usize,
}

fn front(p: u32, i: u32) -> Counts {
    let mut list = [i; 16];
    if i % 2 == 0 {
        list[..p as usize].fill(i + 1);
    }
    Counts { len: PROCESSES, list }
}

fn read(p: u32, i: u32) -> Receipt {
    let gained = if p % 8 == 0 { i / 2 } else { 0 } + u32::from(i % 2 == 0 && 0 < p);
    Receipt {
        call: Call::Read { account: p },
        reply: Reply::Balance(1_000_000 + u64::from(gained)),
        at: At::Front(front(p, i)),
    }
}

fn transfer_or_read(p: u32, i: u32) -> Receipt {
    if i % 2 == 0 {
        return Receipt {
            call: Call::Transfer { from: p, to: (p + 1) % 16, amount: 1 },
            reply: Reply::Done,
            at: At::Own(i),
        };
    }
    if i / 2 % 8 != p % 8 {
        return read(p, i);
    }
    Receipt {
        call: Call::Transfer { from: 16 + p / 8, to: p / 8 * 8, amount: 1 },
        reply: Reply::Done,
        at: At::Round { round: i / 2, place: 16 * i },
    }
}

fn receipts(records: u32) -> Vec<Vec<Receipt>> {
    (0..PROCESSES)
        .map(|p| (0..records).flat_map(|i| [read(p, i), transfer_or_read(p, i)]).collect())
        .collect()
}

/// The fronts by place, the records by key, and the calls by key, as lines.
fn journal(views: &[Vec<Counts>], receipts: &[Vec<Receipt>], records: u32) -> (usize, usize, Vec<Line>) {
    let mut fronts: Vec<(u64, &Counts)> = Vec::new();
    for log in views {
        for view in log {
            fronts.push((place(view), view));
        }
    }
    for list in receipts {
        for receipt in list {
            if let At::Front(front) = &receipt.at {
                fronts.push((place(front), front));
            }
        }
    }
    fronts.sort_by_key(|front| front.0);
    let mut order = Vec::new();
    for process in 0..PROCESSES {
        for number in 0..records {
            let before = if number % 2 == 0 { process + 1 } else { 16 };
            order.push(Keyed { key: u64::from(16 * number + before), process, number: number as usize });
        }
    }
    order.sort_by_key(|one| one.key);
    let mut calls = Vec::new();
    for (process, list) in receipts.iter().enumerate() {
        for (number, receipt) in list.iter().enumerate() {
            let key = match &receipt.at {
                At::Front(counts) => 2 * place(counts),
                At::Own(record) => 2 * (16 * u64::from(*record) + process as u64) + 1,
                At::Round { place, .. } => 2 * (u64::from(*place) + process as u64 / 8 * 8) + 1,
            };
            calls.push(Keyed { key, process: process as u32, number });
        }
    }
    calls.sort_by_key(|one| one.key);
    let mut lines = Vec::new();
    for one in &calls {
        let receipt = &receipts[one.process as usize][one.number];
        lines.push(Line {
            process: one.process,
            number: one.number as u32 + 1,
            call: receipt.call,
            reply: receipt.reply,
        });
    }
    (fronts.len(), order.len(), lines)
}

fn place(counts: &Counts) -> u64 {
    counts.list[..counts.len as usize].iter().map(|count| u64::from(*count)).sum()
}

fn mixed(sum: u64, line: &Line) -> u64 {
    let (from, to) = match line.call {
        Call::Transfer { from, to, .. } => (from, to),
        Call::Read { account } => (account, 99),
        Call::Pay { from, .. } => (from, 77),
    };
    let reply = match line.reply {
        Reply::Balance(balance) => balance,
        Reply::Done => 1,
    };
    [line.process, line.number, from, to]
        .iter()
        .fold(sum, |sum, word| sum.wrapping_mul(31).wrapping_add(u64::from(*word)))
        .wrapping_mul(31)
        .wrapping_add(reply)
}

fn measure(records: u32) {
    let receipts = receipts(records);
    let views: Vec<Vec<Counts>> = (0..PROCESSES).map(|p| (0..records).map(|i| front(p, i)).collect()).collect();
    let mut least = u128::MAX;
    let mut sum = 0;
    let mut count = 0;
    for _turn in 0..TURNS {
        let began = Instant::now();
        let (fronts, order, lines) = journal(&views, &receipts, records);
        least = least.min(began.elapsed().as_micros());
        std::hint::black_box((fronts, order));
        count = lines.len();
        sum = lines.iter().fold(0, mixed);
    }
    println!("{records} {count} {sum} {least}");
}

fn main() {
    measure(4_096);
    measure(8_192);
}
