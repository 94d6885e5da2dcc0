//! Each kind of call, each error, notes, closing, and threads.

use bezglami::{Caller, Error, Ledger, Reply, Report, Target, Why, TARGETS_MOST};
use std::mem;
use std::thread;

const BOOK: &[u8] = b"book,1\nprocesses,3\nlimits,100,20\naccount,0,500,0\naccount,1,100,1\naccount,2,300,0 1\naccount,3,0,\n";

fn needs_send<T: Send>() {}
fn needs_sync<T: Sync>() {}

#[test]
fn types_cross_threads() {
    needs_send::<Caller>();
    needs_send::<Ledger>();
    needs_sync::<Ledger>();
    needs_send::<Report>();
    needs_sync::<Report>();
}

fn three() -> (Ledger, Vec<Caller>) {
    let mut ledger = Ledger::open(BOOK).unwrap();
    let callers = ledger.callers(200).unwrap();
    assert_eq!(
        callers.iter().map(Caller::process).collect::<Vec<_>>(),
        [0, 1, 2]
    );
    (ledger, callers)
}

#[test]
fn replies() {
    let (_ledger, mut callers) = three();
    assert_eq!(callers[0].transfer(0, 1, 200).unwrap().reply, Reply::Done);
    assert_eq!(callers[1].read(0).unwrap().reply, Reply::Balance(300));
    assert_eq!(callers[0].transfer(0, 1, 301).unwrap().reply, Reply::Short);
    assert_eq!(callers[0].transfer(1, 0, 1).unwrap().reply, Reply::NotOwner);
    assert_eq!(callers[1].transfer(2, 3, 100).unwrap().exchanges, 1);
    let short = callers[0].transfer(2, 3, u64::MAX).unwrap();
    assert_eq!((short.reply, short.exchanges), (Reply::Short, 1));
    let both = [(3, 60), (1, 40)].map(|(account, amount)| Target { account, amount });
    let paid = callers[1].pay(2, &both).unwrap();
    assert_eq!((paid.reply, paid.exchanges), (Reply::Done, 1));
    let most = [Target {
        account: 3,
        amount: u64::MAX,
    }; 4];
    assert_eq!(callers[1].pay(2, &most).unwrap().reply, Reply::Short);
    assert_eq!(callers[2].read(2).unwrap().reply.balance(), Some(100));
    assert_eq!(callers[2].read(3).unwrap().reply.balance(), Some(160));
    assert_eq!(callers[2].read(1).unwrap().reply.balance(), Some(340));
    let mut balances = [7; 5];
    assert_eq!(callers[2].accounts(), 4);
    assert_eq!(
        callers[2].balances(&mut balances[..3]),
        Err(Error::NoRoom)
    );
    callers[2].balances(&mut balances).unwrap();
    assert_eq!(balances, [300, 340, 100, 160, 7]);
    for _ in 1..100 {
        assert!(callers[0].transfer(0, 0, 0).unwrap().reply.is_done());
    }
    let full = callers[0].transfer(0, 0, 0).unwrap();
    assert_eq!((full.reply, full.steps), (Reply::Full, 0));
}

/// No amount, balance or number of targets is cut.
#[test]
fn large_amounts() {
    let book = b"book,1\nprocesses,1\nlimits,9,9\naccount,0,18446744073709551615,0\naccount,1,0,\n";
    let mut caller = Ledger::open(book).unwrap().caller(9).unwrap();
    let (large, most) = ((1 << 63) + 5, u64::MAX);
    assert!(caller.transfer(0, 1, large).unwrap().reply.is_done());
    assert_eq!(caller.read(1).unwrap().reply, Reply::Balance(large));
    let target = Target {
        account: 1,
        amount: 1 << 40,
    };
    assert!(caller
        .pay(0, &[target; TARGETS_MOST])
        .unwrap()
        .reply
        .is_done());
    let five = caller.pay(0, &[target; TARGETS_MOST + 1]).unwrap_err();
    assert_eq!(five, Error::NoPayOut);
    let left = most - large - (4 << 40);
    assert_eq!(caller.read(0).unwrap().reply, Reply::Balance(left));
}

#[test]
fn a_large_room() {
    let mut ledger = Ledger::open(BOOK).unwrap();
    let mut caller = ledger.caller(65_537).unwrap();
    for _ in 0..65_537 {
        assert_eq!(caller.read(0).unwrap().reply, Reply::Balance(500));
    }
    assert_eq!(caller.read(0).unwrap_err(), Error::NoRoom);
}

/// The words of each error.
#[test]
fn words_of_errors() {
    for (error, words) in [
        (Error::NoMemory, "no memory"),
        (Error::NoCaller, "the caller of each process was handed out"),
        (Error::NoAccount, "no such account"),
        (Error::NoRoom, "no room for one more receipt, or for all balances"),
        (Error::NoPayOut, "a pay-out has from 1 to 4 targets"),
        (
            Error::CallersOut,
            "a caller of the ledger wasn't given back",
        ),
        (Error::NoProcess, "no such process"),
        (Error::NoNote, "the process has left no note"),
        (Error::Busy, "another thread is reaching for the same note"),
        (
            Error::OtherVersion { library: 2 },
            "the library is of version 2",
        ),
        (
            Error::OtherProcessor,
            "the processor lacks instructions of x86-64-v2",
        ),
    ] {
        assert_eq!(error.to_string(), words);
    }
}

/// The word of each reply is that of the report.
#[test]
fn words_of_replies() {
    let book = b"book,1\nprocesses,1\nlimits,1,1\naccount,0,100,0\naccount,1,0,\n";
    let mut ledger = Ledger::open(book).unwrap();
    let mut ann = ledger.caller(4).unwrap();
    let mut journal = String::from("journal 4\n");
    for (number, from, amount) in [(1, 0, 101), (2, 0, 30), (3, 0, 1), (4, 1, 7)] {
        let reply = ann.transfer(from, 1 - from, amount).unwrap().reply;
        let to = 1 - from;
        journal += &format!("0 {number} transfer {from} {to} {amount} {reply}\n");
    }
    drop(ann);
    let report = ledger.close().unwrap();
    assert!(report.as_str().starts_with(&journal), "{journal}");
    assert_eq!(Reply::Balance(7).to_string(), "7");
}

#[test]
fn steps_add_up() {
    let (_ledger, mut callers) = three();
    let mut steps = 0;
    for account in 0..4 {
        steps += callers[2].read(account).unwrap().steps;
    }
    assert_eq!(callers[2].steps(), steps);
    assert_eq!(callers[2].exchanges(), 0);
    assert_eq!(callers[0].steps(), 0);
}

/// Each cause but one, which takes 1,025 accounts, with its line and the words that it is displayed by.
#[test]
fn bad_books() {
    #[rustfmt::skip]
    let books = [
        (1, Why::Version, "version", "book,3\n"),
        (1, Why::Shape, "shape", ""),
        (2, Why::Number, "number", "book,1\nprocesses,x\n"),
        (2, Why::NoProcess, "no process", "book,1\nprocesses,0\n"),
        (2, Why::TooManyProcesses, "too many processes", "book,1\nprocesses,17\n"),
        (2, Why::Name, "name", "book,2\nprocesses,Ann\n"),
        (2, Why::NameTwice, "name twice", "book,2\nprocesses,ann,ann\n"),
        (3, Why::RoomOutOfRange, "room out of range", "book,1\nprocesses,9\nlimits,0,4\n"),
        (4, Why::NoAccount, "no account", "book,1\nprocesses,9\nlimits,4,1024\n"),
        (4, Why::AccountOrder, "account order", "book,1\nprocesses,9\nlimits,4,1024\naccount,1,0,\n"),
        (4, Why::OwnerOutOfRange, "owner out of range", "book,1\nprocesses,9\nlimits,4,1024\naccount,0,0,9\n"),
        (4, Why::OwnersNotRising, "owners not rising", "book,1\nprocesses,9\nlimits,4,1024\naccount,0,0,1 0\n"),
        (4, Why::TooManyOwners, "too many owners", "book,1\nprocesses,9\nlimits,4,1\naccount,0,0,0 1 2 3 4 5 6 7 8\n"),
        (4, Why::UnknownOwner, "unknown owner", "book,2\nprocesses,ann\nlimits,4,4\naccount,joint,9,ann bob\n"),
        (5, Why::RoundsOverLimit, "rounds over limit", "book,1\nprocesses,8\nlimits,4,1024\naccount,0,0,0 1 2 3 4 5 6 7\naccount,1,0,0 1\n"),
        (5, Why::TotalOverLimit, "total over limit", "book,1\nprocesses,1\nlimits,4,4\naccount,0,18446744073709551615,\naccount,1,1,\n"),
    ];
    for (line, why, words, book) in books {
        let error = Ledger::open(book.as_bytes()).unwrap_err();
        assert_eq!(error, Error::BadBook { line, why }, "{book}");
        assert_eq!(why.to_string(), words);
        assert_eq!(
            error.to_string(),
            format!("no book: the first fault is in line {line}: {words}")
        );
    }
}

#[test]
fn too_many_accounts() {
    let mut book = String::from("book,1\nprocesses,1\nlimits,4,4\n");
    for account in 0..1025 {
        book += &format!("account,{account},1,\n");
    }
    let (line, why) = (1028, Why::TooManyAccounts);
    assert_eq!(
        Ledger::open(book.as_bytes()).unwrap_err(),
        Error::BadBook { line, why }
    );
}

#[test]
fn notes() {
    let (mut ledger, mut callers) = three();
    for process in [3, u32::MAX] {
        assert_eq!(callers[0].note(process), Err(Error::NoProcess));
        assert_eq!(callers[0].learn(process), Err(Error::NoProcess));
    }
    assert_eq!(callers[1].learn(0), Err(Error::NoNote));
    assert_eq!((callers[1].steps(), callers[1].exchanges()), (0, 0));
    callers[0].note(1).unwrap();
    callers[0].note(1).unwrap();
    assert_eq!((callers[0].steps(), callers[0].exchanges()), (2, 2));
    assert_eq!(callers[2].learn(0), Err(Error::NoNote));
    drop(callers.remove(0));
    assert_eq!(callers[0].learn(0), Ok(()));
    assert_eq!((callers[0].steps(), callers[0].exchanges()), (1, 1));
    assert_eq!(callers[0].learn(0), Err(Error::NoNote));
    drop(callers);
    ledger.close().unwrap();
}

#[test]
fn closing() {
    let mut ledger = Ledger::open(BOOK).unwrap();
    let mut ann = ledger.caller(9).unwrap();
    assert!(ann.transfer(0, 3, 200).unwrap().reply.is_done());
    assert_eq!(ledger.close().unwrap_err(), Error::CallersOut);
    assert_eq!(ann.read(0).unwrap().reply, Reply::Balance(300));
    let mut bob = ledger.caller(9).unwrap();
    drop(ann);
    assert_eq!(bob.read(3).unwrap().reply, Reply::Balance(200));
    drop(bob);
    let report = ledger.close().unwrap();
    let balances = "balances 4\n0 300\n1 100\n2 300\n3 200\ntotal 900\n";
    let calls = "0 1 transfer 0 3 200 done\n0 2 read 0 300\n1 1 read 3 200\n";
    let wanted = format!("journal 3\n{calls}{balances}");
    assert_eq!(report.to_string(), wanted);
    assert_eq!(AsRef::<[u8]>::as_ref(&report), wanted.as_bytes());
    assert_eq!(AsRef::<str>::as_ref(&report), report.as_str());
    assert_eq!(format!("{report:?}"), "Report(\"journal 3\")");
    assert_eq!(String::from(report), wanted);
    assert_eq!(ledger.close().unwrap().as_str(), wanted);
    assert_eq!(ledger.caller(9).unwrap_err(), Error::NoCaller);
}

/// A caller that is forgotten is lost, and its ledger with it.
#[test]
fn a_forgotten_caller() {
    let mut ledger = Ledger::open(BOOK).unwrap();
    mem::forget(ledger.caller(9).unwrap());
    for _ in 0..2 {
        assert_eq!(ledger.close().unwrap_err(), Error::CallersOut);
    }
    assert_eq!(ledger.caller(9).unwrap().process(), 1);
}

/// Each caller goes back to its own ledger, also where that is gone.
#[test]
fn two_ledgers() {
    let (mut one, ones) = three();
    let (mut other, mut others) = three();
    drop(ones);
    assert_eq!(other.close().unwrap_err(), Error::CallersOut);
    assert!(one.close().unwrap().as_str().starts_with("journal 0\n"));
    others[0].read(0).unwrap();
    drop(others);
    assert!(other.close().unwrap().as_str().starts_with("journal 1\n"));
    let (ledger, mut callers) = three();
    drop(ledger);
    callers[2].read(0).unwrap();
}

/// A ledger is closed again and again while threads give their callers back: once all are, it is closed.
#[test]
fn closing_meanwhile() {
    for _ in 0..200 {
        let (mut ledger, callers) = three();
        thread::scope(|threads| {
            for mut caller in callers {
                threads.spawn(move || caller.read(0).unwrap());
            }
            let report = loop {
                match ledger.close() {
                    Ok(report) => break report,
                    Err(error) => {
                        assert_eq!(error, Error::CallersOut);
                        thread::yield_now();
                    }
                }
            };
            assert!(report.as_str().starts_with("journal 3\n"));
        });
    }
}

/// What a panic unwinds is given back with the receipts of the calls that were made.
#[test]
fn a_thread_that_panics() {
    let mut ledger = Ledger::open(BOOK).unwrap();
    let mut ann = ledger.caller(1).unwrap();
    let thread = thread::spawn(move || {
        ann.read(0).unwrap();
        ann.read(0).unwrap();
    });
    assert!(thread.join().is_err());
    assert!(ledger
        .close()
        .unwrap()
        .as_str()
        .starts_with("journal 1\n0 1 read 0 500\n"));
}

#[test]
fn errors() {
    let mut ledger = Ledger::open(BOOK).unwrap();
    let mut first = ledger.caller(1).unwrap();
    assert_eq!(first.read(4).unwrap_err(), Error::NoAccount);
    assert_eq!(
        first.transfer(0, u32::MAX, 1).unwrap_err(),
        Error::NoAccount
    );
    let far = Target {
        account: 4,
        amount: 1,
    };
    assert_eq!(first.pay(0, &[far]).unwrap_err(), Error::NoAccount);
    assert_eq!(first.pay(0, &[]).unwrap_err(), Error::NoPayOut);
    let five = [Target {
        account: 3,
        amount: 1,
    }; 5];
    assert_eq!(first.pay(0, &five).unwrap_err(), Error::NoPayOut);
    assert_eq!(first.read(0).unwrap().reply, Reply::Balance(500));
    assert_eq!(first.read(0).unwrap_err(), Error::NoRoom);
    assert_eq!(ledger.callers(1).unwrap().len(), 2);
    assert_eq!(ledger.caller(1).unwrap_err(), Error::NoCaller);
}

/// Sixteen threads on accounts of their own and on one that eight of them share, with notes from each to the next. Each gives its caller
/// back at its end.
#[test]
fn threads() {
    let mut book =
        String::from("book,1\nprocesses,16\nlimits,4096,1000\naccount,0,10000,0 1 2 3 4 5 6 7\n");
    for process in 0..16 {
        book += &format!("account,{},10000,{process}\n", process + 1);
    }
    let mut ledger = Ledger::open(book.as_bytes()).unwrap();
    let callers = ledger.callers(4_000).unwrap();
    thread::scope(|threads| {
        for caller in callers {
            threads.spawn(move || work(caller));
        }
    });
    let report = ledger.close().unwrap();
    assert!(report.as_str().starts_with("journal 64000\n"));
    assert!(report.as_str().ends_with("\ntotal 170000\n"));
}

fn work(mut caller: Caller) {
    let process = caller.process();
    for i in 0..2_000 {
        let from = if i % 4 == 0 { 0 } else { process + 1 };
        let reply = caller.transfer(from, (process + i) % 17, 1).unwrap().reply;
        assert_eq!(reply == Reply::NotOwner, from == 0 && process >= 8);
        caller.read(i % 17).unwrap();
        if i % 50 == 0 {
            assert!(matches!(
                caller.note((process + 1) % 16),
                Ok(()) | Err(Error::Busy)
            ));
            let learnt = caller.learn((process + 15) % 16);
            assert!(matches!(learnt, Ok(()) | Err(Error::NoNote | Error::Busy)));
        }
    }
}

/// Callers are used after their ledger was dropped.
#[test]
fn callers_alone() {
    let callers = three().1;
    let threads = callers.into_iter().map(|mut caller| {
        thread::spawn(move || {
            for _ in 0..50 {
                caller.transfer(caller.process(), 3, 1).unwrap();
            }
            caller
        })
    });
    let threads = threads.collect::<Vec<_>>().into_iter();
    let mut callers = threads
        .map(|thread| thread.join().unwrap())
        .collect::<Vec<_>>();
    assert_eq!(callers[1].read(3).unwrap().reply, Reply::Balance(100));
}
