use bezglami::{Error, Ledger};
use std::thread;

fn main() -> Result<(), Error> {
    let book =
        b"book,2\nprocesses,ann,bob\nlimits,9,9\naccount,joint,300,ann bob\naccount,shop,0,\n";
    let mut ledger = Ledger::open(book)?;
    let callers = ledger.callers(9)?;
    thread::scope(|threads| {
        for mut caller in callers {
            threads.spawn(move || {
                let receipt = caller.transfer(0, 1, 200).expect("both accounts are there");
                eprintln!("{} was answered {}", caller.process(), receipt.reply);
            });
        }
    });
    print!("{}", ledger.close()?);
    Ok(())
}
