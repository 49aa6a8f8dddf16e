//! A whole session in one program: two tables of records that are made here, an opener with the one and a responder with the other, and
//! nothing between them but their messages. Prints the records that only one of them has, and what went over. `session.c` is the same in C.
//!
//! To run it, in rust/recon: `cargo run --example session`
use recon::{sha256, Cut, Opener, Refusal, Responder, Table, ID_BYTES};
use std::process::ExitCode;

/// What an end holds: a time for each record, and their ids in the same order, 32 bytes each.
struct Records {
    times: Vec<u64>,
    ids: Vec<u8>,
}

impl Records {
    /// The records that have the numbers 0 to 1,999 but for every `step`-th from `first` on. They are made in rising order of their times,
    /// as a table has to be: sort yours by time, and by id where times are equal.
    fn without(first: u64, step: u64) -> Records {
        let (mut times, mut ids) = (Vec::new(), Vec::new());
        for number in (0..2000).filter(|number| number % step != first) {
            times.push(1_700_000_000 + 60 * number);
            ids.extend(sha256(&number.to_be_bytes()));
        }
        Records { times, ids }
    }

    fn table(&self) -> Table<'_> {
        let Records { times, ids } = self;
        Table { times, ids }
    }
}

fn hex(id: &[u8; ID_BYTES]) -> String {
    id.iter().map(|byte| format!("{byte:02x}")).collect()
}

fn reconcile(ours: Table<'_>, theirs: Table<'_>) -> Result<(), Refusal> {
    let mut opener = Opener::open(ours, Cut::default())?;
    let mut responder = Responder::new(theirs, Cut::default());
    let (mut rounds, mut sent, mut received) = (0, 0, 0);
    while let Some(query) = opener.query() {
        // Elsewhere the query goes to the other end here, and its reply comes back.
        let reply = responder.answer(query)?;
        rounds += 1;
        sent += query.len();
        received += reply.len();
        opener.take(reply)?;
    }
    for (time, id) in opener.ours_only() {
        println!("ours only    {time} {}", hex(id));
    }
    for id in opener.theirs_only() {
        println!("theirs only  {}", hex(id));
    }
    println!("{rounds} rounds: {sent} bytes sent, {received} bytes received");
    Ok(())
}

fn main() -> ExitCode {
    let (ours, theirs) = (Records::without(7, 400), Records::without(3, 500));
    match reconcile(ours.table(), theirs.table()) {
        Ok(()) => ExitCode::SUCCESS,
        Err(refusal) => {
            eprintln!("session: {refusal}");
            ExitCode::FAILURE
        }
    }
}
