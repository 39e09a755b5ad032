//! The second program: an independent lockbench, and what holds the random schedules to account.

mod alike;
mod answers;
mod bench;
mod bytes;
mod canon;
mod case;
mod cell;
mod charged;
mod coverage;
mod edges;
mod fates;
mod filed;
mod frame;
mod handed;
mod lists;
mod lock;
mod order;
mod overtaking;
mod places;
mod random;
mod reachable;
mod readings;
mod report;
mod shortest;
mod sound;
mod step;
mod table;
mod turned;
mod turns;
mod verdict;
mod waited;
mod wanted;
mod watch;

use std::io::{Read, Write};
use std::process::exit;
use watch::Goal;

const USAGE: &str = "usage: second              a schedule on standard input, its log on standard output
       second random       the sizes and digests of the 800 random logs
       second schedule I   random schedule I
       second handed       the digests of what comes back for 78,000 states handed in at random
       second bytes        the sizes and digests of the logs for every pair of bytes, and for every byte of a line
       second reports      the digests of the reports, who made whom wait, over 300 lists of random schedules
       second places       the digests of what comes back for every place in the editions 0 to 5, and the places of each
       second report ARGUMENT..
                           the report over files: s and the name of a schedule, or t and the name of a table
       second coverage     how often the 800 schedules take each side of the step table, the states handed in
                           each side of the tests of soundness, and which digits in which case the reader meets
       second charged      which refusals and which joins the reports over the 300 lists meet
       second verdict      who waits and who is passed over in one schedule on standard input
       second verdicts     the same for the 800 random schedules
       second order        what the 800 random schedules show of demand 3, and of two never being inside together
       second order one    the same for one schedule on standard input
       second reachable N  all states of N processors that can be reached from fresh, N from 1 to 3
       second shortest N   the least number of events in which the drawn edition lets a waiter of N processors that
                           takes no interrupt be passed over and then enter, or none, N from 1 to 4
       second shortest N schedule
                           a schedule of that many events
       second shortest N lost
                           the least number of events in which a processor of N of the drawn edition comes to place
                           28, lost, or none
       second shortest N lost schedule
                           a schedule of that many events
       second shortest N old
                           the least number of events in which the old edition of N processors shows an overtaking
";

fn main() {
    let arguments: Vec<String> = std::env::args_os().skip(1).map(|a| a.to_string_lossy().into_owned()).collect();
    let arguments: Vec<&str> = arguments.iter().map(|a| a.as_str()).collect();
    match arguments[..] {
        [] => put(&bench::log(&get())),
        ["random"] => put(&random::print()),
        ["schedule", i] => match i.parse() {
            Ok(i) => put(&random::schedule(i)),
            Err(_) => usage(),
        },
        ["handed"] => put(handed::print().as_bytes()),
        ["bytes"] => put(bytes::print().as_bytes()),
        ["reports"] => put(lists::print().as_bytes()),
        ["places"] => put(places::print().as_bytes()),
        // The names as they are given: they need not be text.
        ["report", ..] => put(filed::print(std::env::args_os().skip(2)).as_bytes()),
        ["coverage"] => {
            let parts = [coverage::print(), answers::print(), readings::print(), alike::print()];
            let texts: Vec<&str> = parts.iter().map(|(text, _)| text.as_str()).collect();
            judge((texts.join("\n"), parts.iter().all(|(_, good)| *good)));
        }
        ["charged"] => judge(charged::print()),
        ["verdict"] => try_put(verdict::print(&get())),
        ["verdicts"] => try_put(verdict::print_all()),
        ["order"] => judge(order::print()),
        ["order", "one"] => judge(order::print_one(&get())),
        ["reachable", n] => match n.parse() {
            Ok(n) if (1..=reachable::MOST_SEARCHED).contains(&n) => judge(reachable::print(n)),
            _ => usage(),
        },
        ["shortest", n] => shortest(n, |n| shortest::print(n, Goal::Passed)),
        ["shortest", n, "schedule"] => shortest(n, |n| shortest::print_schedule(n, Goal::Passed)),
        ["shortest", n, "lost"] => shortest(n, |n| shortest::print(n, Goal::Lost)),
        ["shortest", n, "lost", "schedule"] => shortest(n, |n| shortest::print_schedule(n, Goal::Lost)),
        ["shortest", n, "old"] => shortest(n, overtaking::print),
        _ => usage(),
    }
}

/// What is asked of the shortest schedule of n processors.
fn shortest(n: &str, print: fn(u8) -> Result<String, String>) {
    match n.parse() {
        Ok(n) if shortest::can_search(n) => try_put(print(n)),
        _ => usage(),
    }
}

/// Writes a text and ends with status 1 if it is not good.
fn judge((text, good): (String, bool)) {
    put(text.as_bytes());
    if !good {
        exit(1);
    }
}

/// Writes a text, or ends with a message and status 1.
fn try_put(text: Result<String, String>) {
    match text {
        Ok(text) => put(text.as_bytes()),
        Err(message) => {
            eprintln!("{}", message);
            exit(1);
        }
    }
}

/// The whole of standard input.
fn get() -> Vec<u8> {
    let mut bytes = Vec::new();
    if let Err(error) = std::io::stdin().lock().read_to_end(&mut bytes) {
        eprintln!("standard input: {}", error);
        exit(1);
    }
    bytes
}

fn put(bytes: &[u8]) {
    let mut out = std::io::stdout().lock();
    if let Err(error) = out.write_all(bytes).and_then(|()| out.flush()) {
        eprintln!("standard output: {}", error);
        exit(1);
    }
}

fn usage() {
    eprint!("{}", USAGE);
    exit(2);
}
