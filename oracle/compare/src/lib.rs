//! Compares the port with the reference in one process, call by call. ../README.md says what is compared.
mod adoptions;
mod branches;
mod building;
mod clean;
mod damaged;
mod desks;
mod entries;
mod faults;
mod folds;
mod inserts;
mod judge;
mod kinds;
mod layouts;
mod lists;
mod mapping;
mod misbuilt;
mod mixer;
mod numbers;
mod ops;
mod pairs;
mod paper;
mod plan;
mod plans;
mod planted;
mod points;
mod races;
mod record;
mod recorded;
mod recorded_folds;
mod recorded_inserts;
mod recorded_refusals;
mod recorded_safe;
mod recorded_tables;
mod refused;
mod rng;
mod rust;
mod shapes;
mod signals;
mod speed;
mod stopwatch;
mod strays;
mod tabled;
mod tables;
mod tape;
mod traced;
mod twin;

use judge::{Counts, Found, Judge};

const USAGE: &str = "oracle plans SEED COUNT     COUNT random plans, the first of them of seed SEED, built, set, run, traced and adopted
oracle damaged SEED COUNT   COUNT good plans, each damaged at every place in turn
oracle folds SEED COUNT     formats, balances, folds, also with tables, and roundings, COUNT times
oracle pairs SEED COUNT     COUNT clean plans, each built twice, and two lists of calls for each slot, alike as demand 3 has it
oracle record FILE          writes a sample of the reference's answers, for the program `replay`
oracle show SEED            the layout of a plan
oracle faults               plants each fault and looks whether it is found
oracle speed [ROUNDS] [WORD...]         times of both sides, of the lines that have every word
oracle speed [ROUNDS] kinds [WORD...]   times of each kind of step alone
oracle times [ROUNDS] [WORD...]         the same of this program alone, for 'speed'
Exit status: 0 no difference, 1 a difference, a fault or a budget missed, 2 bad usage.";

/// Runs cases of `count` seeds from the first on, until one differs.
fn cases(first: u64, count: u64, case: fn(&mut Judge, u64) -> Found) -> Result<String, String> {
    let mut j = Judge::default();
    let found = (first..first.saturating_add(count)).try_for_each(|seed| case(&mut j, seed).map_err(|e| format!("seed {seed}: {e}")));
    print(&j.counts);
    found.map(|()| "no difference".to_string()).map_err(|e| format!("DIFFERENCE {e}"))
}

fn print(c: &Counts) {
    let counts = [
        (c.plans, "plans"),
        (c.damaged, "damaged plans"),
        (c.calls, "calls"),
        (c.blocks, "blocks"),
        (c.samples, "output samples"),
        (c.lists, "source lists"),
        (c.folds, "folds"),
    ];
    let counts: Vec<String> = counts.iter().filter(|c| c.0 > 0).map(|(n, what)| format!("{n} {what}")).collect();
    println!("{}", counts.join(", "));
    if c.damaged > 0 {
        println!("calls on damaged plans accepted: {}", c.accepted);
    }
    let shapes: Vec<String> = c.shapes.list().iter().map(|(n, what)| format!("{what} {n}")).collect();
    if c.plans > 0 && c.damaged == 0 {
        println!("shapes: {}", shapes.join(", "));
    }
    let inserts: Vec<String> = c.inserts.list().iter().map(|(n, what)| format!("{what} {n}")).collect();
    if c.inserts.all > 0 {
        println!("inserts: {}", inserts.join(", "));
    }
    let safes: Vec<String> = c.safes.list().iter().map(|(n, what)| format!("{what} {n}")).collect();
    if c.safes.nodes > 0 {
        println!("nodes: {}", safes.join(", "));
    }
    let tables: Vec<String> = c.tables.list().iter().map(|(n, what)| format!("{what} {n}")).collect();
    if c.tables.right > 0 {
        println!("tables: {}", tables.join(", "));
    }
    for (what, entries) in [("channels of Patches", &c.patched), ("channels looked up", &c.looked_up)] {
        let entries: Vec<String> = entries.list().iter().filter(|e| e.0 > 0).map(|(n, what)| format!("{what} {n}")).collect();
        if !entries.is_empty() {
            println!("{what}: {}", entries.join(", "));
        }
    }
    let pairs: Vec<String> = c.pairs.list().iter().map(|(n, what)| format!("{what} {n}")).collect();
    if c.pairs.pairs > 0 {
        println!("pairs of lists: {}", pairs.join(", "));
    }
    let refused: Vec<String> = (1..c.refused.len()).filter(|n| c.refused[*n] > 0).map(|n| format!("{n}: {}", c.refused[n])).collect();
    println!("refused calls by number: {}", refused.join(", "));
}

/// A program with all of it. The linker places all code of both sides `$shift` bytes further on than it otherwise would.
#[macro_export]
macro_rules! program {
    ($shift:literal) => {
        core::arch::global_asm!(".section .text.shift,\"axR\",@progbits", concat!(".skip ", $shift), ".text");

        fn main() {
            oracle::main()
        }
    };
}

pub fn main() {
    let args: Vec<String> = std::env::args().skip(1).collect();
    let number = |i: usize| args.get(i).and_then(|a| a.parse::<u64>().ok());
    let found = match (args.first().map(String::as_str), number(1), number(2)) {
        (Some("plans"), Some(seed), Some(count)) => cases(seed, count, plans::case),
        (Some("damaged"), Some(seed), Some(count)) => cases(seed, count, damaged::case),
        (Some("folds"), Some(seed), Some(count)) => cases(seed, count, folds::case),
        (Some("pairs"), Some(seed), Some(count)) => cases(seed, count, pairs::case),
        (Some("record"), _, None) if args.len() == 2 => record::write(&args[1]),
        (Some("show"), Some(seed), None) => Ok(format!("{:#?}", layouts::Gen::new(seed).layout(None))),
        (Some("faults"), None, None) if args.len() == 1 => faults::all(),
        (Some("speed"), _, _) => speed::table(&args[1..]),
        (Some("times"), _, _) => speed::times(&args[1..]),
        _ => {
            eprintln!("{USAGE}");
            std::process::exit(2);
        }
    };
    println!("{}", found.as_ref().unwrap_or_else(|e| e));
    std::process::exit(found.is_err() as i32);
}
