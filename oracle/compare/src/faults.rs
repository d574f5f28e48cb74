//! `oracle faults`: each fault planted in turn in what the reference says. A comparison that does not find one is no comparison.
use crate::judge::{Fault, Found, Judge, FAULTS};
use crate::{damaged, folds, pairs, plans};

type Case = fn(&mut Judge, u64) -> Found;

/// The difference that a planted fault makes, from the first case that has a place for it.
fn found(fault: Fault) -> Result<String, String> {
    let mut j = Judge { fault: Some(fault), ..Judge::default() };
    let modes: [(Case, u64); 4] = [(plans::case, 500), (folds::case, 2), (damaged::case, 20), (pairs::case, 200)];
    for (case, count) in modes {
        for seed in 1..=count {
            match case(&mut j, seed) {
                Err(difference) if j.planted => return Ok(difference),
                Err(difference) => return Err(format!("a difference before it was planted: seed {seed}: {difference}")),
                Ok(()) if j.planted => return Err(format!("not found, planted in the case of seed {seed}")),
                Ok(()) => {}
            }
        }
    }
    Err("no case has a place for it".to_string())
}

/// How many there are and how many are found; an error where one is missed.
pub fn all() -> Result<String, String> {
    let mut missed = 0;
    for (fault, text) in FAULTS {
        match found(*fault) {
            Ok(difference) => println!("found: {text}: {}", difference.chars().take(150).collect::<String>()),
            Err(why) => {
                missed += 1;
                println!("MISSED: {text}: {why}");
            }
        }
    }
    let line = format!("{} faults planted, {} found", FAULTS.len(), FAULTS.len() - missed);
    if missed > 0 {
        return Err(line);
    }
    Ok(line)
}
