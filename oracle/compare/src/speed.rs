//! `oracle speed`: the times of both sides for the same work, in turns, in one process, and again with all code at another place.
use crate::desks::{mixer as desk, Sends, Weights};
use crate::judge::Found;
use crate::kinds;
use crate::plan::Layout;
use crate::races::{BySlot, Desk, Fold, Lists, Nodes, Stereo};
use crate::stopwatch::{Table, Times};
use std::process::Command;

/// The programs beside this one. How a loop lies in the lines of the code cache can change its time by some hundredths, and the linker places
/// functions at any multiple of 16 bytes: so the code of both sides is measured at all four places in a line of 64, and the least time stands.
const OTHERS: [&str; 3] = ["at16", "at32", "at48"];

/// What the other programs measure, then this one, and the table of the least times.
pub fn table(args: &[String]) -> Result<String, String> {
    let others: Result<Vec<_>, String> = OTHERS.iter().map(|name| elsewhere(name, args).map_err(|e| format!("{name}: {e}"))).collect();
    measured(args, Some(others?))
}

pub fn times(args: &[String]) -> Result<String, String> {
    measured(args, None)
}

fn elsewhere(name: &str, args: &[String]) -> Result<Vec<Times>, String> {
    let program = std::env::current_exe().map_err(|e| e.to_string())?.with_file_name(name);
    let out = Command::new(program).arg("times").args(args).output().map_err(|e| e.to_string())?;
    let text = String::from_utf8_lossy(&out.stdout);
    if !out.status.success() {
        return Err(text.lines().last().unwrap_or("no answer").to_string());
    }
    let time = |word: &str| word.parse::<f64>().map_err(|e| format!("{word}: {e}"));
    let lines = text.lines().filter_map(|line| line.strip_prefix("time ")?.split_once(' '));
    lines.map(|(rust, port)| Ok([time(rust)?, time(port)?])).collect()
}

/// `[ROUNDS] [kinds] [WORD...]`.
fn measured(args: &[String], others: Option<Vec<Vec<Times>>>) -> Result<String, String> {
    if reference::CHECKED {
        return Err("this build has the reference's debug assertions; oracle/speed makes one that has not".to_string());
    }
    let rounds = args.first().and_then(|a| a.parse().ok()).filter(|n| *n > 0);
    let words = &args[rounds.is_some() as usize..];
    let kinds = words.first().is_some_and(|w| w == "kinds");
    let mut t = Table::new(rounds.unwrap_or(200), &words[kinds as usize..], others);
    if kinds {
        kinds::all(&mut t)?;
        return t.verdict();
    }
    t.head("us");
    blocks(&mut t)?;
    lists(&mut t)?;
    folds(&mut t)?;
    t.verdict()
}

/// The most that a run may take of the reference's time. Where half of the nodes ramp, the steps of the others are at rest: their budget bounds both.
fn budget(strips: usize, weights: Weights, nodes: Nodes, block: usize) -> f64 {
    match (nodes, weights, block) {
        (Nodes::Ramping, Weights::Full, _) => 0.40,
        (Nodes::Ramping, Weights::Identity, _) => 0.48,
        (_, _, 100) => 1.05,
        (_, _, 1000) => 0.95,
        (_, Weights::Identity, 256) => 0.97,
        (_, Weights::Identity, _) => 0.95,
        (_, Weights::Full, 1024) => 0.80,
        (_, Weights::Full, _) => if strips < 32 { 0.85 } else { 0.80 },
    }
}

fn blocks(t: &mut Table) -> Found {
    let plans = [("32x9 full", 32, 9, Weights::Full), ("32x9 identity", 32, 9, Weights::Identity), ("8x2 full", 8, 2, Weights::Full)];
    let blocks = [48, 256, 1024];
    for (name, strips, buses, weights) in plans {
        for (state, nodes, others) in [("rest", Nodes::Rest, &[100, 1000][..]), ("ramping", Nodes::Ramping, &[]), ("half-ramping", Nodes::Half, &[])] {
            for block in blocks.iter().chain(others).copied() {
                let layout = || desk(block, strips, buses, weights, Sends::All);
                let most = budget(strips, weights, nodes, block);
                t.line(&format!("process {name} {state} {block}"), 1.0, Some(most), || Desk::new(layout(), strips, nodes))?;
            }
        }
    }
    Ok(())
}

/// Every strip sent to every bus, with as many strips as 512 steps have room for; then every strip to an output of its own. The port's lists are from
/// one call, as the reference's are, and then, without a budget, from a call for each slot.
fn lists(t: &mut Table) -> Found {
    for (strips, buses) in [(32, 1), (8, 2), (32, 8), (32, 9), (24, 16), (12, 32)] {
        traces(t, &format!("{strips}x{buses} all-sends"), || desk(1, strips, buses, Weights::Full, Sends::All))?;
    }
    for strips in [1, 8, 16, 32] {
        traces(t, &format!("{strips}x{strips} own-output"), || desk(1, strips, strips, Weights::Full, Sends::Own))?;
    }
    Ok(())
}

fn traces(t: &mut Table, name: &str, layout: impl Fn() -> Layout) -> Found {
    t.line(&format!("trace {name}"), 1.0, Some(1.0), || Lists::new(layout()))?;
    t.line(&format!("trace-by-slot {name}"), 1.0, None, || BySlot::new(layout()))
}

fn folds(t: &mut Table) -> Found {
    for (name, src, dst) in
        [("5.1->stereo", 3, 1), ("7.1->stereo", 4, 1), ("stereo->mono", 1, 0), ("stereo->5.1", 1, 3), ("7.1->5.1", 4, 3)]
    {
        t.line(&format!("width_matrix {name}"), 1.0, None, || Ok(Fold::new(src, dst)))?;
    }
    t.line("stereo_matrix", 1.0, None, || Ok(Stereo::default()))
}
