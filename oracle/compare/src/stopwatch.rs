//! Two sides against the clock, and the table of their times.
use crate::judge::Found;
use std::time::Instant;

/// Work that both sides do, or the port alone.
pub trait Race {
    const RUST: bool = true;

    /// Both sides as they were at the start, off the clock.
    fn ready(&mut self) {}
    fn rust(&mut self) {}
    fn port(&mut self);
    /// The first difference between what the last calls left.
    fn compare(&self) -> Found;
}

/// The least time of one call of the reference, and of the port, in microseconds; infinite where a side was not measured.
pub type Times = [f64; 2];

/// The shortest sample, in microseconds: below, the clock itself would show.
const SAMPLE: f64 = 20.0;

/// The time of one call out of `calls`. One more goes before them off the clock: the other side's areas have just been through the caches.
fn sample<R: Race>(race: &mut R, side: fn(&mut R), calls: u32) -> f64 {
    race.ready();
    side(race);
    let start = Instant::now();
    (0..calls).for_each(|_| side(race));
    start.elapsed().as_secs_f64() * 1e6 / calls as f64
}

/// What a sample does, on both sides, and whether that is the same.
fn compared<R: Race>(race: &mut R, calls: u32) -> Found {
    race.ready();
    for _ in 0..=calls {
        race.rust();
        race.port();
    }
    race.compare()
}

/// The sides take turns, and begin in turn.
fn least<R: Race>(race: &mut R, rounds: usize) -> Result<Times, String> {
    compared(race, 0)?;
    let sides = [(0, R::rust as fn(&mut R)), (1, R::port)];
    let sides = if R::RUST { &sides[..] } else { &sides[1..] };
    let short = sides.iter().flat_map(|s| [s.1; 5]).map(|side| sample(race, side, 1)).fold(f64::INFINITY, f64::min);
    let calls = (SAMPLE / short).ceil().clamp(1.0, 100_000.0) as u32;
    let mut least = [f64::INFINITY; 2];
    for turn in 0..rounds {
        for i in 0..sides.len() {
            let (side, call) = sides[(turn + i) % sides.len()];
            least[side] = least[side].min(sample(race, call, calls));
        }
    }
    compared(race, calls)?;
    Ok(least)
}

/// The lines that are asked for, and how many of them meet their budget.
pub struct Table {
    rounds: usize,
    words: Vec<String>,
    /// What other programs have measured for the lines to come; without it the times are written as another program reads them.
    others: Option<Vec<std::vec::IntoIter<Times>>>,
    lines: usize,
    held: usize,
    missed: usize,
}

impl Table {
    pub fn new(rounds: usize, words: &[String], others: Option<Vec<Vec<Times>>>) -> Self {
        let others = others.map(|o| o.into_iter().map(Vec::into_iter).collect());
        Self { rounds, words: words.to_vec(), others, lines: 0, held: 0, missed: 0 }
    }

    pub fn head(&self, unit: &str) {
        if self.others.is_some() {
            println!("{unit:<38} {:>10} {:>10} {:>7} {:>6}", "Rust", "Rattle", "ratio", "budget");
        }
    }

    /// A line, where it has every word that is asked for. The times are shown in microseconds times `scale`; the budget is a bound of the ratio.
    pub fn line<R: Race>(&mut self, name: &str, scale: f64, budget: Option<f64>, race: impl FnOnce() -> Result<R, String>) -> Found {
        if !self.words.iter().all(|w| name.split_whitespace().any(|x| x == w)) {
            return Ok(());
        }
        let at = |e: String| format!("{name}: {e}");
        let mut times = least(&mut race().map_err(at)?, self.rounds).map_err(at)?;
        self.lines += 1;
        let Some(others) = &mut self.others else {
            println!("time {} {}", times[0], times[1]);
            return Ok(());
        };
        for other in others {
            let other = other.next().ok_or_else(|| at("another program has not measured it".to_string()))?;
            times = [times[0].min(other[0]), times[1].min(other[1])];
        }
        self.show(name, times.map(|t| t * scale), budget);
        Ok(())
    }

    fn show(&mut self, name: &str, [rust, port]: Times, budget: Option<f64>) {
        if rust.is_infinite() {
            return println!("{name:<38} {:>10} {port:>10.3}", "-");
        }
        let ratio = port / rust;
        let verdict = match budget {
            Some(most) if ratio <= most => format!("{most:>6.2} met"),
            Some(most) => format!("{most:>6.2} MISSED"),
            None => format!("{:>6}", "-"),
        };
        self.held += budget.is_some() as usize;
        self.missed += verdict.ends_with("MISSED") as usize;
        println!("{name:<38} {rust:>10.3} {port:>10.3} {ratio:>7.3} {verdict}");
    }

    pub fn verdict(&self) -> Result<String, String> {
        let line = format!("{} lines, {} with a budget: {} met, {} missed", self.lines, self.held, self.held - self.missed, self.missed);
        if self.missed > 0 || self.lines == 0 {
            return Err(line);
        }
        Ok(line)
    }
}
