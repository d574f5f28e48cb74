// A child module of format.rs: the gains that its laws work out.
use super::*;

pub fn level_of(db: Db) -> f64 {
    level(db)
}

pub fn sum_of(sum: MonoSum) -> f64 {
    db_to_gain(sum.into())
}
