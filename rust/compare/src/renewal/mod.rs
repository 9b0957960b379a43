//! The renewal table (document 02 §13): its calls, gone through one by one and in long runs.

pub mod check;
mod forged;
pub mod kept;
pub mod met;
mod orders;
pub mod runs;
mod wanted;

use crate::tally::Tally;
use generate::random::Random;

pub fn all(tally: &mut Tally, random: &mut Random) {
    forged::all(tally, random);
    orders::all(tally, random);
    runs::all(tally, random);
}
