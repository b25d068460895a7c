//! The proved slave, however it is reached.

use crate::effect::Effect;
use crate::step::Step;

pub const STATE: usize = 1486;
/// What a call returns that finds no state: 65,536 times number 10.
pub const NO_STATE: u32 = 65_536 * 10;

pub trait Proved {
    /// How it is reached, in words.
    fn way(&self) -> String;

    fn state_size(&mut self) -> usize;

    /// What each step does to a state that was never powered up and memories of zeros. Fewer effects
    /// than steps: the call after the last of them did not come back.
    fn run(&mut self, steps: &[Step]) -> Vec<Effect>;
}

/// The first step whose effect is not the one expected.
pub fn first_unlike(expected: &[Effect], effects: &[Effect]) -> Option<usize> {
    (0..expected.len()).find(|at| effects.get(*at) != expected.get(*at))
}
