//! How a wire is cut: its bytes one by one, in one slice, or in slices and bytes as chance has it.

use crate::dice::Dice;

#[derive(Clone, Copy)]
pub enum Handed {
    OneByOne,
    Sliced,
}

/// Cuts so many bytes: up to where, and how each part is handed over. Half of all wires go by bytes alone.
pub fn by_chance(dice: &mut Dice, count: usize) -> Vec<(Handed, usize)> {
    match dice.below(8) {
        0..=3 => vec![(Handed::OneByOne, count)],
        4 | 5 => vec![(Handed::Sliced, count)],
        _ => parts(dice, count),
    }
}

/// Short parts mostly, some of no bytes.
fn parts(dice: &mut Dice, count: usize) -> Vec<(Handed, usize)> {
    let (mut parts, mut at) = (Vec::new(), 0);
    while at < count {
        at = count.min(at + dice.one_of(&[0, 1, 1, 2, 3, 5, 20]));
        let handed = dice.one_of(&[Handed::OneByOne, Handed::Sliced, Handed::Sliced]);
        parts.push((handed, at));
    }
    parts
}
