//! What a strategic row asks of a play, over the sets of its operands.

use super::structure::*;

/// When the row is true on a play.
#[derive(Clone, Copy)]
pub enum Aim {
    /// Left at the second state.
    Next { left: Set },
    /// Left at every state.
    Always { left: Set },
    /// Right at a state, left at all earlier ones.
    Until { left: Set, right: Set },
}

/// The ability and the aim of a strategic row, over the sets of the lower rows.
pub fn aim(formula: Formula, sets: &[Set]) -> (Ability, Aim) {
    match formula {
        Formula::Next(ability, left) => (ability, Aim::Next { left: sets[left] }),
        Formula::Always(ability, left) => (ability, Aim::Always { left: sets[left] }),
        Formula::Until(ability, left, right) => {
            let (left, right) = (sets[left], sets[right]);
            (ability, Aim::Until { left, right })
        }
        Formula::Prop(_) | Formula::Not(_) | Formula::Or(..) => {
            panic!("{formula:?} is not strategic")
        }
    }
}
