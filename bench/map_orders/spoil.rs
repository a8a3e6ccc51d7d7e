//! Outputs that are changed in one place.

use crate::history::{Call, History, Kind};
use crate::random::Dice;

/// What is changed.
#[derive(Clone, Copy, PartialEq, Eq, Debug)]
pub enum Spoilt {
    /// A lookup finds what another call put for its key, or nothing where it found something.
    Reply,
    /// A take was answered the other way.
    Taken,
    /// A line is gone.
    Line,
    /// The line is gone of a put whose value was found, and no stamp is missed.
    Put,
    /// The line is gone of a take that was done, and no stamp is missed.
    Take,
}

pub const ALL: [Spoilt; 5] = [Spoilt::Reply, Spoilt::Taken, Spoilt::Line, Spoilt::Put, Spoilt::Take];

impl Spoilt {
    /// Whether stamps may be missing in what is judged.
    pub fn has_gaps(self) -> bool {
        matches!(self, Spoilt::Put | Spoilt::Take)
    }
}

fn one_of(dice: &mut Dice, history: &History, may: impl Fn(&Call) -> bool) -> Option<usize> {
    let found: Vec<usize> = (0..history.calls.len()).filter(|&number| may(&history.calls[number])).collect();
    (!found.is_empty()).then(|| found[dice.below(found.len())])
}

/// Another answer of a lookup.
fn other_reply(dice: &mut Dice, history: &History, call: &Call) -> Option<Kind> {
    let Kind::Get { found } = call.kind else {
        return None;
    };
    if found.is_some() && dice.below(2) == 0 {
        return Some(Kind::Get { found: None });
    }
    let is_other = |it: &Call| it.key == call.key && matches!(it.kind, Kind::Put { value } if Some(value) != found);
    let put = one_of(dice, history, is_other)?;
    match history.calls[put].kind {
        Kind::Put { value } => Some(Kind::Get { found: Some(value) }),
        _ => None,
    }
}

fn is_found(history: &History, call: &Call) -> bool {
    let Kind::Put { value } = call.kind else {
        return false;
    };
    history.calls.iter().any(|it| it.kind == Kind::Get { found: Some(value) })
}

/// The history with one such change, where it has a place for it.
pub fn spoil(dice: &mut Dice, history: &History, spoilt: Spoilt) -> Option<History> {
    let mut changed = history.clone();
    match spoilt {
        Spoilt::Reply => {
            let number = one_of(dice, history, |call| matches!(call.kind, Kind::Get { .. }))?;
            changed.calls[number].kind = other_reply(dice, history, &history.calls[number])?;
        }
        Spoilt::Taken => {
            let number = one_of(dice, history, |call| matches!(call.kind, Kind::Take { .. }))?;
            let was_bound = history.calls[number].kind == Kind::Take { was_bound: false };
            changed.calls[number].kind = Kind::Take { was_bound };
        }
        Spoilt::Line => {
            changed.calls.remove(dice.below(history.calls.len()));
        }
        Spoilt::Put => {
            // The first of some puts that is found, since to look all through takes long.
            let number = (0..100).find_map(|_| {
                let number = one_of(dice, history, |call| matches!(call.kind, Kind::Put { .. }))?;
                is_found(history, &history.calls[number]).then_some(number)
            })?;
            changed.calls.remove(number);
        }
        Spoilt::Take => {
            let number = one_of(dice, history, |call| call.kind == Kind::Take { was_bound: true })?;
            changed.calls.remove(number);
        }
    }
    Some(changed)
}
