//! What every operation does here: draws a call, makes it on both sides, and says what came out.

use judge::rng::Rng;

/// What a call came to: the judge's outcome (a refusal's number, most often, and 0 for none), and where the port says something else, the
/// call and what differs.
pub struct Held {
    pub outcome: usize,
    pub difference: Option<String>,
}

impl Held {
    pub fn new(outcome: usize, same: bool, show: impl FnOnce() -> String) -> Self {
        Held {
            outcome,
            difference: (!same).then(show),
        }
    }
}

pub trait Operation {
    /// In how many ways a call may be drawn; way 0 is the plain one.
    fn ways(&self) -> usize;

    /// Draws a call in that way, and makes it on both sides.
    fn call(&mut self, rng: &mut Rng, way: usize) -> Held;

    /// Of 100 calls so many are drawn in the plain way, whatever came out before.
    fn plain(&self) -> usize {
        10
    }

    /// The ways whose calls take little time, if others take much.
    fn light(&self) -> &[usize] {
        &[]
    }

    /// What the outcomes are.
    fn outcomes(&self) -> &'static str {
        "by refusal (0: none)"
    }

    /// What else is to be told of the calls.
    fn more(&self) -> String {
        String::new()
    }
}
