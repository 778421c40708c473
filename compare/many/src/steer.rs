//! Which way the next call is drawn: so many times in 100 the plain one; of the rest, where there are light ones, three in four; else every
//! other time any, and every other time the one that most often led to the outcome that is the rarest so far.

use judge::rng::Rng;

/// Outcomes are below this.
pub const OUTCOMES: usize = 128;

pub struct Steer {
    /// Outcomes by way, and how often each way was taken.
    by_way: Vec<[u32; OUTCOMES]>,
    taken: Vec<u32>,
    pub met: [usize; OUTCOMES],
}

impl Steer {
    pub fn new(ways: usize) -> Self {
        Steer {
            by_way: vec![[0; OUTCOMES]; ways],
            taken: vec![0; ways],
            met: [0; OUTCOMES],
        }
    }

    /// The way that led most often to the rarest outcome, for each time that it was taken.
    fn to_the_rarest(&self) -> Option<usize> {
        let met = (0..OUTCOMES).filter(|outcome| self.met[*outcome] > 0);
        let rarest = met.min_by_key(|outcome| self.met[*outcome])?;
        let share = |way: &usize| {
            u64::from(self.by_way[*way][rarest]) * 1_000_000 / u64::from(self.taken[*way].max(1))
        };
        (0..self.by_way.len()).max_by_key(share)
    }

    pub fn way(&self, rng: &mut Rng, plain: usize, light: &[usize]) -> usize {
        if rng.chance(plain) {
            0
        } else if !light.is_empty() && rng.chance(75) {
            rng.pick(light)
        } else if rng.chance(50) {
            rng.below(self.by_way.len())
        } else {
            self.to_the_rarest().unwrap_or(0)
        }
    }

    pub fn note(&mut self, way: usize, outcome: usize) {
        self.by_way[way][outcome] += 1;
        self.taken[way] += 1;
        self.met[outcome] += 1;
    }
}
