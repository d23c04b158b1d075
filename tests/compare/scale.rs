// How much is compared: `full` on a desk, `quick` on a slow machine, `tiny` for the programs with planted faults.
use crate::report::Outcome;

#[derive(Clone, Copy, PartialEq, Eq, Debug)]
pub enum Size {
    Tiny,
    Quick,
    Full,
}

pub struct Scale {
    pub size: Size,
    pub seed: u64,
}

impl Scale {
    pub fn many(&self, tiny: usize, quick: usize, full: usize) -> usize {
        match self.size {
            Size::Tiny => tiny,
            Size::Quick => quick,
            Size::Full => full,
        }
    }

    // the seed of a group's first network; the others follow it
    pub fn first_seed(&self, group: u64) -> u64 {
        self.seed * 1_000_000 + group * 10_000
    }

    // makes a check for each of a group's networks, of which there are so many at each scale
    pub fn each(&self, group: u64, [tiny, quick, full]: [usize; 3], mut check: impl FnMut(u64) -> Outcome) -> Outcome {
        let first = self.first_seed(group);
        for seed in first..first + self.many(tiny, quick, full) as u64 {
            check(seed).map_err(|text| format!("seed {}: {}", seed, text))?;
        }
        Ok(())
    }
}
