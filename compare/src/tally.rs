//! Cases by seed, and how many of them came to what.

use crate::random::Random;
use std::collections::BTreeMap;
use std::ops::Range;
use std::sync::atomic::{AtomicU64, AtomicUsize, Ordering::Relaxed};

/// What a case came to, in which nothing differs: the number replied, in words what was accepted, and whether it is one of a sort that is counted apart.
#[derive(Clone, Copy, Debug, PartialEq, Eq, PartialOrd, Ord)]
pub struct Came {
    pub number: u32,
    pub to: &'static str,
    pub apart: Option<&'static str>,
}

impl Came {
    /// A refusal, or what was accepted.
    pub fn to(number: u32, accepted: &'static str) -> Came {
        Came { number, to: if number == 0 { accepted } else { "refused" }, apart: None }
    }
}

/// What a case came to, or what differs.
pub type Outcome = Result<Came, String>;

/// A comparison that is made with many seeds: its name, how often, and one case of it.
pub struct Comparison {
    pub name: &'static str,
    pub cases: u64,
    pub one: fn(&mut Random) -> Outcome,
}

/// How many cases of a comparison came to what.
#[derive(Clone, Debug, Default)]
pub struct Tally(BTreeMap<Came, u64>);

// The comparison and the seed of the case at hand, for one that the machine stops.
static AT_HAND: AtomicUsize = AtomicUsize::new(0);
static SEED: AtomicU64 = AtomicU64::new(0);

/// The place among its list of the comparison at hand, and the seed of its case.
pub fn at_hand() -> (usize, u64) {
    (AT_HAND.load(Relaxed), SEED.load(Relaxed))
}

/// One case of the comparison at a place of a list; a seed gives every place inputs of its own.
pub fn case(list: &[Comparison], place: usize, seed: u64) -> Outcome {
    AT_HAND.store(place, Relaxed);
    SEED.store(seed, Relaxed);
    let mut random = Random::new(seed | (place as u64 + 1) << 48);
    (list[place].one)(&mut random).map_err(|what| format!("DIFFERENCE in {} of seed {seed}: {what}", list[place].name))
}

impl Tally {
    /// The cases of a comparison with these seeds.
    pub fn of(list: &[Comparison], place: usize, seeds: Range<u64>) -> Result<Tally, String> {
        let mut tally = Tally::default();
        for seed in seeds {
            *tally.0.entry(case(list, place, seed)?).or_default() += 1;
        }
        Ok(tally)
    }

    /// How many cases there were.
    pub fn cases(&self) -> u64 {
        self.0.values().sum()
    }

    /// The refusal numbers that occurred.
    pub fn refusals(&self) -> impl Iterator<Item = u32> + '_ {
        self.0.keys().map(|came| came.number).filter(|&number| number > 0)
    }

    /// What the cases came to, in words.
    pub fn words(&self) -> String {
        // What is counted apart stands in brackets behind the count of all that came to the same.
        let mut all: BTreeMap<(u32, &str), (u64, Option<(&str, u64)>)> = BTreeMap::new();
        for (came, &count) in &self.0 {
            let (sum, apart) = all.entry((came.number, came.to)).or_default();
            *sum += count;
            *apart = came.apart.map(|what| (what, count)).or(*apart);
        }
        let words = all.iter().map(|(&(number, to), &(count, apart))| {
            let what = if number == 0 { to.to_string() } else { format!("refusal {number}") };
            let of_these = apart.map_or(String::new(), |(with, count)| format!(" ({count} with {with})"));
            format!("{what}: {count}{of_these}")
        });
        words.collect::<Vec<String>>().join(", ")
    }
}
