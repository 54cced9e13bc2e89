//! The ring search of the document in plain Rust, trial by trial as a run makes
//! them, for the benchmark: what a run costs that is not proved. Sets of atoms
//! are pairs of 64-bit words, with one sweep for each open beginning; the sets
//! of every beginning are kept on a stack.

use crate::model::field::LIMIT;
use crate::model::machine::Stop;
use crate::model::Record;

/// A set of atoms; atom v is bit v - 1.
type Set = u128;

/// The sets at one beginning: the atoms that may come next but not last, those
/// that may come last, and of the next atoms those that make a member and those
/// that open.
#[derive(Clone, Copy, Default)]
struct Place {
    through: Set,
    ends: Set,
    members: Set,
    opens: Set,
}

/// Counts of a search that is done or has stopped.
pub struct Stepped {
    pub stop: Stop,
    pub used: usize,
    pub trials: u64,
    pub extensions: u64,
    pub listed: u64,
}

struct Table {
    all: Set,
    bonded: [Set; 129],
}

fn single(v: usize) -> Set {
    1 << (v - 1)
}

/// The atoms above v.
fn above(v: usize) -> Set {
    !(single(v) | (single(v) - 1))
}

impl Table {
    fn new(record: &Record) -> Table {
        let mut bonded = [0; 129];
        for (row, set) in record.rows.chunks_exact(16).zip(&mut bonded[1..]) {
            *set = Set::from_le_bytes(row.try_into().expect("16 bytes"));
        }
        let all = (1..=record.atoms as usize).fold(0, |all, v| all | single(v));
        Table { all, bonded }
    }

    fn near(&self, mut set: Set) -> Set {
        let mut near = 0;
        while set != 0 {
            near |= self.bonded[set.trailing_zeros() as usize + 1];
            set &= set - 1;
        }
        near
    }

    /// The atoms bonded to `ends`, or to an atom of `through` from which an atom
    /// of `ends` is reached through such atoms.
    fn reaching(&self, through: Set, ends: Set) -> Set {
        let mut seen = 0;
        let mut new = ends;
        while new != 0 {
            let near = self.near(new);
            new = near & through & !seen;
            seen |= near;
        }
        seen
    }

    /// The place after atom x was added at a place that had these two sets.
    fn after(&self, x: usize, through: Set, ends: Set) -> Place {
        let near = self.bonded[x];
        let (later_through, later_ends) = (through & !near, ends & !near);
        let good = self.reaching(later_through, later_ends);
        Place {
            through: later_through,
            ends: later_ends,
            members: near & ends,
            opens: near & through & good,
        }
    }

    /// The sets of the beginning s, a.
    fn pair(&self, s: usize, a: usize) -> (Set, Set) {
        let higher = self.all & above(s);
        (higher & !self.bonded[s], higher & self.bonded[s] & above(a))
    }

    fn pair_opens(&self, s: usize, a: usize) -> bool {
        let (through, ends) = self.pair(s, a);
        self.reaching(through, ends) & single(a) != 0
    }

    /// The place after s alone: no member, and the atoms that open.
    fn alone(&self, s: usize) -> Place {
        let mut opens = 0;
        for a in s + 1..129 {
            if self.bonded[s] & single(a) != 0 && self.pair_opens(s, a) {
                opens |= single(a);
            }
        }
        Place {
            opens,
            ..Place::default()
        }
    }
}

/// A run of a fresh ring search on a lawful record.
pub fn run(record: &Record, budget: u64, out: &mut [u8]) -> Stepped {
    let table = Table::new(record);
    let n = record.atoms as usize;
    let mut places = [Place::default(); 129];
    let mut prefix = [0u8; 128];
    let (mut len, mut c, mut used) = (0, 1, 0);
    let (mut trials, mut extensions, mut listed, mut made) = (0, 0, 0, 0);
    for s in 1..=n {
        if table.alone(s).opens != 0 {
            places[0].opens |= single(s);
        }
    }
    let stop = loop {
        if len == 0 && c == n + 1 {
            break Stop::Done;
        }
        if trials == LIMIT || extensions == LIMIT || listed == LIMIT {
            break Stop::Limit;
        }
        if made == budget {
            break Stop::Spent;
        }
        let place = &places[len];
        if place.members & single(c) != 0 {
            if out.len() - used < len + 2 {
                break Stop::Full;
            }
            let record = &mut out[used..used + len + 2];
            record[0] = len as u8 + 1;
            record[1..=len].copy_from_slice(&prefix[..len]);
            record[len + 1] = c as u8;
            used += len + 2;
            listed += 1;
            c += 1;
        } else if place.opens & single(c) != 0 {
            places[len + 1] = match len {
                0 => table.alone(c),
                1 => {
                    let (through, ends) = table.pair(prefix[0].into(), c);
                    table.after(c, through, ends)
                }
                _ => table.after(c, place.through, place.ends),
            };
            prefix[len] = c as u8;
            len += 1;
            extensions += 1;
            c = 1;
        } else {
            c += 1;
        }
        trials += 1;
        made += 1;
        while c == n + 1 && len > 0 {
            len -= 1;
            c = usize::from(prefix[len]) + 1;
        }
    };
    Stepped {
        stop,
        used,
        trials,
        extensions,
        listed,
    }
}

#[cfg(test)]
mod tests {
    use super::*;
    use crate::generate;
    use crate::model::list::{Reached, Task};
    use crate::model::machine::{self, Search};
    use crate::rng::Rng;
    use crate::sampled;

    #[test]
    fn agrees_with_the_model() {
        for case in 0..sampled(2_000) {
            let mut rng = Rng::of_case(0x5354_4550, case);
            let record = generate::any_searched(&mut rng).record();
            let n = record.atoms;
            let budget = [rng.below(3 * n + 3), rng.below(9 * n * n + 1), u64::MAX][rng.index(3)];
            let room = [rng.index(20), rng.index(400), 100_000][rng.index(3)];
            let fresh = Search::fresh(Task::Rings);
            let ran = machine::run(&Reached::new(&record), &fresh, budget, room);
            let ran = ran.expect("a fresh search");
            let mut out = vec![0; room];
            let stepped = run(&record, budget, &mut out);
            let counts = [stepped.trials, stepped.extensions, stepped.listed];
            assert_eq!(stepped.stop, ran.stop);
            assert_eq!(counts, ran.search.counts());
            assert!(out[..stepped.used] == ran.records);
        }
    }
}
