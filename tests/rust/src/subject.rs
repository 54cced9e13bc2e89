//! Molecules to call the entries on, and places of searches on them to make
//! marks of.

use crate::generate::{self, Molecule};
use crate::host::Sheet;
use crate::model::carry::Form;
use crate::model::field::LIMIT;
use crate::model::list::{self, Listed, Lists, Reached, Task};
use crate::model::machine::Search;
use crate::model::{lister, sheet, Record};
use crate::rng::Rng;

/// Up to this many atoms the model answers from the brute-force list.
pub const BRUTE: u64 = 12;

/// A molecule with its sheet, open beginnings to make marks of, and a molecule
/// with as many atoms and bonds.
pub struct Subject<'a> {
    pub lists: &'a dyn Lists,
    pub sheet: Vec<u8>,
    pub places: Vec<(Task, Vec<u8>)>,
    pub isomer: Option<Record>,
}

impl Subject<'_> {
    pub fn record(&self) -> &Record {
        self.lists.record()
    }

    pub fn atoms(&self) -> u64 {
        self.record().atoms
    }

    /// The sheet, and what the model reads in it.
    pub fn own(&self) -> Sheet<'_> {
        (&self.sheet, Ok(self.lists))
    }

    /// The mark of any open beginning and next atom, with any counts.
    pub fn mark(&self, rng: &mut Rng, form: Form) -> Vec<u8> {
        form.write(self.record(), &self.place(rng))
    }

    /// The same place on a molecule with as many atoms and bonds.
    pub fn mark_of_isomer(&self, rng: &mut Rng, form: Form) -> Vec<u8> {
        let record = self.isomer.as_ref().unwrap_or_else(|| self.record());
        form.write(record, &self.place(rng))
    }

    /// Any open beginning and next atom, with any counts.
    pub fn place(&self, rng: &mut Rng) -> Search {
        let n = self.atoms();
        let (task, p) = &self.places[rng.index(self.places.len())];
        let c = match p.len() {
            0 => rng.between(1, n + 1),
            _ => rng.between(1, n),
        };
        let mut search = Search::at(*task, p, c);
        let mut any_count = || match rng.below(12) {
            0 => LIMIT,
            1 => LIMIT - 1,
            2 => LIMIT - rng.below(4 * n + 4),
            3..=5 => 0,
            _ => (rng.next() >> rng.below(64)).min(LIMIT),
        };
        search.trials = any_count();
        search.extensions = any_count();
        search.listed = any_count();
        search
    }

    /// The sheet changed, or another in its place.
    pub fn changed_sheet(&self, rng: &mut Rng) -> Vec<u8> {
        let kind = rng.between(2, generate::SHEET_KINDS - 1);
        generate::changed_sheet(rng, kind, self.sheet.clone())
    }
}

/// What `check` gives of a molecule, on a sheet filled in any way.
pub fn on_subject<T>(
    rng: &mut Rng,
    molecule: &Molecule,
    check: impl FnOnce(&Subject, &mut Rng) -> T,
) -> T {
    let record = molecule.record();
    let (listed, reached) = (Listed::new(&record), Reached::new(&record));
    let subject = Subject {
        lists: quicker(&listed, &reached),
        sheet: match rng.below(4) {
            0 => generate::zero_filled(&molecule.sheet()),
            1 => generate::mixed(rng, &molecule.sheet()),
            _ => molecule.sheet(),
        },
        places: places(rng, &listed),
        isomer: generate::isomer(rng, molecule).map(|isomer| isomer.record()),
    };
    check(&subject, rng)
}

/// The one of the two that answers sooner.
pub fn quicker<'a>(listed: &'a Listed<'a>, reached: &'a Reached<'a>) -> &'a dyn Lists {
    if listed.record().atoms <= BRUTE {
        listed
    } else {
        reached
    }
}

/// The empty beginning and up to 40 others, of rings, of paths, of rings up to a
/// size and of shortest paths.
fn places(rng: &mut Rng, listed: &Listed) -> Vec<(Task, Vec<u8>)> {
    let record = listed.record();
    let n = record.atoms;
    let mut places = Vec::new();
    for task in generate::any_tasks(rng, n) {
        // A large molecule may have too many members to list.
        let members = if n <= BRUTE {
            listed.members(task).to_vec()
        } else if record.bonds <= n + 6 {
            lister::list(record, task).members()
        } else {
            Vec::new()
        };
        let mut open = list::open_beginnings(&members);
        rng.shuffle(&mut open);
        open.truncate(40);
        open.push(Vec::new());
        places.extend(open.into_iter().map(|p| (task, p)));
    }
    places
}

/// A molecule to call on: seldom one of any size.
pub fn any_molecule(rng: &mut Rng) -> Molecule {
    match rng.below(40) {
        0 => generate::any_judged(rng),
        1 => generate::any_molecule(rng),
        _ => generate::any_searched(rng),
    }
}

/// What `call` gives on any sheet.
pub fn on_sheet<T>(sheet: &[u8], call: impl FnOnce(Sheet) -> T) -> T {
    match sheet::read(sheet) {
        Ok(record) => call((sheet, Ok(&Reached::new(&record)))),
        Err(rule) => call((sheet, Err(rule))),
    }
}

/// Bytes that no save wrote: noise, a piece of a mark, or a sheet.
pub fn no_mark(rng: &mut Rng, sheet: &[u8]) -> Vec<u8> {
    let mut bytes = match rng.below(4) {
        0 => {
            let len = rng.index(700);
            (0..len).map(|_| rng.byte()).collect()
        }
        1 => {
            let len = rng.index(700);
            (0..len).map(|_| rng.pick(b"    01234\n")).collect()
        }
        2 => sheet.to_vec(),
        _ => vec![rng.pick(b" 0\n\0"); rng.pick(&[1, 28, 29, 90, 91, 92, 95, 100, 599, 9_815])],
    };
    if rng.one_in(3) {
        bytes.truncate(rng.index(bytes.len() + 1));
    }
    bytes
}

/// Searches on a molecule at many places, with counts of all lengths.
fn searches_of(molecule: &Molecule, tasks: &[Task]) -> (Record, Vec<Search>) {
    let record = molecule.record();
    let n = record.atoms;
    let mut searches = Vec::new();
    for &task in tasks {
        let mut open = list::open_beginnings(&lister::list(&record, task).members());
        open.push(Vec::new());
        for (at, p) in open.iter().enumerate() {
            let mut search = Search::at(task, p, at as u64 % n + 1);
            search.trials = LIMIT >> (7 * at % 64);
            search.extensions = at as u64 * 11;
            search.listed = 10u64.pow(at as u32 % 19) - 1;
            searches.push(search);
        }
    }
    (record, searches)
}

/// A task of each kind, on at least four atoms, with this size for the rings.
pub fn each_kind(k: u8) -> [Task; 4] {
    let (s, t) = (2, 4);
    let (paths, shortest) = (Task::Paths { s, t }, Task::Shortest { s, t });
    [Task::Rings, paths, Task::RingsUpTo { k }, shortest]
}

/// Searches of each kind on a few molecules; the size is the smallest that
/// leaves all rings.
pub fn small_searches() -> Vec<(Record, Vec<Search>)> {
    vec![
        searches_of(&generate::document(), &each_kind(3)),
        searches_of(&generate::two_to_three(), &each_kind(4)),
        searches_of(&generate::ring(12), &each_kind(12)),
    ]
}
