//! The example sheets and the table of their counts.

use std::fmt::Write;
use std::path::PathBuf;

use crate::model::list::Task;
use crate::model::{lister, sheet, Record};

/// The examples, in the order of their table.
pub const NAMES: [&str; 7] = [
    "prismane",
    "cubane",
    "adamantane",
    "gonane",
    "dodecahedrane",
    "buckminsterfullerene",
    "acene30",
];

/// The folder of the examples.
pub fn folder() -> PathBuf {
    PathBuf::from(concat!(env!("CARGO_MANIFEST_DIR"), "/../../examples"))
}

/// The bytes of an example sheet.
pub fn bytes(name: &str) -> Vec<u8> {
    let file = folder().join(format!("{name}.sheet"));
    std::fs::read(&file).unwrap_or_else(|error| panic!("{}: {error}", file.display()))
}

/// The molecule of an example.
pub fn record(name: &str) -> Record {
    sheet::read(&bytes(name)).expect("a bond sheet")
}

/// The molecule with its atoms numbered as a breadth-first walk from atom 1
/// meets them; it reaches them all.
pub fn breadth_first(record: &Record) -> Record {
    let n = record.atoms;
    let mut order = vec![1];
    let mut at = 0;
    while at < order.len() {
        for v in 1..=n {
            if record.bonded(order[at], v) && !order.contains(&v) {
                order.push(v);
            }
        }
        at += 1;
    }
    assert_eq!(order.len() as u64, n);
    let mut renumbered = Record::new(n);
    for (b, &w) in (1..).zip(&order) {
        for (a, &v) in (1..b).zip(&order) {
            if record.bonded(v, w) {
                renumbered.join(a, b);
            }
        }
    }
    renumbered
}

/// Rings, extensions and trials, by the Rust lister. A search takes n trials at
/// each open beginning, the empty one included.
pub fn counts(record: &Record) -> [u64; 3] {
    let listing = lister::list(record, Task::Rings);
    let trials = record.atoms * (listing.extensions + 1);
    [listing.listed, listing.extensions, trials]
}

/// The text of examples/COUNTS.md.
pub fn table() -> String {
    let cage = breadth_first(&record("buckminsterfullerene"));
    let [_, extensions, trials] = counts(&cage);
    let mut text = format!(
        "# Counts of the example sheets\n\n\
         Made by the Rust lister of the tests: `cargo run --release --bin counts` in `tests/rust`.\n\
         Extensions and trials depend on how the atoms are numbered, rings do not: numbered breadth-first\n\
         from its atom 1, buckminsterfullerene has {extensions} extensions and {trials} trials.\n\n\
         | sheet | atoms | bonds | rings | extensions | trials |\n\
         |---|--:|--:|--:|--:|--:|\n",
    );
    for name in NAMES {
        let record = record(name);
        let [rings, extensions, trials] = counts(&record);
        let (atoms, bonds) = (record.atoms, record.bonds);
        writeln!(
            text,
            "| {name} | {atoms} | {bonds} | {rings} | {extensions} | {trials} |"
        )
        .expect("a string takes any text");
    }
    text
}
