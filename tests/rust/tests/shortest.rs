//! Shortest paths and their number: all pairs of small molecules by brute force,
//! larger ones by breadth-first search, layered ones with numbers about the limit
//! of the counts, and what the two counting functions refuse.

use flat_tests::compare::{Calls, Case, On};
use flat_tests::generate::{self, Molecule};
use flat_tests::host::{self, Entry};
use flat_tests::model::field::LIMIT;
use flat_tests::model::list::{self, Reached, Task};
use flat_tests::model::machine::Stop;
use flat_tests::model::mark::MARK_ROOM;
use flat_tests::model::sheet;
use flat_tests::model::shortest::{self, OneByOne};
use flat_tests::rng::Rng;
use flat_tests::{examples, sample, sampled};

/// Up to this many atoms the list is made by brute force.
const BRUTE: u64 = 10;

/// Both counting functions, which answer alike.
struct Counts {
    calls: Calls,
    entry: Entry,
}

impl Counts {
    fn new(seed: u64) -> Counts {
        Counts {
            calls: Calls::new(seed),
            entry: Entry::new(seed),
        }
    }

    fn count(&mut self, molecule: &Molecule, s: u64, t: u64) -> Result<u64, u32> {
        let (record, sheet) = (molecule.record(), molecule.sheet());
        let reached = Reached::new(&record);
        let by_record = self.calls.count_shortest(On::lawful(&reached), s, t);
        let by_sheet = self.entry.count_shortest((&sheet, Ok(&record)), s, t);
        assert_eq!(by_record, by_sheet);
        by_record
    }
}

/// All pairs of different atoms, in either order.
fn pairs(n: u64) -> impl Iterator<Item = (u64, u64)> {
    let all = (1..=n).flat_map(move |s| (1..=n).map(move |t| (s, t)));
    all.filter(|(s, t)| s != t)
}

/// The task of a kind with ends that it allows.
fn task_of(n: u64, kind: u64, s: u64, t: u64) -> Task {
    Task::of(n, kind, s, t).expect("two atoms")
}

/// The whole list of a task, in one call of the host entry, and the last counts.
fn listed(molecule: &Molecule, task: Task, room: usize) -> (Vec<Vec<u8>>, [u64; 3]) {
    let sheet = molecule.sheet();
    let start = host::fresh_mark(&sheet, task);
    let whole = host::list(&sheet, &start, || (u64::MAX, room));
    assert_eq!(whole.stop, 101, "{task:?}");
    (list::members_of(&whole.sheet), whole.counts())
}

/// One pair: the list by the library and by the model, its counts, and the number.
fn compare_pair(counts: &mut Counts, molecule: &Molecule, (s, t): (u64, u64)) -> u64 {
    let (record, n) = (molecule.record(), molecule.atoms);
    let task = task_of(n, 3, s, t);
    let expected = match n {
        0..=BRUTE => shortest::of_all_ways(&record, s as u8, t as u8),
        _ => OneByOne::new(&record, s as u8, t as u8).collect(),
    };
    let (members, last) = listed(molecule, task, 6_000);
    assert!(members == expected, "{s} to {t} of {molecule:?}");
    let open = list::open_beginnings(&expected).len() as u64;
    let number = expected.len() as u64;
    assert_eq!(last, [n * (open + 1), open, number], "{s} to {t}");
    assert_eq!(counts.count(molecule, s, t), Ok(number));
    number
}

/// Each shortest path is in the list of paths without chords, by the library.
fn among_paths(molecule: &Molecule, (s, t): (u64, u64)) -> u64 {
    let n = molecule.atoms;
    let (paths, _) = listed(molecule, task_of(n, 1, s, t), 1 << 16);
    let (shortest, _) = listed(molecule, task_of(n, 3, s, t), 1 << 16);
    for path in &shortest {
        assert!(paths.binary_search(path).is_ok(), "{path:?}");
    }
    let fewest = paths.iter().map(Vec::len).min();
    let short: Vec<_> = paths
        .iter()
        .filter(|path| Some(path.len()) == fewest)
        .collect();
    assert!(short.iter().copied().eq(&shortest), "the shortest of them");
    (paths.len() - shortest.len()) as u64
}

/// All pairs of molecules of up to ten atoms, by brute force.
#[test]
fn all_pairs_of_small_molecules() {
    let mut counts = Counts::new(91);
    let (mut paths, mut several, mut none) = (0, 0, 0);
    for case in 0..sampled(500) {
        let _case = Case("all_pairs_of_small_molecules", case);
        let mut rng = Rng::of_case(0x5350_4149_5253, case);
        let molecule = match case % 3 {
            0 => {
                let n = rng.between(2, BRUTE);
                let m = rng.between(0, (n * (n - 1) / 2).min(2 * n));
                generate::random_molecule(&mut rng, n, m)
            }
            _ => generate::any_layered(&mut rng, BRUTE),
        };
        for pair in pairs(molecule.atoms) {
            let number = compare_pair(&mut counts, &molecule, pair);
            paths += number;
            several += u64::from(number > 1);
            none += u64::from(number == 0);
        }
    }
    println!("{paths} paths; {several} pairs with several, {none} with none");
    assert!(sample() > 1 || (several >= 3_000 && none >= 2_000));
}

/// Larger molecules, against breadth-first search, between some pairs.
#[test]
fn pairs_of_larger_molecules() {
    let mut counts = Counts::new(92);
    let (mut paths, mut most) = (0, 0);
    for case in 0..sampled(300) {
        let _case = Case("pairs_of_larger_molecules", case);
        let mut rng = Rng::of_case(0x5350_4149_5254, case);
        let molecule = match case % 4 {
            0 => {
                let n = rng.between(11, 128);
                let m = rng.between(n, (3 * n).min(n * (n - 1) / 2));
                generate::random_molecule(&mut rng, n, m)
            }
            1 => {
                let (columns, rows) = (rng.between(2, 6), rng.between(2, 6));
                generate::renamed(&mut rng, &generate::grid(columns, rows))
            }
            2 => generate::any_layered(&mut rng, 128),
            _ => generate::any_layered(&mut rng, 30),
        };
        let (n, record) = (molecule.atoms, molecule.record());
        for _ in 0..6 {
            let task = match rng.below(2) {
                0 => generate::any_shortest(&mut rng, n),
                _ => generate::far_shortest(&mut rng, &record),
            };
            let [_, s, t] = task.numbers();
            // Some have too many paths to list them all.
            if shortest::number(&record, s as u8, t as u8) <= 5_000 {
                let number = compare_pair(&mut counts, &molecule, (s, t));
                paths += number;
                most = most.max(number);
            }
        }
    }
    println!("{paths} paths, of one pair up to {most}");
    assert!(sample() > 1 || (paths >= 20_000 && most >= 1_000));
}

/// Each shortest path is a path without chords: the two lists of the library.
#[test]
fn shortest_paths_are_paths() {
    let mut longer = 0;
    for case in 0..sampled(800) {
        let _case = Case("shortest_paths_are_paths", case);
        let mut rng = Rng::of_case(0x5350_4149_5255, case);
        let molecule = match rng.below(2) {
            0 => generate::any_searched(&mut rng),
            _ => generate::any_layered(&mut rng, 16),
        };
        if molecule.atoms >= 2 {
            for _ in 0..4 {
                let ends = generate::any_ends(&mut rng, molecule.atoms);
                longer += among_paths(&molecule, ends);
            }
        }
    }
    println!("{longer} longer paths beside them");
    assert!(sample() > 1 || longer >= 1_000);
    let names: &[&str] = match sample() {
        1 => &[
            "prismane",
            "cubane",
            "adamantane",
            "gonane",
            "dodecahedrane",
        ],
        _ => &["prismane", "cubane"],
    };
    for name in names {
        let molecule = generate::molecule_of(&examples::record(name));
        for (s, t) in pairs(molecule.atoms).step_by(7) {
            among_paths(&molecule, (s, t));
        }
    }
}

/// Numbers known by other means: a grid has as many ways right and down as there
/// are orders of the steps; the cube 3 × 2 × 1; opposite atoms of an even ring 2.
#[test]
fn numbers_by_hand() {
    let mut counts = Counts::new(93);
    let mut count = |molecule: &Molecule, s, t| counts.count(molecule, s, t);
    assert_eq!(count(&generate::document(), 2, 4), Ok(2));
    assert_eq!(count(&generate::document(), 1, 3), Ok(1));
    assert_eq!(count(&generate::two_to_three(), 1, 2), Ok(3));
    assert_eq!(count(&generate::two_to_three(), 3, 5), Ok(2));
    assert_eq!(count(&generate::cube(), 1, 8), Ok(6));
    assert_eq!(count(&generate::ring(128), 1, 65), Ok(2));
    assert_eq!(count(&generate::ring(128), 1, 64), Ok(1));
    assert_eq!(count(&generate::ring(127), 1, 64), Ok(1));
    assert_eq!(count(&generate::chain(128), 1, 128), Ok(1));
    assert_eq!(count(&generate::complete(45), 45, 1), Ok(1));
    // 10 over 5, and 20 over 10.
    assert_eq!(count(&generate::grid(6, 6), 1, 36), Ok(252));
    assert_eq!(count(&generate::grid(11, 11), 121, 1), Ok(184_756));
    // Not joined, with bonds elsewhere and without any.
    let apart = Molecule::new(6, &[(1, 2), (2, 3), (4, 5), (5, 6)]);
    assert_eq!(count(&apart, 1, 6), Ok(0));
    assert_eq!(count(&apart, 4, 3), Ok(0));
    assert_eq!(count(&Molecule::new(128, &[]), 1, 128), Ok(0));
    assert_eq!(count(&Molecule::new(2, &[]), 2, 1), Ok(0));
}

/// A layered molecule as masks: of each atom of a layer, which atoms of the layer
/// before it is bonded to, the first by bit 0. Before the first layer comes atom
/// 1, and after the last an atom that is bonded to all of it.
fn masked(layers: &[&[u32]]) -> Molecule {
    let (mut last, mut bonds) = (vec![1], Vec::new());
    for layer in layers.iter().chain([&&[ALL][..]]) {
        let first = last[last.len() - 1] + 1;
        let next: Vec<u64> = (first..).take(layer.len()).collect();
        for (&b, mask) in next.iter().zip(*layer) {
            let taken = last
                .iter()
                .enumerate()
                .filter(|(at, _)| mask >> at & 1 == 1);
            bonds.extend(taken.map(|(_, &a)| (a, b)));
        }
        last = next;
    }
    Molecule {
        atoms: last[0],
        bonds,
    }
}

/// An atom bonded to all of the layer before it.
const ALL: u32 = u32::MAX;

/// The number of ways through layers with all bonds from one part to the next: of
/// each atom the sum of the numbers of those that it is bonded to, from 1 on.
fn ways(layers: &[&[u32]]) -> u128 {
    let mut last = vec![1];
    for layer in layers {
        let of = |mask: &u32| {
            let taken = last
                .iter()
                .enumerate()
                .filter(|(at, _)| mask >> at & 1 == 1);
            taken.map(|(_, number)| number).sum::<u128>()
        };
        last = layer.iter().map(of).collect();
    }
    last.iter().sum()
}

/// Layers with all their bonds, of two and of three atoms.
const TWO: &[u32] = &[ALL; 2];
const THREE: &[u32] = &[ALL; 3];

/// Parts with some bonds left out, each with a number of ways that no layers with
/// all bonds have in so few atoms: 7 = 3 × 3 - 2, and 11 = 3 × 4 - 1.
const SEVEN: &[&[u32]] = &[&[ALL; 3], &[7, 7, 4]];
const ELEVEN: &[&[u32]] = &[&[ALL; 3], &[7, 7, 7, 6]];
/// 24 atoms.
const OF_2731: &[&[u32]] = &[
    &[ALL; 3],
    &[3, 7, 7],
    &[3, 6, 7, 7],
    &[7, 15, 15],
    &[5, 7, 7, 7],
    &[15, 15, 14],
    &[7, 7, 7, 6],
];
/// 28 atoms.
const OF_11885: &[&[u32]] = &[
    &[ALL; 3],
    &[3, 7, 7, 7],
    &[14, 14, 15, 15],
    &[13, 15, 15],
    &[5, 7, 7, 7],
    &[14, 15, 15],
    &[6, 7, 7, 7],
    &[15, 15, 14],
];
/// 30 atoms.
const OF_19391: &[&[u32]] = &[
    &[ALL; 4],
    &[7, 15, 15],
    &[3, 7, 7],
    &[6, 7, 7],
    &[3, 7, 7],
    &[7, 7, 5, 7],
    &[8, 15, 15, 15],
    &[15, 15, 14],
    &[7, 7, 6],
];
/// 33 atoms.
const OF_58583: &[&[u32]] = &[
    &[ALL; 3],
    &[3, 7, 7, 7],
    &[7, 15, 15, 15],
    &[14, 15, 15],
    &[3, 7, 7, 7],
    &[15, 15, 14],
    &[6, 7, 7, 7],
    &[15, 15, 14, 14],
    &[15, 15, 15, 14],
];

/// A molecule of parts one after the other, and the product of their numbers.
fn of_parts(parts: &[&[&'static [u32]]]) -> (Molecule, u128) {
    let product = parts.iter().map(|part| ways(part)).product();
    (masked(&parts.concat()), product)
}

/// Compares the number from the first to the last atom and back, in either
/// numbering, with the product.
fn compare_layers(counts: &mut Counts, rng: &mut Rng, molecule: &Molecule, product: u128) {
    assert!(molecule.atoms <= 128 && molecule.bonds.len() <= 1_024);
    let n = molecule.atoms;
    assert_eq!(shortest::number(&molecule.record(), 1, n as u8), product);
    let expected = match product > u128::from(LIMIT) {
        true => Err(26),
        false => Ok(product as u64),
    };
    assert_eq!(counts.count(molecule, 1, n), expected);
    assert_eq!(counts.count(molecule, n, 1), expected);
    for _ in 0..3 {
        let mut names: Vec<u64> = (1..=n).collect();
        rng.shuffle(&mut names);
        let name = |a: u64| names[a as usize - 1];
        let bonds = molecule.bonds.iter().map(|&(a, b)| (name(b), name(a)));
        let renamed = Molecule {
            atoms: n,
            bonds: bonds.collect(),
        };
        assert_eq!(counts.count(&renamed, name(1), name(n)), expected);
    }
}

/// Layers with all bonds between each two: the number is the product of their
/// widths. No 126 atoms have more than 3 to the 42nd.
#[test]
fn layers() {
    let (mut counts, mut rng) = (Counts::new(94), Rng::new(94));
    for (widths, product) in [
        (vec![], 1),
        (vec![1], 1),
        (vec![126], 126),
        (vec![2; 10], 1 << 10),
        (vec![3; 39], 3u128.pow(39)),
        (vec![3; 40], 3u128.pow(40)),
        (vec![3; 41], 3u128.pow(41)),
        (vec![3; 42], 3u128.pow(42)),
        // Above the highest number with a sign, and below the limit.
        (vec![2; 63], 1 << 63),
        (vec![4; 31], 1 << 62),
        (vec![5; 25], 5u128.pow(25)),
        (vec![1; 126], 1),
    ] {
        let molecule = generate::layers(&widths);
        compare_layers(&mut counts, &mut rng, &molecule, product);
    }
    // 3 to the 40th is above the limit and below 2 to the 64th.
    let above = 3u128.pow(40);
    assert!(above > LIMIT.into() && above < 1 << 64);
    let full = generate::layers(&[3; 42]);
    assert_eq!((full.atoms, full.bonds.len()), (128, 375));
}

/// Products of widths on both sides of the limit: of 126 atoms in layers of 2, 3,
/// 5, 7, 11 and 13 with all bonds these are the nearest found.
#[test]
fn layers_near_the_limit() {
    let (mut counts, mut rng) = (Counts::new(95), Rng::new(95));
    let widths = |of: [(u64, usize); 4]| -> Vec<u64> {
        of.iter()
            .flat_map(|&(width, times)| vec![width; times])
            .collect()
    };
    for (of, number) in [
        // 2^17 × 3^20 × 5^5 × 7 in 126 atoms.
        (
            [(2, 17), (3, 20), (5, 5), (7, 1)],
            9_997_308_234_547_200_000,
        ),
        // 2^3 × 3^35 × 5^2 in 121 atoms.
        (
            [(2, 3), (3, 35), (5, 2), (7, 0)],
            10_006_309_019_799_941_400,
        ),
    ] {
        let mut widths = widths(of);
        let product: u128 = widths.iter().map(|&width| u128::from(width)).product();
        assert_eq!(product, number);
        compare_layers(&mut counts, &mut rng, &generate::layers(&widths), product);
        // The order of the layers plays no part, as long as the bonds are not
        // too many.
        rng.shuffle(&mut widths);
        compare_layers(&mut counts, &mut rng, &generate::layers(&widths), product);
    }
}

/// Nearer to the limit with parts that have some bonds left out, in 128 atoms.
///
/// No molecule was found whose number is the limit, 10^19 - 1 (9 times a prime), or
/// 10^19; that the limit itself is answered is shown by the proof alone.
#[test]
fn nearer_to_the_limit() {
    let (mut counts, mut rng) = (Counts::new(96), Rng::new(96));
    for (part, number) in [
        (SEVEN, 7),
        (ELEVEN, 11),
        (OF_2731, 2_731),
        (OF_11885, 11_885),
        (OF_19391, 19_391),
        (OF_58583, 58_583),
    ] {
        assert_eq!(ways(part), number);
        compare_layers(&mut counts, &mut rng, &masked(part), number);
    }
    // 2^2 × 3^17 × 11^2 × 2,731 × 58,583 = 10^19 - 2,504,791,684.
    let mut below = vec![ELEVEN, OF_2731, ELEVEN, OF_58583];
    below.extend([&[THREE][..]; 17]);
    below.extend([&[TWO][..]; 2]);
    // 2^4 × 3^18 × 7 × 11,885 × 19,391 = 10^19 + 1,111,132,880.
    let mut above = vec![OF_19391, SEVEN, OF_11885];
    above.extend([&[THREE][..]; 18]);
    above.extend([&[TWO][..]; 4]);
    for (mut parts, number) in [
        (below, 9_999_999_997_495_208_316),
        (above, 10_000_000_001_111_132_880),
    ] {
        for _ in 0..4 {
            let (molecule, product) = of_parts(&parts);
            assert_eq!((molecule.atoms, product), (128, number));
            compare_layers(&mut counts, &mut rng, &molecule, product);
            rng.shuffle(&mut parts);
        }
    }
}

/// Layers of which some bonds are left out at random, and some atoms have bonds
/// within a layer: numbers of all sizes, on both sides of the limit.
#[test]
fn random_layers() {
    let mut counts = Counts::new(97);
    let (mut answered, mut refused) = (0, 0);
    for case in 0..sampled(1_500) {
        let _case = Case("random_layers", case);
        let mut rng = Rng::of_case(0x4C41_5945_5253, case);
        let mut molecule = generate::layers(&[3; 42]);
        let left_out = rng.below(50) as usize;
        rng.shuffle(&mut molecule.bonds);
        molecule.bonds.truncate(375 - left_out);
        let taken = molecule.record();
        for layer in 0..rng.below(30) {
            let bond = (3 * layer + 2, 3 * layer + 3 + rng.below(2));
            if !taken.bonded(bond.0, bond.1) {
                molecule.bonds.push(bond);
            }
        }
        let name = rng.between(1, 128);
        for (s, t) in [(1, 128), (128, 1), (1, name.max(2)), (name.min(127), 128)] {
            match counts.count(&molecule, s, t) {
                Ok(number) => answered += u64::from(number > LIMIT / 1_000),
                Err(rule) => refused += u64::from(rule == 26),
            }
        }
    }
    println!("{answered} above a thousandth of the limit, {refused} above the limit");
    assert!(sample() > 1 || (answered >= 500 && refused >= 500));
}

/// Atom 1, then 41 layers of 3, then four atoms with other bonds. An atom of layer
/// k has 3^(k-1) paths from atom 1; in layer 41 that is above the limit.
fn with_others(bonds: &[(u64, u64)]) -> Molecule {
    let mut molecule = generate::layers(&[3; 41]);
    molecule.bonds.retain(|&(_, b)| b <= 124);
    molecule.bonds.extend(bonds);
    molecule.atoms = 128;
    molecule
}

/// The three atoms of layer k.
fn layer(k: u64) -> [u64; 3] {
    [3 * k - 1, 3 * k, 3 * k + 1]
}

/// Atoms off every path from s to t whose own numbers are above the limit play no
/// part: other layers go on behind t, beside it, and end before it.
#[test]
fn only_others_above_the_limit() {
    let mut counts = Counts::new(98);
    assert!(3u128.pow(40) > LIMIT.into());
    assert_eq!(counts.count(&with_others(&[]), 1, 124), Err(26));
    for k in 1..=39 {
        let number = 3u64.pow(k as u32 - 1);
        // t is bonded to one, two or three atoms of layer k.
        let bonds = layer(k).map(|a| (a, 125));
        for bonded in 1..=3 {
            let molecule = with_others(&bonds[..bonded]);
            let expected = Ok(bonded as u64 * number);
            assert_eq!(counts.count(&molecule, 1, 125), expected);
        }
        // t is one to four atoms away from an atom of layer k. From layer 38 on the
        // last of them is farther than layer 41, whose atoms are on no path to it.
        let a = layer(k)[(k % 3) as usize];
        let chain = with_others(&[(a, 125), (125, 126), (126, 127), (127, 128)]);
        for t in 125..=128 {
            assert_eq!(counts.count(&chain, 1, t), Ok(number));
        }
    }
    // At layer 40 each atom has 3^39 paths; three of them are too many.
    let bonds = layer(40).map(|a| (a, 125));
    for (bonded, expected) in [
        (1, Ok(3u64.pow(39))),
        (2, Ok(2 * 3u64.pow(39))),
        (3, Err(26)),
    ] {
        let molecule = with_others(&bonds[..bonded]);
        assert_eq!(counts.count(&molecule, 1, 125), expected);
    }
}

/// The same layers hanging on s, with two paths to t elsewhere; behind t; and
/// where t is not joined to s.
#[test]
fn others_beside_and_behind() {
    let mut counts = Counts::new(103);
    let molecule = with_others(&[(1, 125), (1, 126), (125, 127), (126, 127)]);
    for (s, t, expected) in [
        (1, 127, Ok(2)),
        (127, 1, Ok(2)),
        (125, 1, Ok(1)),
        (125, 126, Ok(2)),
        (1, 128, Ok(0)),
        (128, 1, Ok(0)),
        (127, 124, Err(26)),
        (124, 127, Err(26)),
    ] {
        assert_eq!(counts.count(&molecule, s, t), expected, "{s} to {t}");
    }
}

/// What the counting functions refuse: 9, or 1 to 8 from the sheet, then 10, then
/// 11, and 26 last; the number is not written.
#[test]
fn order_of_rules() {
    let mut counts = Counts::new(99);
    let many = generate::layers(&[3; 42]);
    let (record, right) = (many.record(), many.sheet());
    let mut unlawful = record.clone();
    unlawful.bonds += 1;
    for (rule, s, t) in [
        (26, 1, 128),
        (26, 128, 1),
        (11, 1, 1),
        (11, 128, 128),
        (10, 0, 0),
        (10, 0, 128),
        (10, 1, 0),
        (10, 129, 129),
        (10, 1, 129),
        (10, 257, 128),
        (10, 1, 256 + 128),
        (10, (1 << 32) + 1, 128),
        (10, 1, (1 << 63) + 128),
        (10, u64::MAX, u64::MAX),
    ] {
        assert_eq!(counts.count(&many, s, t), Err(rule), "{s} to {t}");
        let on = On::unlawful(&unlawful);
        assert_eq!(counts.calls.count_shortest(on, s, t), Err(9));
        for (rule, sheet) in bad_sheets(&right) {
            assert_eq!(sheet::read(&sheet), Err(rule));
            let answer = counts.entry.count_shortest((&sheet, Err(rule)), s, t);
            assert_eq!(answer, Err(rule));
        }
    }
    for n in 0..=2 {
        let none = Molecule::new(n, &[]);
        let ends = || (0..=4).chain([u64::MAX]);
        for (s, t) in ends().flat_map(|s| ends().map(move |t| (s, t))) {
            let expected = match (s, t) {
                _ if s == 0 || s > n || t == 0 || t > n => Err(10),
                _ if s == t => Err(11),
                _ => Ok(0),
            };
            assert_eq!(counts.count(&none, s, t), expected);
        }
    }
}

/// For each rule of a sheet one that breaks it, made from a right one.
fn bad_sheets(right: &[u8]) -> Vec<(u32, Vec<u8>)> {
    let with = |at: usize, text: &[u8]| {
        let mut sheet = right.to_vec();
        sheet[at..at + text.len()].copy_from_slice(text);
        sheet
    };
    vec![
        (1, right[1..].to_vec()),
        (1, Vec::new()),
        (2, with(0, b"128 ")),
        (3, with(0, b" 129")),
        (4, with(4, b"1025")),
        (5, with(4, b" 374")),
        (6, with(9, b"   0")),
        (7, with(9, b"   2   2")),
        (8, with(18, &right[9..17])),
    ]
}

/// The counting functions on sheets and records right and damaged.
#[test]
fn random_counts() {
    let mut counts = Counts::new(100);
    for case in 0..sampled(4_000) {
        let _case = Case("random_counts", case);
        let mut rng = Rng::of_case(0x434F_554E_5453, case);
        let kind = case % generate::RECORD_KINDS;
        let record = generate::any_record(&mut rng, kind);
        let reached = Reached::new(&record);
        let on = match record.is_lawful() {
            true => On::lawful(&reached),
            false => On::unlawful(&record),
        };
        let sheet_kind = case % generate::SHEET_KINDS;
        let sheet = generate::any_sheet(&mut rng, sheet_kind);
        let read = sheet::read(&sheet);
        for _ in 0..3 {
            let end = |rng: &mut Rng, n: u64| match rng.below(8) {
                0 => generate::wild(rng, n),
                1 => rng.below(4),
                _ => rng.between(0, n.min(200) + 1),
            };
            let (s, t) = (end(&mut rng, record.atoms), end(&mut rng, record.atoms));
            let _ = counts.calls.count_shortest(on, s, t);
            let n = read.as_ref().map_or(5, |read| read.atoms);
            let (s, t) = (end(&mut rng, n), end(&mut rng, n));
            let read = read.as_ref().map_err(|rule| *rule);
            let _ = counts.entry.count_shortest((&sheet, read), s, t);
        }
    }
    counts.calls.print();
    counts.entry.print();
    let calls = &counts.calls;
    calls.at_least(1_000, "count_shortest", &[0, 9, 10]);
    calls.at_least(30, "count_shortest", &[11]);
    counts.entry.at_least(500, &[0, 10]);
    counts.entry.at_least(30, &[1, 2, 3, 4, 5, 6, 7, 8, 11]);
}

/// The number equals what runs from a fresh search have listed when done.
#[test]
fn number_is_what_runs_list() {
    let mut counts = Counts::new(101);
    let (mut molecules, mut paths) = (0, 0);
    for case in 0..sampled(400) {
        let _case = Case("number_is_what_runs_list", case);
        let mut rng = Rng::of_case(0x4E55_4D42_4552, case);
        let molecule = generate::any_layered(&mut rng, 60);
        let record = molecule.record();
        let reached = Reached::new(&record);
        let on = On::lawful(&reached);
        let [_, s, t] = generate::far_shortest(&mut rng, &record).numbers();
        let number = match counts.count(&molecule, s, t) {
            Ok(number) if number <= 2_000 => number,
            _ => continue,
        };
        let mut search = counts.calls.start_shortest(on, s, t).expect("two atoms");
        let (mut records, mut stop) = (0, Stop::Spent);
        while stop != Stop::Done {
            let (budget, room) = (rng.between(1, 20_000), rng.between(129, 4_000));
            let ran = counts.calls.run(on, &search, budget, room as usize);
            let ran = ran.expect("accepted");
            records += list::members_of(&ran.records).len() as u64;
            (search, stop) = (ran.search, ran.stop);
        }
        assert_eq!((search.listed, records), (number, number));
        molecules += 1;
        paths += number;
    }
    println!("{molecules} molecules, {paths} paths");
    assert!(sample() > 1 || (molecules >= 250 && paths >= 10_000));
    // Numbers that take a while to list, by the host entry alone.
    if sample() == 1 {
        for (molecule, number) in [
            (generate::grid(8, 8), 3_432),
            (generate::layers(&[3; 9]), 19_683),
            (generate::layers(&[2; 14]), 16_384),
        ] {
            let n = molecule.atoms;
            let (members, last) = listed(&molecule, task_of(n, 3, 1, n), 1 << 16);
            assert_eq!((members.len() as u64, last[2]), (number, number));
            assert_eq!(counts.count(&molecule, 1, n), Ok(number));
        }
    }
}

/// The first paths of 39 layers of three, of 3 to the 39th, in calls of a few
/// trials each that go on from mark to mark, against a model that makes one after
/// the other.
#[test]
fn first_of_many() {
    let molecule = generate::layers(&[3; 39]);
    let (record, sheet) = (molecule.record(), molecule.sheet());
    let (n, records) = (molecule.atoms, sampled(5_000));
    assert_eq!((n, molecule.bonds.len()), (119, 348));
    for (s, t) in [(1, n), (n, 1)] {
        let mut expected = OneByOne::new(&record, s as u8, t as u8);
        let mut mark = host::fresh_mark(&sheet, task_of(n, 3, s, t));
        let mut rng = Rng::new(s);
        let (mut seen, mut calls) = (0, 0);
        while seen < records {
            // Each call has room for a few records, or too little for one.
            let budget = rng.pick(&[1, 7, 100, 1_000, 5_000, 20_000, u64::MAX]);
            let room = rng.pick(&[0, 41, 42, 43, 200, 2_000, 4_200]);
            let mut out = vec![0xA5; room];
            let mut next = [0; MARK_ROOM];
            let stop = host::resume(&sheet, &mark, budget, &mut out, &mut next);
            assert!(stop == 103 || stop == 104, "stop {stop}");
            let new = host::listed(&next) - host::listed(&mark);
            let used = 42 * new as usize;
            for record in out[..used].chunks_exact(42) {
                let member = expected.next().expect("there are more");
                assert_eq!(record, list::record_of(&member), "member {seen}");
                seen += 1;
            }
            assert!(out[used..].iter().all(|&byte| byte == 0xA5));
            mark = next[..host::mark_length(&next)].to_vec();
            calls += 1;
        }
        assert_eq!(host::listed(&mark), seen);
        println!("{seen} records in {calls} calls");
    }
}

/// The same through the record functions, each run compared with the model that
/// goes trial by trial, and a restored mark in between.
#[test]
fn first_of_many_by_record() {
    let molecule = generate::layers(&[3; 39]);
    let record = molecule.record();
    let reached = Reached::new(&record);
    let on = On::lawful(&reached);
    let mut calls = Calls::new(102);
    let mut expected = OneByOne::new(&record, 1, 119);
    let mut search = calls.start_shortest(on, 1, 119).expect("two atoms");
    let mut rng = Rng::new(102);
    while search.listed < sampled(2_000) {
        let (budget, room) = (rng.between(0, 9_000), rng.index(3_000));
        let ran = calls.run(on, &search, budget, room).expect("accepted");
        for member in list::members_of(&ran.records) {
            assert_eq!(Some(member), expected.next());
        }
        let mark = calls.save(on, &ran.search, MARK_ROOM).expect("a mark");
        search = calls.restore(on, &mark).expect("its mark");
        assert_eq!(search, ran.search);
    }
}

/// Two atoms that are not joined: a search that lists nothing, after n trials.
#[test]
fn not_joined() {
    for (molecule, s, t) in [
        (Molecule::new(2, &[]), 1, 2),
        (Molecule::new(4, &[(1, 2), (3, 4)]), 4, 1),
        (Molecule::new(128, &[(1, 2)]), 1, 128),
    ] {
        let n = molecule.atoms;
        let (members, last) = listed(&molecule, task_of(n, 3, s, t), 0);
        assert!(members.is_empty());
        assert_eq!(last, [n, 0, 0]);
    }
}
