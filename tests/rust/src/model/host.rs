//! The host entry: a sheet is read, a mark restored, the search run and saved.

use super::field;
use super::list::{Lists, Task};
use super::machine::{self, Search, Stop};
use super::mark::{self, MARK_ROOM};
use super::{sheet, Record};

/// Bytes of the shortest mark.
const SHORTEST_MARK: usize = 91;

/// What an accepted call returns and writes: the records at the start of the
/// ring output, the mark at the start of the mark output.
#[derive(Clone, Debug, PartialEq, Eq)]
pub struct Resumed {
    pub stop: Stop,
    pub records: Vec<u8>,
    pub mark: Vec<u8>,
    pub search: Search,
}

/// The entry, on a sheet that reads as `read` says, with `room` bytes for rings
/// and `mark_room` bytes for the next mark.
pub fn resume(
    read: Result<&dyn Lists, u32>,
    mark: &[u8],
    budget: u64,
    room: usize,
    mark_room: usize,
) -> Result<Resumed, u32> {
    let lists = read?;
    let search = match mark {
        [] => Search::fresh(Task::Rings),
        _ => mark::read(lists, mark)?,
    };
    if mark_room < MARK_ROOM {
        return Err(13);
    }
    let ran = machine::run(lists, &search, budget, room).expect("a search of a mark");
    Ok(Resumed {
        stop: ran.stop,
        records: ran.records,
        mark: machine::save(lists, &ran.search, mark_room).expect("a search and room"),
        search: ran.search,
    })
}

/// The start of a search of any kind, on a sheet that reads as `read` says, with
/// `mark_room` bytes for its mark: the fresh mark, or a refusal.
pub fn start(
    read: Result<&dyn Lists, u32>,
    [kind, s, t]: [u64; 3],
    mark_room: usize,
) -> Result<Vec<u8>, u32> {
    let record = read?.record();
    let task = Task::start(record.atoms, kind, s, t)?;
    if mark_room < MARK_ROOM {
        return Err(13);
    }
    Ok(mark::write(record, &Search::fresh(task)))
}

/// The number of shortest paths from s to t, on a sheet that reads as `read`
/// says, or a refusal.
pub fn count_shortest(read: Result<&Record, u32>, s: u64, t: u64) -> Result<u64, u32> {
    machine::count_shortest(read?, true, s, t)
}

/// The sheet of a molfile that reads as `read` says, with `room` bytes for it, or a
/// refusal.
pub fn molfile(read: Result<&Record, u32>, room: usize) -> Result<Vec<u8>, u32> {
    let sheet = sheet::write(read?);
    if room < sheet.len() {
        return Err(13);
    }
    Ok(sheet)
}

/// The bytes of the mark at the start of a buffer, or 0.
pub fn mark_length(bytes: &[u8]) -> usize {
    if bytes.len() < SHORTEST_MARK {
        return 0;
    }
    let field = |at| field::read_without_zeros(&bytes[at..at + 4]);
    match (field(16), field(20)) {
        (Some(bonds), Some(atoms)) => {
            let size = mark::size(atoms as usize, bonds as usize);
            if size <= bytes.len() {
                size
            } else {
                0
            }
        }
        _ => 0,
    }
}

/// The listed count of a mark, or 0.
pub fn listed(bytes: &[u8]) -> u64 {
    if bytes.len() < SHORTEST_MARK {
        return 0;
    }
    field::read_without_zeros(&bytes[69..89]).unwrap_or(0)
}

/// The lines that `ringlist` prints for joined records.
pub fn ring_lines(mut records: &[u8]) -> Vec<u8> {
    let mut text = Vec::new();
    while let Some((&len, rest)) = records.split_first() {
        let (ring, rest) = rest.split_at(len.into());
        for &v in ring {
            text.extend(field::write(4, v.into()));
        }
        text.push(b'\n');
        records = rest;
    }
    text
}

/// The last line that `ringlist` prints.
pub fn count_line(listed: u64, extensions: u64, trials: u64) -> Vec<u8> {
    format!("{listed:>20}{extensions:>20}{trials:>20}\n").into_bytes()
}

/// The line that `ringlist` prints for a refusal.
pub fn refusal_line(number: u32) -> Vec<u8> {
    format!("refused{number:>4}\n").into_bytes()
}

#[cfg(test)]
mod tests {
    use super::super::field::LIMIT;
    use super::super::list::Listed;
    use super::*;
    use crate::generate::{self, Molecule};
    use crate::rng::Rng;

    #[test]
    fn document_by_hand() {
        let record = generate::document().record();
        let lists = Listed::new(&record);
        let go = |mark: &[u8], budget, room, mark_room| {
            resume(Ok(&lists), mark, budget, room, mark_room)
        };
        let full = go(&[], 6, 3, 9_815).expect("accepted");
        assert_eq!((full.stop, full.mark.len()), (Stop::Full, 144));
        assert_eq!(mark_length(&full.mark), 144);
        assert_eq!(mark_length(&full.mark[..143]), 0);
        assert_eq!(listed(&full.mark), 0);
        let done = go(&full.mark, 11, 8, 9_815).expect("accepted");
        assert_eq!(done.stop, Stop::Done);
        assert_eq!((done.mark.len(), listed(&done.mark)), (136, 2));
        assert_eq!(ring_lines(&done.records), b"   1   2   3\n   1   3   4\n");
        assert_eq!(go(&full.mark, 1, 0, 9_814), Err(13));
        assert_eq!(go(&full.mark, 1, 0, 599), Err(13));
        assert_eq!(go(b"x", 1, 0, 0), Err(14));
        // The mark before request F-5, and that of an isomer.
        assert_eq!(go(&full.mark[..99], 1, 0, 0), Err(14));
        let isomer = Molecule::new(4, &[(1, 2), (2, 3), (3, 4), (1, 4), (2, 4)]);
        let strange = mark::write(&isomer.record(), &full.search);
        assert_eq!(go(&strange, 1, 0, 0), Err(15));
        assert_eq!(resume(Err(3), b"x", 1, 0, 0), Err(3));
        assert_eq!(refusal_line(17), b"refused  17\n");
        let line = b"                   2                   3                  16\n";
        assert_eq!(count_line(2, 3, 16), line);
    }

    /// The mark of each kind, and the order of the refusals.
    #[test]
    fn starts_by_hand() {
        let record = generate::document().record();
        let lists = Listed::new(&record);
        let go = |numbers, room| start(Ok(&lists), numbers, room);
        for (numbers, line_1) in [
            ([0, 0, 0], "   0   0   0   4   5   0   1"),
            ([1, 2, 4], "   1   2   4   4   5   0   1"),
            ([2, 12, 0], "   2  12   0   4   5   0   1"),
            ([2, 128, 0], "   2 128   0   4   5   0   1"),
            ([3, 2, 4], "   3   2   4   4   5   0   1"),
        ] {
            let line_2 = "                   0                   0                   0";
            let bonds = "   1   2\n   1   3\n   1   4\n   2   3\n   3   4\n";
            let expected = format!("{line_1}\n{line_2}\n\n{bonds}").into_bytes();
            assert_eq!(go(numbers, 9_815), Ok(expected));
            assert_eq!(go(numbers, 9_814), Err(13));
            assert_eq!(start(Err(8), numbers, 9_815), Err(8));
        }
        for (numbers, rule) in [
            ([4, 0, 0], 16),
            ([4, 2, 4], 16),
            ([3, 0, 0], 10),
            ([3, 4, 4], 11),
            ([0, 3, 0], 16),
            ([2, 2, 1], 16),
            ([1, 0, 0], 10),
            ([1, 4, 4], 11),
            ([2, 2, 0], 21),
        ] {
            assert_eq!(go(numbers, 0), Err(rule));
            assert_eq!(start(Err(1), numbers, 0), Err(1));
        }
    }

    #[test]
    fn counts_by_hand() {
        let record = generate::document().record();
        assert_eq!(count_shortest(Ok(&record), 2, 4), Ok(2));
        assert_eq!(count_shortest(Ok(&record), 2, 2), Err(11));
        assert_eq!(count_shortest(Err(8), 2, 2), Err(8));
    }

    /// A field that zeros fill is no number in a mark.
    #[test]
    fn zeros_by_hand() {
        let line_2 = "                   5                   2                   3\n";
        let bonds = "   1   2\n   1   3\n   1   4\n   2   3\n   3   4\n";
        let mark = format!("   0   0   0   4   5   2   3\n{line_2}   1   2\n{bonds}").into_bytes();
        assert_eq!((mark_length(&mark), listed(&mark)), (144, 3));
        let with = |at: usize, text: &[u8]| {
            let mut changed = mark.clone();
            changed[at..at + text.len()].copy_from_slice(text);
            (mark_length(&changed), listed(&changed))
        };
        assert_eq!(with(20, b"0002"), (0, 3));
        assert_eq!(with(20, b"0000"), (0, 3));
        assert_eq!(with(20, b"   0"), (136, 3));
        assert_eq!(with(20, b" 002"), (0, 3));
        assert_eq!(with(16, b"0005"), (0, 3));
        assert_eq!(with(16, b"0000"), (0, 3));
        assert_eq!(with(16, b"    "), (0, 3));
        assert_eq!(with(16, b"   x"), (0, 3));
        assert_eq!(with(16, b"   0"), (99, 3));
        assert_eq!(with(16, b"   6"), (0, 3));
        assert_eq!(with(16, b"   0   0"), (91, 3));
        assert_eq!(with(69, b"00000000000000000003"), (144, 0));
        assert_eq!(with(69, b"09999999999999999999"), (144, 0));
        assert_eq!(with(69, b" 9999999999999999999"), (144, LIMIT));
        // The other fields are not looked at, nor the bond lines.
        assert_eq!(with(12, b"0004"), (144, 3));
        assert_eq!(with(49, b"00000000000000000002"), (144, 3));
        assert_eq!(with(99, b"00020001\n"), (144, 3));
        // A number of four digits fills its columns.
        let long = |at: usize, size: usize| {
            let mut long = mark.clone();
            long[at..at + 4].copy_from_slice(b"1000");
            long.resize(size, b' ');
            mark_length(&long)
        };
        assert_eq!((long(20, 4_136), long(20, 4_135)), (4_136, 0));
        assert_eq!((long(16, 9_099), long(16, 9_098)), (9_099, 0));
        // The most that the two fields can say.
        let mut most = mark.clone();
        most[16..24].copy_from_slice(b"99999999");
        most.resize(91 + 13 * 9_999, 0);
        assert_eq!(mark_length(&most), 91 + 13 * 9_999);
        assert_eq!(mark_length(&most[1..]), 0);
        assert_eq!(mark_length(&most[..91 + 13 * 9_999 - 1]), 0);
    }

    /// The lengths of marks on molecules of no bonds, of one and of 1,024.
    #[test]
    fn lengths_by_hand() {
        let fresh = Search::fresh(Task::Rings);
        for (molecule, size) in [
            (Molecule::new(3, &[]), 91),
            (Molecule::new(3, &[(1, 3)]), 100),
            (generate::complete(45), 91 + 9 * 990),
            (
                generate::random_molecule(&mut Rng::new(1), 128, 1_024),
                9_307,
            ),
        ] {
            let mut mark = mark::write(&molecule.record(), &fresh);
            assert_eq!((mark.len(), mark_length(&mark)), (size, size));
            assert_eq!(mark_length(&mark[..size - 1]), 0);
            mark.resize(MARK_ROOM, 0xA5);
            assert_eq!(mark_length(&mark), size);
        }
    }
}
