//! Carrying old marks over, request F-6: the two forms of a mark, and each made
//! from the other.

use super::list::Lists;
use super::machine::Search;
use super::{mark, Record};

/// The form of a mark: its three lines alone, as before request F-5, or with the
/// molecule's bonds after them.
#[derive(Clone, Copy, Debug, PartialEq, Eq)]
pub enum Form {
    Old,
    New,
}

impl Form {
    pub const BOTH: [Form; 2] = [Form::Old, Form::New];

    pub fn other(self) -> Form {
        match self {
            Form::Old => Form::New,
            Form::New => Form::Old,
        }
    }

    /// The bytes of a mark with so many atoms in its beginning, on a molecule of
    /// so many bonds.
    pub fn size(self, length: usize, bonds: usize) -> usize {
        match self {
            Form::Old => mark::size(length, 0),
            Form::New => mark::size(length, bonds),
        }
    }

    /// The mark of a search whose numbers fit its fields, on a lawful record.
    pub fn write(self, record: &Record, search: &Search) -> Vec<u8> {
        match self {
            Form::Old => mark::write_lines(record.atoms, record.bonds, search),
            Form::New => mark::write(record, search),
        }
    }

    /// The search of a mark on a lawful record, or the number of the first of
    /// rules 14 to 17 that it breaks.
    pub fn read(self, lists: &dyn Lists, mark: &[u8]) -> Result<Search, u32> {
        match self {
            Form::Old => read_old(lists, mark),
            Form::New => mark::read(lists, mark),
        }
    }
}

/// The same of an old mark. Its layout is the three lines and nothing more, and
/// it belongs to a molecule when n and m agree.
fn read_old(lists: &dyn Lists, mark: &[u8]) -> Result<Search, u32> {
    let record = lists.record();
    let lines = mark::read_lines(mark)
        .filter(|lines| lines.rest.is_empty())
        .ok_or(14u32)?;
    let [_, _, _, n, m, _, _] = lines.first;
    if (n, m) != (record.atoms, record.bonds) {
        return Err(15);
    }
    mark::search_of(lists, &lines)
}

/// The mark of the same search in the other form, on a sheet that reads as `read`
/// says, with `room` bytes for it: or a refusal, of 1 to 8, 14 to 17 and 13 in
/// this order. From an old mark this is carrying over, from a new one carrying
/// back.
pub fn carry(
    from: Form,
    read: Result<&dyn Lists, u32>,
    mark: &[u8],
    room: usize,
) -> Result<Vec<u8>, u32> {
    let lists = read?;
    let search = from.read(lists, mark)?;
    let carried = from.other().write(lists.record(), &search);
    if room < carried.len() {
        return Err(13);
    }
    Ok(carried)
}

#[cfg(test)]
mod tests {
    use super::super::list::{Listed, Reached, Task};
    use super::*;
    use crate::generate::{self, Molecule};

    /// The document's mark after five trials, in both forms.
    const OLD: &str = "   0   0   0   4   5   2   3\n                   5                   2                   0\n   1   2\n";
    const BONDS: &str = "   1   2\n   1   3\n   1   4\n   2   3\n   3   4\n";

    /// Carries a text on the document's sheet, with room for any mark.
    fn carried(from: Form, mark: &str) -> Result<String, u32> {
        let record = generate::document().record();
        let lists = Listed::new(&record);
        let carried = carry(from, Ok(&lists), mark.as_bytes(), mark::MARK_ROOM)?;
        Ok(String::from_utf8(carried).expect("a mark is text"))
    }

    #[test]
    fn document_by_hand() {
        let new = [OLD, BONDS].concat();
        assert_eq!((OLD.len(), new.len()), (99, 144));
        assert_eq!(carried(Form::Old, OLD), Ok(new.clone()));
        assert_eq!(carried(Form::New, &new), Ok(OLD.to_string()));
        // Each form is no mark of the other.
        assert_eq!(carried(Form::Old, &new), Err(14));
        assert_eq!(carried(Form::New, OLD), Err(14));
        for (form, size) in [(Form::Old, 99), (Form::New, 144)] {
            assert_eq!(form.size(2, 5), size);
            assert_eq!(form.other().other(), form);
        }
    }

    /// The answer to an old mark with other first and third lines, on the
    /// document's sheet.
    fn answer(line_1: &str, line_3: &str) -> u32 {
        let mark = format!("{line_1}{}{line_3}\n", &OLD[28..90]);
        carried(Form::Old, &mark).map_or_else(|rule| rule, |_| 0)
    }

    /// The layout of an old mark, with later rules broken too.
    #[test]
    fn old_layout_by_hand() {
        assert_eq!(answer("   0   0   0   4   5   2   3", "   1   2"), 0);
        for (line_1, line_3) in [
            ("   4   0   0   9   5   2   0", "   1   2 "),
            ("   4   0   0   9   5   2   0", "   1   2\n"),
            ("   4   0   0   9   5   2   0", "   1   2\n   1   2"),
            ("   4   0   0   9   5   1   0", "   1   2"),
            ("   4   0   0   9   5   3   0", "   1   2"),
            ("   4   0   0   9   50002   0", "   1   2"),
            ("0000   0   0   4   5   2   3", "   1   2"),
            ("   0   0   0   4   5   2   3", "   10002"),
            ("   0   0   0   4   5   2   3", "   1   x"),
        ] {
            assert_eq!(answer(line_1, line_3), 14, "{line_1} {line_3}");
        }
        assert_eq!(carried(Form::Old, &OLD[..98]), Err(14));
        assert_eq!(carried(Form::Old, ""), Err(14));
    }

    /// The rules after the layout, each with later ones broken too.
    #[test]
    fn old_rules_by_hand() {
        for (line_1, line_3, rule) in [
            ("   4   0   0   5   5   2   0", "   1   4", 15),
            ("   4   0   0   4   4   2   0", "   1   4", 15),
            ("   4   0   0   4   6   2   0", "   1   4", 15),
            ("   4   0   099999999   2   0", "   1   4", 15),
            ("   0   0   0   5   4   2   3", "   1   2", 15),
            ("   4   0   0   4   5   2   0", "   1   4", 16),
            ("   0   0   1   4   5   2   0", "   1   4", 16),
            ("   1   2   2   4   5   2   0", "   1   4", 16),
            ("   2   2   0   4   5   2   0", "   1   4", 16),
            ("   3   2   5   4   5   2   0", "   1   4", 16),
            ("   0   0   0   4   5   2   3", "   1   4", 17),
            ("   0   0   0   4   5   2   5", "   1   2", 17),
            ("   0   0   0   4   5   0   6", "", 17),
            ("   0   0   0   4   5   0   5", "", 0),
            ("   1   2   4   4   5   1   4", "   2", 0),
            ("   2   3   0   4   5   2   3", "   1   2", 0),
            ("   3   2   4   4   5   2   3", "   2   1", 0),
        ] {
            assert_eq!(answer(line_1, line_3), rule, "{line_1} {line_3}");
        }
    }

    /// A length of 127 keeps the layout, one of 128 does not.
    #[test]
    fn lengths_by_hand() {
        let record = generate::ring(128).record();
        let lists = Reached::new(&record);
        let all: Vec<u8> = (1..=128).collect();
        for (p, rule) in [(&[1; 127][..], 17), (&[1; 128], 14), (&all, 14)] {
            let old = Form::Old.write(&record, &Search::at(Task::Rings, p, 1));
            assert_eq!(carry(Form::Old, Ok(&lists), &old, 9_815), Err(rule));
        }
        let search = Search::at(Task::Rings, &all[..127], 128);
        let [old, new] = Form::BOTH.map(|form| form.write(&record, &search));
        assert_eq!((old.len(), new.len()), (599, 1_751));
        assert_eq!(carry(Form::Old, Ok(&lists), &old, 1_751), Ok(new.clone()));
        assert_eq!(carry(Form::Old, Ok(&lists), &old, 1_750), Err(13));
        assert_eq!(carry(Form::New, Ok(&lists), &new, 599), Ok(old));
        assert_eq!(carry(Form::New, Ok(&lists), &new, 598), Err(13));
    }

    /// The sheet comes first and the room last.
    #[test]
    fn order_by_hand() {
        let record = generate::document().record();
        let lists = Listed::new(&record);
        for form in Form::BOTH {
            let right = form.write(&record, &Search::at(Task::Rings, &[1, 2], 3));
            let closed = form.write(&record, &Search::at(Task::Rings, &[1, 4], 3));
            for (read, mark, answer) in [
                (Err(8), &right[..], Err(8)),
                (Err(1), b"", Err(1)),
                (Ok(()), b"", Err(14)),
                (Ok(()), &closed, Err(17)),
                (Ok(()), &right, Err(13)),
            ] {
                let read = read.map(|()| &lists as &dyn Lists);
                assert_eq!(carry(form, read, mark, 0), answer);
            }
        }
    }

    /// Without bonds the two forms are one. An old mark belongs to an isomer too,
    /// and gets its bonds.
    #[test]
    fn molecules_by_hand() {
        let none = Record::new(3);
        let fresh = Search::fresh(Task::Rings);
        let mark = Form::Old.write(&none, &fresh);
        assert_eq!(mark, Form::New.write(&none, &fresh));
        for form in Form::BOTH {
            let lists = Listed::new(&none);
            assert_eq!(carry(form, Ok(&lists), &mark, 91), Ok(mark.clone()));
        }
        let ring = Molecule::new(4, &[(1, 2), (2, 3), (3, 4), (1, 4)]).record();
        let other = Molecule::new(4, &[(1, 2), (2, 3), (1, 3), (1, 4)]).record();
        let lists = Listed::new(&other);
        let search = Search::at(Task::Rings, &[1], 2);
        let [old, new] = Form::BOTH.map(|form| form.write(&ring, &search));
        let carried = carry(Form::Old, Ok(&lists), &old, 9_815);
        assert_eq!(carried, Ok(Form::New.write(&other, &search)));
        assert_eq!(carry(Form::New, Ok(&lists), &new, 9_815), Err(15));
    }
}
