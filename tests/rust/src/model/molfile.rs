//! V2000 molfiles, request F-1: the record of a file, and files to read.

use super::{sheet, Record, MAX_ATOMS, MAX_BONDS};

/// The three columns of a symbol.
pub type Symbol = [u8; 3];

/// The table of elements: the symbol, to the left in its columns, and the most
/// neighbours of such an atom.
pub const ELEMENTS: [(Symbol, u64); 7] = [
    (*b"H  ", 1),
    (*b"C  ", 4),
    (*b"N  ", 4),
    (*b"O  ", 3),
    (*b"F  ", 1),
    (*b"P  ", 6),
    (*b"S  ", 6),
];

/// The line that ends a molfile.
pub const END: &[u8] = b"M  END";

/// The columns of three coordinates 0.
pub const ORIGIN: &str = "    0.0000    0.0000    0.0000";

/// The most neighbours of an atom with this symbol, or none when the symbol is not
/// in the table.
pub fn most_neighbours(symbol: Symbol) -> Option<u64> {
    let found = ELEMENTS.iter().find(|(known, _)| *known == symbol);
    found.map(|&(_, most)| most)
}

/// The texts of the lines: the bytes up to each line feed, without the carriage
/// return that may stand before it. Bytes after the last line feed are no line.
fn lines(bytes: &[u8]) -> Vec<&[u8]> {
    let mut lines: Vec<&[u8]> = bytes.split(|&byte| byte == b'\n').collect();
    lines.pop();
    for line in &mut lines {
        if let Some(text) = line.strip_suffix(b"\r") {
            *line = text;
        }
    }
    lines
}

/// The number in three columns: blanks, then one or more digits.
fn number(columns: &[u8]) -> Option<u64> {
    let blanks = columns.iter().take_while(|&&byte| byte == b' ').count();
    let digits = &columns[blanks..];
    if digits.is_empty() || !digits.iter().all(u8::is_ascii_digit) {
        return None;
    }
    let value = |value, digit: &u8| 10 * value + u64::from(digit - b'0');
    Some(digits.iter().fold(0, value))
}

/// The numbers in columns 1 to 3 and 4 to 6 of a line.
fn two_numbers(line: &[u8]) -> Option<(u64, u64)> {
    Some((number(line.get(0..3)?)?, number(line.get(3..6)?)?))
}

/// The symbol in columns 32 to 34 of a line.
fn symbol(line: &[u8]) -> Option<Symbol> {
    line.get(31..34)?.try_into().ok()
}

/// The symbols and the bonds of a file.
type Tables = (Vec<Symbol>, Vec<(u64, u64)>);

/// The tables of a file, or none when it breaks rule 18.
fn tables(bytes: &[u8]) -> Option<Tables> {
    let lines = lines(bytes);
    let counts = lines.get(3)?;
    if counts.get(34..39)? != b"V2000" {
        return None;
    }
    let (n, m) = two_numbers(counts)?;
    let (bonds_at, rest_at) = (4 + n as usize, 4 + n as usize + m as usize);
    let symbols = lines.get(4..bonds_at)?.iter().map(|line| symbol(line));
    let bonds = lines.get(bonds_at..rest_at)?;
    let bonds = bonds.iter().map(|line| two_numbers(line));
    lines[rest_at..].iter().find(|line| **line == END)?;
    Some((
        symbols.collect::<Option<_>>()?,
        bonds.collect::<Option<_>>()?,
    ))
}

/// The record of a molfile, or the number of the first rule it breaks.
pub fn read(bytes: &[u8]) -> Result<Record, u32> {
    let (symbols, bonds) = tables(bytes).ok_or(18u32)?;
    let n = symbols.len() as u64;
    if n > MAX_ATOMS {
        return Err(3);
    }
    if bonds.len() as u64 > MAX_BONDS {
        return Err(4);
    }
    let limits = symbols.into_iter().map(most_neighbours);
    let limits: Vec<u64> = limits.collect::<Option<_>>().ok_or(19u32)?;
    let record = sheet::join(n, &bonds)?;
    let mut atoms = (1..=n).zip(limits);
    if atoms.any(|(atom, most)| record.neighbours(atom) > most) {
        return Err(20);
    }
    Ok(record)
}

/// A molfile to write: the texts of its lines, up to M  END.
#[derive(Clone, Debug)]
pub struct Molfile {
    pub header: [Vec<u8>; 3],
    pub counts: Vec<u8>,
    pub atoms: Vec<Vec<u8>>,
    pub bonds: Vec<Vec<u8>>,
    pub properties: Vec<Vec<u8>>,
}

impl Molfile {
    /// A file with these symbols and bonds, whether they keep the rules or not, at
    /// most 999 of each, in lines of ordinary length.
    pub fn new(symbols: &[Symbol], bonds: &[(u64, u64)]) -> Molfile {
        let header = [&b"molecule"[..], b"  drawn", b""];
        let atoms = symbols.iter().map(|&symbol| atom_line(ORIGIN, symbol));
        Molfile {
            header: header.map(<[u8]>::to_vec),
            counts: counts_line(symbols.len(), bonds.len()),
            atoms: atoms.collect(),
            bonds: bonds.iter().map(|&bond| bond_line(bond, 1)).collect(),
            properties: Vec::new(),
        }
    }

    /// The texts of all lines.
    pub fn lines(&self) -> Vec<Vec<u8>> {
        let mut lines = self.header.to_vec();
        lines.push(self.counts.clone());
        for part in [&self.atoms, &self.bonds, &self.properties] {
            lines.extend_from_slice(part);
        }
        lines.push(END.to_vec());
        lines
    }

    /// The file with one line end for all lines.
    pub fn ended_by(&self, end: &[u8]) -> Vec<u8> {
        ended(&self.lines(), |_| end)
    }

    /// The file with a line feed after each line.
    pub fn bytes(&self) -> Vec<u8> {
        self.ended_by(b"\n")
    }
}

/// Lines, each with the end that `end` gives for its index.
pub fn ended<'a>(lines: &[Vec<u8>], mut end: impl FnMut(usize) -> &'a [u8]) -> Vec<u8> {
    let mut bytes = Vec::new();
    for (index, line) in lines.iter().enumerate() {
        bytes.extend_from_slice(line);
        bytes.extend_from_slice(end(index));
    }
    bytes
}

/// The text of a counts line.
pub fn counts_line(n: usize, m: usize) -> Vec<u8> {
    format!("{n:>3}{m:>3}  0  0  0  0            999 V2000").into_bytes()
}

/// The text of an atom's line, from its three coordinates, in 30 columns, on.
pub fn atom_line(coordinates: &str, symbol: Symbol) -> Vec<u8> {
    let rest = b" 0  0  0  0  0  0  0  0  0  0  0  0";
    [coordinates.as_bytes(), b" ", &symbol, rest].concat()
}

/// The text of a bond's line.
pub fn bond_line((a, b): (u64, u64), order: u64) -> Vec<u8> {
    format!("{a:>3}{b:>3}{order:>3}  0  0  0  0").into_bytes()
}

#[cfg(test)]
mod tests {
    use super::*;

    /// Four atoms and four bonds, with a bond to each atom and lines between the
    /// bonds and M  END.
    const FILE: &str = "\
four atoms
  drawn by hand

  4  4  0  0  0  0            999 V2000
    0.0000    0.0000    0.0000 C   0  0  0  0  0  0  0  0  0  0  0  0
    1.5000    0.0000    0.0000 N   0  0  0  0  0  0  0  0  0  0  0  0
    0.7500    1.2990    0.0000 O   0  0  0  0  0  0  0  0  0  0  0  0
   -1.5000   -0.7500    0.2500 F   0  0  0  0  0  0  0  0  0  0  0  0
  3  1  1  0  0  0  0
  1  2  1  0  0  0  0
  2  3  1  0  0  0  0
  4  1  1  0  0  0  0
M  CHG  1   3   1
M  END
";

    /// The answer to the file with texts replaced, each of which it has.
    fn answer(changes: &[(&str, &str)]) -> Result<Record, u32> {
        let mut file = FILE.to_string();
        for (old, new) in changes {
            assert!(file.contains(old), "{old}");
            file = file.replacen(old, new, 1);
        }
        read(file.as_bytes())
    }

    /// The record of the file.
    fn right() -> Record {
        sheet::read(b"   4   4\n   1   2\n   1   3\n   1   4\n   2   3\n").expect("a sheet")
    }

    #[test]
    fn reads_by_hand() {
        assert_eq!(read(FILE.as_bytes()), Ok(right()));
        let record = right();
        assert_eq!((record.atoms, record.bonds), (4, 4));
        assert_eq!([0, 16, 32, 48].map(|at| record.rows[at]), [14, 5, 3, 1]);
        let none = "\n\n\n  0  0                            V2000\nM  END\n";
        assert_eq!(read(none.as_bytes()), Ok(Record::new(0)));
        let none = none.replace('\n', "\r\n");
        assert_eq!(read(none.as_bytes()), Ok(Record::new(0)));
    }

    /// What is skipped may be anything.
    #[test]
    fn skips_by_hand() {
        for change in [
            ("four atoms", "M  END"),
            ("four atoms", "\0\r\r\u{ff}"),
            ("  drawn by hand\n\n", "\n\r\n"),
            ("V2000", "V2000 and more"),
            ("  0  0  0  0            999", "                  no number"),
            (
                "   -1.5000   -0.7500    0.2500 ",
                "                              \r",
            ),
            ("F   0  0  0  0  0  0  0  0  0  0  0  0", "F  "),
            ("F   0  0", "F  x\r\r"),
            ("  4  1  1  0  0  0  0", "  4  1"),
            ("  4  1  1", "  4  1x"),
            ("  4  1  1", "004 01\r"),
            ("M  CHG  1   3   1\n", ""),
            ("M  CHG  1   3   1\n", "\n\n\n"),
            ("M  CHG  1   3   1", "M  END "),
            ("M  CHG  1   3   1", " M  END"),
            ("M  CHG  1   3   1", "M  END\r\r"),
            ("M  END\n", "M  END\r\n"),
            ("M  END\n", "M  END\nM  END"),
            ("M  END\n", "M  END\n$$$$\n\n\n\n  1"),
        ] {
            assert_eq!(answer(&[change]), Ok(right()), "{change:?}");
        }
    }

    /// Rule 18, with later rules broken too: an atom above n, a symbol that is not
    /// in the table.
    #[test]
    fn layout_by_hand() {
        let later = [("  1  2  1", "  1  9  1"), ("0 O ", "0 Xe")];
        assert_eq!(answer(&later), Err(19));
        for change in [
            ("four atoms\n", ""),
            ("four atoms\n", "\n\n"),
            ("  4  4  0", "  5  4  0"),
            ("  4  4  0", "  3  4  0"),
            ("  4  4  0", "  4  6  0"),
            ("  4  4  0", "999  4  0"),
            ("  4  4  0", "  4999  0"),
            ("  4  4  0", "4    4  0"),
            ("  4  4  0", "  4     0"),
            ("  4  4  0", "  4 +4  0"),
            (" V2000", "V2000 "),
            (" V2000", "  V2000"),
            (" V2000", " v2000"),
            (" V2000", " V3000"),
            (" V2000\n", " V200\r\n"),
            ("F   0  0  0  0  0  0  0  0  0  0  0  0", "F "),
            ("F   0  0  0  0  0  0  0  0  0  0  0  0", "F \r"),
            ("  4  1  1  0  0  0  0", "  4 1"),
            ("  4  1  1  0  0  0  0", "\n  4  1  1  0  0  0  0"),
            ("  4  1  1", "  41    "),
            ("  4  1  1", " 4   1 1"),
            ("  4  1  1", " -4  1 1"),
            ("M  END\n", "M  END"),
            ("M  END\n", "M  END\r"),
            ("M  END\n", "M  END \n"),
            ("M  END\n", "M  END\r\r\n"),
            ("M  END\n", "M END\n"),
            ("M  END\n", "m  end\n"),
            ("M  END\n", ""),
        ] {
            let changes = [later[0], later[1], change];
            assert_eq!(answer(&changes), Err(18), "{change:?}");
        }
    }

    /// No beginning of the file is a file.
    #[test]
    fn beginnings_by_hand() {
        for len in 0..FILE.len() {
            assert_eq!(read(&FILE.as_bytes()[..len]), Err(18), "{len} bytes");
        }
    }

    /// The rules after the layout, each with all later ones broken too.
    #[test]
    fn rules_by_hand() {
        // Nitrogen with five neighbours, twice bonded, to itself, above n; no
        // element; 129 atoms.
        let mut bonds = vec![(2, 1), (2, 3), (4, 2), (2, 5), (2, 129)];
        let mut symbols = vec![*b"N  "; 129];
        let answer = |symbols: &[Symbol], bonds: &[(u64, u64)]| {
            let read = read(&Molfile::new(symbols, bonds).bytes());
            read.map_or_else(|rule| rule, |_| 0)
        };
        bonds.extend([(5, 2), (7, 7), (0, 1)]);
        symbols[6] = *b"n  ";
        assert_eq!(answer(&symbols, &bonds), 3);
        symbols.pop();
        assert_eq!(answer(&symbols, &bonds), 19);
        symbols[6] = *b"N  ";
        assert_eq!(answer(&symbols, &bonds), 6);
        bonds.pop();
        assert_eq!(answer(&symbols, &bonds), 6);
        bonds[4] = (2, 128);
        assert_eq!(answer(&symbols, &bonds), 7);
        bonds.pop();
        assert_eq!(answer(&symbols, &bonds), 8);
        bonds.pop();
        assert_eq!(answer(&symbols, &bonds), 20);
        symbols[1] = *b"S  ";
        assert_eq!(answer(&symbols, &bonds), 0);
        symbols[1] = *b"N  ";
        bonds.pop();
        assert_eq!(answer(&symbols, &bonds), 0);
    }

    #[test]
    fn numbers_by_hand() {
        for (columns, value) in [
            (b"  1", 1),
            (b"001", 1),
            (b" 01", 1),
            (b"  0", 0),
            (b" 00", 0),
            (b"000", 0),
            (b" 90", 90),
            (b"128", 128),
            (b"999", 999),
        ] {
            assert_eq!(number(columns), Some(value));
        }
        for columns in [
            b"1  ", b" 1 ", b"   ", b"-01", b"+ 1", b" -1", b"1 1", b"01 ", b"0 0", b"\t 1",
            b" \x001", b"  \r", b" 1/", b" 1:", b"1.0",
        ] {
            assert_eq!(number(columns), None, "{}", columns.escape_ascii());
        }
    }

    /// The most neighbours, and symbols near those of the table.
    #[test]
    fn symbols_by_hand() {
        for (symbol, most) in [
            (b"H  ", 1),
            (b"C  ", 4),
            (b"N  ", 4),
            (b"O  ", 3),
            (b"F  ", 1),
            (b"P  ", 6),
            (b"S  ", 6),
        ] {
            assert_eq!(most_neighbours(*symbol), Some(most));
        }
        for symbol in [
            b" C ", b"  C", b"c  ", b"CC ", b"C C", b"C\0 ", b"C \r", b"   ", b"Cl ", b"Pb ",
            b"Hg ", b"B  ", b"I  ", b"D  ", b"R# ", b"A  ", b"*  ",
        ] {
            assert_eq!(most_neighbours(*symbol), None);
        }
    }

    /// What is written for the tests has the columns of the format.
    #[test]
    fn writes_by_hand() {
        assert_eq!(
            FILE.lines().nth(3).map(str::as_bytes),
            Some(&counts_line(4, 4)[..])
        );
        let atom = atom_line("   -1.5000   -0.7500    0.2500", *b"F  ");
        assert_eq!(FILE.lines().nth(7).map(str::as_bytes), Some(&atom[..]));
        let bond = bond_line((4, 1), 1);
        assert_eq!(FILE.lines().nth(11).map(str::as_bytes), Some(&bond[..]));
        assert_eq!([atom.len(), bond.len()], [69, 21]);
        let file = Molfile::new(&[*b"C  ", *b"N  "], &[(2, 1)]);
        assert_eq!(read(&file.bytes()), sheet::read(b"   2   1\n   1   2\n"));
        assert_eq!(read(&file.ended_by(b"\r\n")), read(&file.bytes()));
        assert_eq!(read(&file.ended_by(b"\r\r\n")), Err(18));
        assert_eq!(read(&file.ended_by(b"\r")), Err(18));
    }
}
