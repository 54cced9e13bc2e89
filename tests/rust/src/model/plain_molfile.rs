//! A reader of molfiles written for speed, for the bench: one pass over the lines,
//! nothing taken from the heap. It reads the file into the bytes of a record.

use super::{MAX_ATOMS, RECORD, ROW};

const ATOMS: usize = MAX_ATOMS as usize;

/// The lines of a file from a place on.
struct Lines<'a> {
    rest: &'a [u8],
}

impl<'a> Lines<'a> {
    /// The text of the next line, or rule 18 where there is none.
    fn next(&mut self) -> Result<&'a [u8], u32> {
        let end = line_feed(self.rest).ok_or(18u32)?;
        let (line, rest) = self.rest.split_at(end);
        self.rest = &rest[1..];
        Ok(line.strip_suffix(b"\r").unwrap_or(line))
    }
}

/// The place of the first line feed, 8 bytes at a time. In a word whose bytes 10
/// have become 0, the lowest high bit that the test leaves is that of the first.
fn line_feed(bytes: &[u8]) -> Option<usize> {
    const ONES: u64 = u64::from_le_bytes([1; 8]);
    let mut words = bytes.chunks_exact(8);
    for (number, word) in words.by_ref().enumerate() {
        let word = u64::from_le_bytes(word.try_into().expect("8 bytes")) ^ (10 * ONES);
        let found = word.wrapping_sub(ONES) & !word & (128 * ONES);
        if found != 0 {
            return Some(8 * number + found.trailing_zeros() as usize / 8);
        }
    }
    let rest = words.remainder();
    let place = rest.iter().position(|&byte| byte == b'\n')?;
    Some(bytes.len() - rest.len() + place)
}

/// The number in three columns, or rule 18 where there is none.
fn number(columns: [u8; 3]) -> Result<usize, u32> {
    let [hundreds, tens, ones] = columns.map(|byte| usize::from(byte.wrapping_sub(b'0')));
    let blanks = columns.map(|byte| byte == b' ');
    match blanks {
        [true, true, false] if ones < 10 => Ok(ones),
        [true, false, false] if tens.max(ones) < 10 => Ok(10 * tens + ones),
        [false, false, false] if hundreds.max(tens).max(ones) < 10 => {
            Ok(100 * hundreds + 10 * tens + ones)
        }
        _ => Err(18),
    }
}

/// The two numbers at the start of a line, or rule 18.
fn numbers(line: &[u8]) -> Result<(usize, usize), u32> {
    match *line {
        [a, b, c, d, e, f, ..] => Ok((number([a, b, c])?, number([d, e, f])?)),
        _ => Err(18),
    }
}

/// The most neighbours of an atom with this symbol, if it is in the table.
fn most_neighbours(symbol: &[u8]) -> Option<u8> {
    match symbol {
        b"C  " | b"N  " => Some(4),
        b"H  " | b"F  " => Some(1),
        b"O  " => Some(3),
        b"P  " | b"S  " => Some(6),
        _ => None,
    }
}

/// What was read so far of n atoms and their bonds. Rules past the third that were
/// found to be broken are kept until all lines are read; a bond that breaks rule 6
/// or 7 is left out.
struct Reading {
    n: usize,
    limits: [u8; ATOMS],
    rows: [u128; ATOMS],
    no_element: bool,
    no_atom: bool,
    to_itself: bool,
    twice: bool,
}

impl Reading {
    /// The nth line of an atom, from 0 on.
    fn atom(&mut self, index: usize, line: &[u8]) -> Result<(), u32> {
        let symbol = line.get(31..34).ok_or(18u32)?;
        if let Some(limit) = self.limits.get_mut(index) {
            match most_neighbours(symbol) {
                Some(most) => *limit = most,
                None => self.no_element = true,
            }
        }
        Ok(())
    }

    /// The line of a bond.
    fn bond(&mut self, line: &[u8]) -> Result<(), u32> {
        let (a, b) = numbers(line)?;
        let (a, b) = (a.wrapping_sub(1), b.wrapping_sub(1));
        let n = self.n.min(ATOMS);
        if a >= n || b >= n {
            self.no_atom = true;
        } else if a == b {
            self.to_itself = true;
        } else {
            self.twice |= self.rows[a] >> b & 1 == 1;
            self.rows[a] |= 1 << b;
            self.rows[b] |= 1 << a;
        }
        Ok(())
    }

    /// Rules 3, 19, 6, 7, 8 and 20 in this order.
    fn rules(&self) -> Result<(), u32> {
        if self.n > ATOMS {
            return Err(3);
        }
        for (broken, rule) in [
            (self.no_element, 19),
            (self.no_atom, 6),
            (self.to_itself, 7),
            (self.twice, 8),
        ] {
            if broken {
                return Err(rule);
            }
        }
        let mut atoms = self.rows.iter().zip(&self.limits);
        match atoms.any(|(row, &most)| row.count_ones() > most.into()) {
            true => Err(20),
            false => Ok(()),
        }
    }
}

/// Reads a molfile into a record, or gives the number of the first rule it breaks,
/// with the record as it was.
pub fn read(molfile: &[u8], record: &mut [u8; RECORD]) -> Result<(), u32> {
    let mut lines = Lines { rest: molfile };
    for _ in 0..3 {
        lines.next()?;
    }
    let counts = lines.next()?;
    let (n, m) = numbers(counts)?;
    if counts.get(34..39) != Some(b"V2000") {
        return Err(18);
    }
    let mut reading = Reading {
        n,
        limits: [0; ATOMS],
        rows: [0; ATOMS],
        no_element: false,
        no_atom: false,
        to_itself: false,
        twice: false,
    };
    for index in 0..n {
        reading.atom(index, lines.next()?)?;
    }
    for _ in 0..m {
        reading.bond(lines.next()?)?;
    }
    while lines.next()? != b"M  END" {}
    reading.rules()?;
    record[0..2].copy_from_slice(&(n as u16).to_le_bytes());
    record[2..4].copy_from_slice(&(m as u16).to_le_bytes());
    for (bytes, row) in record[4..].chunks_exact_mut(ROW).zip(&reading.rows) {
        bytes.copy_from_slice(&row.to_le_bytes());
    }
    Ok(())
}
