//! Bond sheets.

use super::{field, mark, Record, MAX_ATOMS, MAX_BONDS};

/// Bytes of a line: two fields of 4 columns and a line feed.
pub const LINE: usize = 9;

/// The two numbers of a line, each filled by blanks or by zeros, or none when a
/// field or the line end has the wrong bytes.
fn read_line(line: &[u8]) -> Option<(u64, u64)> {
    if line[8] != b'\n' {
        return None;
    }
    Some((
        field::read(&line[0..4])?.value,
        field::read(&line[4..8])?.value,
    ))
}

/// The record of a sheet, or the number of the first rule it breaks.
pub fn read(sheet: &[u8]) -> Result<Record, u32> {
    if sheet.len() < LINE || sheet.len() % LINE != 0 {
        return Err(1);
    }
    let mut lines = Vec::with_capacity(sheet.len() / LINE);
    for line in sheet.chunks_exact(LINE) {
        lines.push(read_line(line).ok_or(2u32)?);
    }
    let (n, m) = lines[0];
    let bonds = &lines[1..];
    if n > MAX_ATOMS {
        return Err(3);
    }
    if m > MAX_BONDS {
        return Err(4);
    }
    if bonds.len() as u64 != m {
        return Err(5);
    }
    join(n, bonds)
}

/// The record of n atoms, at most 128, and these bonds, or the first of rules 6 to
/// 8 that they break.
pub(super) fn join(n: u64, bonds: &[(u64, u64)]) -> Result<Record, u32> {
    if bonds
        .iter()
        .any(|&(a, b)| a == 0 || a > n || b == 0 || b > n)
    {
        return Err(6);
    }
    if bonds.iter().any(|&(a, b)| a == b) {
        return Err(7);
    }
    let mut record = Record::new(n);
    for &(a, b) in bonds {
        if record.bonded(a, b) {
            return Err(8);
        }
        record.join(a, b);
    }
    Ok(record)
}

/// The sheet of a lawful record, filled by blanks: each bond with its lower atom
/// first, in dictionary order.
pub fn write(record: &Record) -> Vec<u8> {
    let mut sheet = mark::write_bond((record.atoms, record.bonds));
    for bond in mark::bonds(record) {
        sheet.extend(mark::write_bond(bond));
    }
    sheet
}

#[cfg(test)]
mod tests {
    use super::*;

    #[test]
    fn reads_by_hand() {
        let record = read(b"   2   1\n   2   1\n").expect("a sheet");
        assert_eq!((record.atoms, record.bonds), (2, 1));
        assert_eq!((record.rows[0], record.rows[16]), (2, 1));
        assert!(record.is_lawful());
        assert_eq!(read(b"   0   0\n"), Ok(Record::new(0)));
    }

    #[test]
    fn writes_by_hand() {
        assert_eq!(write(&Record::new(0)), b"   0   0\n");
        let record = read(b"0012   3\n   2  12\n  11   2\n   3   1\n").expect("a sheet");
        let sheet = b"  12   3\n   1   3\n   2  11\n   2  12\n";
        assert_eq!(write(&record), sheet);
        assert_eq!(read(sheet), Ok(record));
    }

    #[test]
    fn refuses_by_hand() {
        assert_eq!(read(b""), Err(1));
        assert_eq!(read(b"   2   0\n "), Err(1));
        assert_eq!(read(b"  02   0\n"), Err(2));
        assert_eq!(read(b"   2   0\r"), Err(2));
        assert_eq!(read(b" 129   0\n"), Err(3));
        assert_eq!(read(b"   21025\n"), Err(4));
        assert_eq!(read(b"   2   1\n"), Err(5));
        assert_eq!(read(b"   2   0\n   1   2\n"), Err(5));
        assert_eq!(read(b"   2   1\n   0   2\n"), Err(6));
        assert_eq!(read(b"   2   1\n   1   3\n"), Err(6));
        assert_eq!(read(b"   2   1\n   2   2\n"), Err(7));
        assert_eq!(read(b"   2   2\n   1   2\n   2   1\n"), Err(8));
    }

    #[test]
    fn reads_zeros_by_hand() {
        let record = read(b"   2   1\n   2   1\n").expect("a sheet");
        for sheet in [
            b"00020001\n00020001\n",
            b"0002   1\n   20001\n",
            b"   20001\n0002   1\n",
            b"00020001\n   2   1\n",
            b"   2   1\n00020001\n",
        ] {
            assert_eq!(read(sheet), Ok(record.clone()));
        }
        assert_eq!(read(b"00000000\n"), Ok(Record::new(0)));
        assert_eq!(read(b"0128   0\n"), Ok(Record::new(128)));
        let mut record = Record::new(128);
        record.join(128, 9);
        assert_eq!(read(b"01280001\n 1280009\n"), Ok(record.clone()));
        assert_eq!(read(b" 128   1\n0009 128\n"), Ok(record));
    }

    #[test]
    fn refuses_zeros_by_hand() {
        assert_eq!(read(b"00020000\n0"), Err(1));
        // One field, two fillings.
        assert_eq!(read(b"  02   0\n"), Err(2));
        assert_eq!(read(b" 012   0\n"), Err(2));
        assert_eq!(read(b"0 12   0\n"), Err(2));
        assert_eq!(read(b"0012  00\n"), Err(2));
        assert_eq!(read(b"00020001\n00 10002\n"), Err(2));
        assert_eq!(read(b"00020001\n0001 002\n"), Err(2));
        assert_eq!(read(b"012    0\n"), Err(2));
        assert_eq!(read(b"00020000\r"), Err(2));
        assert_eq!(read(b"01290000\n"), Err(3));
        assert_eq!(read(b"9999   0\n"), Err(3));
        assert_eq!(read(b"00021025\n"), Err(4));
        assert_eq!(read(b"00020001\n"), Err(5));
        assert_eq!(read(b"00020000\n00010002\n"), Err(5));
        assert_eq!(read(b"00020001\n00000002\n"), Err(6));
        assert_eq!(read(b"00020001\n00010003\n"), Err(6));
        assert_eq!(read(b"00020001\n   20003\n"), Err(6));
        assert_eq!(read(b"00020001\n00020002\n"), Err(7));
        assert_eq!(read(b"00020001\n0002   2\n"), Err(7));
        assert_eq!(read(b"00020002\n00010002\n00020001\n"), Err(8));
        assert_eq!(read(b"00020002\n00010002\n   1   2\n"), Err(8));
    }
}
