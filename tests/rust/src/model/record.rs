//! Molecule records.

use super::{MAX_ATOMS, MAX_BONDS, ROW, ROWS};

/// A record as its parts; it need not follow the rules.
#[derive(Clone, Debug, PartialEq, Eq)]
pub struct Record {
    pub atoms: u64,
    pub bonds: u64,
    /// 128 rows of 16 bytes.
    pub rows: Vec<u8>,
}

impl Record {
    /// A record without bonds.
    pub fn new(atoms: u64) -> Record {
        Record {
            atoms,
            bonds: 0,
            rows: vec![0; ROWS],
        }
    }

    /// Byte and bit of atom `b` in the row of atom `a`, both 1 to 128.
    fn place(a: u64, b: u64) -> (usize, u8) {
        assert!((1..=MAX_ATOMS).contains(&a) && (1..=MAX_ATOMS).contains(&b));
        let byte = (a as usize - 1) * ROW + (b as usize - 1) / 8;
        (byte, 1 << ((b - 1) % 8))
    }

    /// The bit of atom `b` in the row of atom `a`.
    pub fn bonded(&self, a: u64, b: u64) -> bool {
        let (byte, bit) = Record::place(a, b);
        self.rows[byte] & bit != 0
    }

    /// Sets the bit of atom `b` in the row of atom `a`, and no other.
    pub fn set(&mut self, a: u64, b: u64) {
        let (byte, bit) = Record::place(a, b);
        self.rows[byte] |= bit;
    }

    /// Flips the bit of atom `b` in the row of atom `a`, and no other.
    pub fn flip(&mut self, a: u64, b: u64) {
        let (byte, bit) = Record::place(a, b);
        self.rows[byte] ^= bit;
    }

    /// Adds a bond: both bits and the count.
    pub fn join(&mut self, a: u64, b: u64) {
        self.set(a, b);
        self.set(b, a);
        self.bonds += 1;
    }

    /// The number of atoms bonded to atom `a`: the one bits of its row.
    pub fn neighbours(&self, a: u64) -> u64 {
        let (byte, _) = Record::place(a, 1);
        let row = &self.rows[byte..byte + ROW];
        row.iter().map(|byte| u64::from(byte.count_ones())).sum()
    }

    /// The record follows the rules of its section (rule 9).
    pub fn is_lawful(&self) -> bool {
        if self.atoms > MAX_ATOMS || self.bonds > MAX_BONDS || self.rows.len() != ROWS {
            return false;
        }
        let mut ones = 0;
        for a in 1..=MAX_ATOMS {
            for b in 1..=MAX_ATOMS {
                if !self.bonded(a, b) {
                    continue;
                }
                if a == b || a > self.atoms || b > self.atoms || !self.bonded(b, a) {
                    return false;
                }
                ones += 1;
            }
        }
        ones == 2 * self.bonds
    }

    /// The 2,052 bytes in which the library hands a record over: atoms and
    /// bonds in 2 bytes each, low byte first, then the rows.
    pub fn bytes(&self) -> Vec<u8> {
        let atoms = u16::try_from(self.atoms).expect("at most 128");
        let bonds = u16::try_from(self.bonds).expect("at most 1,024");
        [&atoms.to_le_bytes()[..], &bonds.to_le_bytes(), &self.rows].concat()
    }
}

#[cfg(test)]
mod tests {
    use super::*;

    #[test]
    fn places_by_hand() {
        let mut record = Record::new(128);
        record.set(1, 1);
        assert_eq!(record.rows[0], 1);
        record.set(1, 9);
        assert_eq!(record.rows[1], 1);
        record.set(2, 8);
        assert_eq!(record.rows[16], 128);
        record.set(128, 128);
        assert_eq!(record.rows[2047], 128);
    }

    #[test]
    fn neighbours_by_hand() {
        let mut record = Record::new(128);
        record.join(1, 128);
        record.join(2, 1);
        assert_eq!([1, 2, 3, 128].map(|a| record.neighbours(a)), [2, 1, 0, 1]);
    }

    #[test]
    fn rules_by_hand() {
        let mut record = Record::new(3);
        assert!(record.is_lawful());
        record.join(1, 3);
        assert!(record.is_lawful());
        record.bonds = 2;
        assert!(!record.is_lawful());
        record.bonds = 1;
        record.atoms = 2;
        assert!(!record.is_lawful());
        record.atoms = 128;
        assert!(record.is_lawful());
        record.atoms = 129;
        assert!(!record.is_lawful());
    }
}
