//! Rows under numbers, such as those of connections and of births.

use std::collections::HashMap;
use std::hash::{BuildHasherDefault, Hasher};
use std::ops::{Index, IndexMut};

/// Hashes a number by a multiplication. The numbers are a node's own, so nobody can choose them to meet.
#[derive(Default)]
struct NumberHasher(u64);

impl Hasher for NumberHasher {
    fn write(&mut self, _: &[u8]) {
        unreachable!("the keys are numbers")
    }

    fn write_u64(&mut self, number: u64) {
        let product = u128::from(number) * 0x9e37_79b9_7f4a_7c15;
        self.0 = product as u64 ^ (product >> 64) as u64;
    }

    fn finish(&self) -> u64 {
        self.0
    }
}

/// A row stays in its slot as long as it is in the table, so other tables may name it by its slot.
pub struct Table<T> {
    slots: Vec<Option<(u64, T)>>,
    free: Vec<usize>,
    index: HashMap<u64, usize, BuildHasherDefault<NumberHasher>>,
}

impl<T> Table<T> {
    pub fn new() -> Table<T> {
        Table { slots: Vec::new(), free: Vec::new(), index: HashMap::default() }
    }

    pub fn len(&self) -> usize {
        self.index.len()
    }

    /// The slot of the row with this number.
    #[inline]
    pub fn slot(&self, number: u64) -> Option<usize> {
        self.index.get(&number).copied()
    }

    /// Adds a row under a number that has none, and gives its slot.
    pub fn insert(&mut self, number: u64, row: T) -> usize {
        let slot = self.free.pop().unwrap_or_else(|| {
            self.slots.push(None);
            self.slots.len() - 1
        });
        self.slots[slot] = Some((number, row));
        let before = self.index.insert(number, slot);
        debug_assert!(before.is_none());
        slot
    }

    /// Takes the row with this number out.
    pub fn remove(&mut self, number: u64) -> Option<T> {
        let slot = self.index.remove(&number)?;
        self.free.push(slot);
        self.slots[slot].take().map(|(_, row)| row)
    }

    /// The number and the slot of a row that passes a test.
    pub fn find(&self, test: impl Fn(&T) -> bool) -> Option<(u64, usize)> {
        let mut slots = self.slots.iter().enumerate();
        slots.find_map(|(slot, row)| row.as_ref().filter(|(_, row)| test(row)).map(|(number, _)| (*number, slot)))
    }

    /// The numbers of the rows that pass a test, by rising number.
    pub fn numbers(&self, test: impl Fn(&T) -> bool) -> Vec<u64> {
        let rows = self.slots.iter().flatten().filter(|(_, row)| test(row));
        let mut numbers: Vec<u64> = rows.map(|(number, _)| *number).collect();
        numbers.sort_unstable();
        numbers
    }
}

impl<T> Index<usize> for Table<T> {
    type Output = T;

    #[inline]
    fn index(&self, slot: usize) -> &T {
        &self.slots[slot].as_ref().expect("the slot has a row").1
    }
}

impl<T> IndexMut<usize> for Table<T> {
    #[inline]
    fn index_mut(&mut self, slot: usize) -> &mut T {
        &mut self.slots[slot].as_mut().expect("the slot has a row").1
    }
}

#[cfg(test)]
mod tests {
    use super::Table;

    #[test]
    fn rows_are_found_by_number_and_stay_in_their_slots() {
        let mut table = Table::new();
        for number in [3, 7, 9] {
            table.insert(number, number * 10);
        }
        let nine = table.slot(9).unwrap();
        assert_eq!(table.remove(3), Some(30));
        assert_eq!((table.slot(3), table.slot(9), table[nine]), (None, Some(nine), 90));
        table.insert(11, 110);
        assert_eq!(table.numbers(|row| *row > 70), [9, 11]);
        assert_eq!(table.find(|row| *row == 90), Some((9, nine)));
        assert_eq!((table.len(), table.remove(3)), (3, None));
    }
}
