//! A first-in, first-out table of at most 16 rows.

use crate::number::ROWS;

#[derive(Clone, Debug)]
pub struct Ring<T> {
    rows: [T; ROWS],
    head: usize,
    count: usize,
}

impl<T: Copy> Ring<T> {
    /// An empty ring; `blank` fills the rows not in use.
    pub fn new(blank: T) -> Self {
        Ring {
            rows: [blank; ROWS],
            head: 0,
            count: 0,
        }
    }

    #[inline]
    pub fn is_full(&self) -> bool {
        self.count == ROWS
    }

    /// The oldest row.
    #[inline]
    pub fn front(&self) -> Option<T> {
        (self.count > 0).then(|| self.rows[self.head % ROWS])
    }

    /// Adds the newest row; in a full ring it takes the place of the oldest.
    #[inline]
    pub fn push(&mut self, row: T) {
        self.rows[(self.head + self.count) % ROWS] = row;
        if self.is_full() {
            self.head = (self.head + 1) % ROWS;
        } else {
            self.count += 1;
        }
    }

    /// Takes the oldest row away.
    #[inline]
    pub fn pop(&mut self) {
        if self.count > 0 {
            self.head = (self.head + 1) % ROWS;
            self.count -= 1;
        }
    }

    /// The rows in use, oldest first.
    pub fn iter(&self) -> impl DoubleEndedIterator<Item = T> + '_ {
        (0..self.count).map(|i| self.rows[(self.head + i) % ROWS])
    }
}

#[cfg(test)]
mod tests {
    use super::*;

    #[test]
    fn the_seventeenth_replaces_the_oldest() {
        let mut ring = Ring::new(0);
        assert_eq!(ring.front(), None);
        for i in 1..=17 {
            ring.push(i);
        }
        assert!(ring.is_full());
        assert!(ring.iter().eq(2..=17));
        ring.pop();
        assert_eq!(ring.front(), Some(3));
        ring.push(18);
        assert!(ring.iter().eq(3..=18));
    }
}
