//! The rows of a table by kind, right or wrong, and their image.

use std::ops::Range;

use crate::image::{number, starts, with_length, Table, COUNTS_AT, KINDS, NONE, ROWS_AT};
use crate::image::{ACTION, MODE, REACTION, REACTOR, RESET, SCOPE, STARTUP, TIMER, TRIGGER};
use crate::text::ROWS;

/// How many rows of each kind are counted, and the bytes of those that there are.
#[derive(Debug, Clone, Default, PartialEq, Eq)]
pub struct Parts {
    pub counts: [u16; 9],
    pub rows: [Vec<u8>; 9],
}

impl Parts {
    /// Of an image whose rows are all there.
    pub fn of(image: &[u8]) -> Self {
        let counted = &image[COUNTS_AT..ROWS_AT];
        let starts = starts(counted);
        let count = |kind| number(&counted[2 * kind..2 * kind + 2]) as u16;
        Self {
            counts: std::array::from_fn(count),
            rows: std::array::from_fn(|kind| image[starts[kind]..starts[kind + 1]].to_vec()),
        }
    }

    /// The bytes of the counts.
    pub fn counted(&self) -> Vec<u8> {
        let counts = self.counts.iter();
        counts.flat_map(|count| count.to_be_bytes()).collect()
    }

    pub fn image(&self) -> Vec<u8> {
        self.image_of_version(1)
    }

    pub fn image_of_version(&self, version: u8) -> Vec<u8> {
        with_length(&[vec![version], self.counted(), self.rows.concat()].concat())
    }

    /// One row more, as bytes.
    pub fn push(&mut self, kind: usize, row: &[u8]) {
        self.rows[kind].extend(row);
        self.counts[kind] += 1;
    }

    /// One row more, as the numbers of its fields.
    pub fn push_fields(&mut self, kind: usize, fields: &[u64]) {
        let widths = ROWS[kind].1.iter();
        let row = fields.iter().zip(widths).flat_map(|(field, &width)| {
            let bytes = field.to_be_bytes();
            bytes.into_iter().skip(bytes.len() - width)
        });
        self.push(kind, &row.collect::<Vec<u8>>());
    }

    /// So many rows of a kind: the first ones, and copies of the first for those that are lacking.
    pub fn resize(&mut self, kind: usize, count: usize) {
        let width = KINDS[kind].1;
        let rows = &mut self.rows[kind];
        let mut first = rows.clone();
        first.resize(width, 0);
        rows.truncate(count * width);
        while rows.len() < count * width {
            rows.extend(&first);
        }
        self.counts[kind] = count as u16;
    }

    /// How many rows of a kind there are.
    pub fn len(&self, kind: usize) -> usize {
        self.rows[kind].len() / KINDS[kind].1
    }

    pub fn row(&self, kind: usize, row: usize) -> &[u8] {
        let width = KINDS[kind].1;
        &self.rows[kind][row * width..][..width]
    }

    /// Where a row's field stands among the bytes of its kind.
    fn place(kind: usize, row: usize, field: usize) -> Range<usize> {
        let widths = ROWS[kind].1;
        let start = row * KINDS[kind].1 + widths[..field].iter().sum::<usize>();
        start..start + widths[field]
    }

    /// The bytes of a row's field.
    pub fn field_mut(&mut self, kind: usize, row: usize, field: usize) -> &mut [u8] {
        &mut self.rows[kind][Self::place(kind, row, field)]
    }

    pub fn field(&self, kind: usize, row: usize, field: usize) -> u64 {
        number(&self.rows[kind][Self::place(kind, row, field)])
    }

    pub fn set(&mut self, kind: usize, row: usize, field: usize, value: u64) {
        let bytes = self.field_mut(kind, row, field);
        bytes.copy_from_slice(&value.to_be_bytes()[8 - bytes.len()..]);
    }
}

impl From<&Table> for Parts {
    fn from(table: &Table) -> Self {
        let key = |key: usize| key as u64;
        let optional = |key: Option<usize>| key.map_or(u64::from(NONE), |key| key as u64);
        let mut parts = Self::default();
        for row in &table.scopes {
            let fields = [optional(row.parent), key(row.reactor), optional(row.mode)];
            parts.push_fields(SCOPE, &fields);
        }
        for row in &table.reactors {
            parts.push_fields(REACTOR, &[key(row.root), optional(row.initial)]);
        }
        for row in &table.modes {
            parts.push_fields(MODE, &[key(row.scope), key(row.reactor)]);
        }
        for &level in &table.levels {
            parts.push_fields(REACTION, &[u64::from(level)]);
        }
        for row in &table.actions {
            parts.push_fields(ACTION, &[key(row.scope), u64::from(row.logical)]);
        }
        for &(action, reaction) in &table.triggers {
            parts.push_fields(TRIGGER, &[key(action), key(reaction)]);
        }
        for row in &table.startups {
            let fields = [key(row.scope), key(row.action), key(row.reaction)];
            parts.push_fields(STARTUP, &fields);
        }
        for &(scope, reaction) in &table.resets {
            parts.push_fields(RESET, &[key(scope), key(reaction)]);
        }
        for row in &table.timers {
            let (offset, microstep) = (row.tag.offset, u64::from(row.tag.microstep));
            parts.push_fields(TIMER, &[key(row.action), offset, microstep]);
        }
        parts
    }
}

impl Table {
    pub fn image(&self) -> Vec<u8> {
        Parts::from(self).image()
    }
}

#[cfg(test)]
mod tests {
    use super::*;
    use crate::image;
    use crate::make;

    #[test]
    fn a_table_that_is_written_reads_back() {
        for seed in 0..200 {
            let image = make::accepted_image(seed);
            let table = image::check(&image).unwrap();
            assert_eq!(table.image(), image);
            assert_eq!(Parts::of(&image), Parts::from(&table));
        }
    }

    #[test]
    fn a_field_is_set_alone() {
        let mut parts = Parts::of(&make::table(1).image());
        let given = parts.clone();
        parts.set(TIMER, 0, 1, 0x0102_0304_0506_0708);
        assert_eq!(parts.row(TIMER, 0)[2..10], [1, 2, 3, 4, 5, 6, 7, 8]);
        assert_eq!(parts.field(TIMER, 0, 1), 0x0102_0304_0506_0708);
        parts.set(TIMER, 0, 1, given.field(TIMER, 0, 1));
        assert_eq!(parts, given);
    }
}
