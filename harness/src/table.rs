//! The rows of a table, and their image.

use crate::slices::{LARGEST_IMAGE, TAG_BYTES};
use crate::{write_table, NotWritten};

/// The key that means "none": for a scope's parent and mode and a reactor's initial mode.
pub const NONE: u16 = 65535;

/// The rows of a table, in 01's order of kinds. Keys count from 0 in each kind.
#[derive(Debug, Clone, Default, PartialEq, Eq)]
pub struct Table {
    /// parent (or `NONE`), reactor, mode (or `NONE`)
    pub scopes: Vec<[u16; 3]>,
    /// root scope, initial mode (or `NONE`)
    pub reactors: Vec<[u16; 2]>,
    /// scope, reactor
    pub modes: Vec<[u16; 2]>,
    /// level of each reaction
    pub levels: Vec<u8>,
    /// scope, logical
    pub actions: Vec<(u16, bool)>,
    /// action, reaction
    pub triggers: Vec<[u16; 2]>,
    /// scope, action, reaction
    pub startups: Vec<[u16; 3]>,
    /// scope, reaction
    pub resets: Vec<[u16; 2]>,
    /// action, tag
    pub timers: Vec<(u16, crate::Tag)>,
}

impl Table {
    /// The image of the rows; or the first count past its limits, or the first row that breaks a rule.
    pub fn written(&self) -> Result<Vec<u8>, NotWritten> {
        let mut image = vec![0; LARGEST_IMAGE];
        let length = write_table(&self.counts(), &self.rows(), &mut image)?;
        image.truncate(length);
        Ok(image)
    }

    /// The image of the rows, right or wrong; the table check says which.
    pub fn image(&self) -> Vec<u8> {
        let counts = self.counts().map(u16::to_be_bytes).concat();
        let body = [&[1], &counts[..], &self.rows()].concat();
        [&(body.len() as u32).to_be_bytes()[..], &body].concat()
    }

    /// How many rows of each kind; as many as two bytes hold where there are more.
    pub fn counts(&self) -> [u16; 9] {
        [
            self.scopes.len(),
            self.reactors.len(),
            self.modes.len(),
            self.levels.len(),
            self.actions.len(),
            self.triggers.len(),
            self.startups.len(),
            self.resets.len(),
            self.timers.len(),
        ]
        .map(|count| u16::try_from(count).unwrap_or(u16::MAX))
    }

    /// The bytes of all rows, in the image's order.
    pub fn rows(&self) -> Vec<u8> {
        fn keys(row: &[u16], rows: &mut Vec<u8>) {
            rows.extend(row.iter().flat_map(|key| key.to_be_bytes()));
        }
        let mut rows = Vec::new();
        self.scopes.iter().for_each(|row| keys(row, &mut rows));
        self.reactors.iter().for_each(|row| keys(row, &mut rows));
        self.modes.iter().for_each(|row| keys(row, &mut rows));
        rows.extend(&self.levels);
        for &(scope, logical) in &self.actions {
            keys(&[scope], &mut rows);
            rows.push(u8::from(logical));
        }
        self.triggers.iter().for_each(|row| keys(row, &mut rows));
        self.startups.iter().for_each(|row| keys(row, &mut rows));
        self.resets.iter().for_each(|row| keys(row, &mut rows));
        for &(action, tag) in &self.timers {
            keys(&[action], &mut rows);
            rows.extend(<[u8; TAG_BYTES]>::from(tag));
        }
        rows
    }
}

#[cfg(test)]
mod tests {
    use super::*;
    use crate::{check_table, Tag};

    /// A row of every kind.
    fn table() -> Table {
        Table {
            scopes: vec![[NONE, 0, NONE], [0, 0, 0]],
            reactors: vec![[0, 0]],
            modes: vec![[1, 0]],
            levels: vec![3],
            actions: vec![(1, true)],
            triggers: vec![[0, 0]],
            startups: vec![[1, 0, 0]],
            resets: vec![[1, 0]],
            timers: vec![(0, Tag::new(3_600_000_000_000, 7))],
        }
    }

    #[test]
    fn what_is_written_is_the_image_and_a_table() {
        let image = table().written().unwrap();
        assert_eq!((&image, check_table(&image)), (&table().image(), Ok(())));
        // Big-endian: the length that counts what follows, and the hour at the end.
        assert_eq!(image[..4], [0, 0, 0, 71]);
        assert_eq!(image[63..], [0, 0, 3, 70, 48, 184, 160, 0, 0, 0, 0, 7]);
    }

    #[test]
    fn what_is_refused_has_number_and_place_and_leaves_the_buffer() {
        let refused = |table: &Table| {
            let refused = table.written().unwrap_err();
            (refused.number, refused.place)
        };
        let mut broken = table();
        broken.levels[0] = 16;
        assert_eq!(refused(&broken), (4, 43));
        broken.timers = vec![(0, Tag::ZERO); 65];
        assert_eq!(refused(&broken), (3, 21));
        // More than two bytes count.
        broken.timers = vec![(0, Tag::ZERO); 65_537];
        assert_eq!(refused(&broken), (3, 21));
        let (counts, rows) = (table().counts(), table().rows());
        let mut buffer = [0xa5; 80];
        let no_room = write_table(&counts, &rows, &mut buffer[..74]).unwrap_err();
        let cut = write_table(&counts, &rows[1..], &mut buffer).unwrap_err();
        assert_eq!(
            [(no_room.number, no_room.place), (cut.number, cut.place)],
            [(1, 0); 2]
        );
        assert_eq!(buffer, [0xa5; 80]);
        assert_eq!(write_table(&counts, &rows, &mut buffer), Ok(75));
        assert_eq!(
            (&buffer[..75], &buffer[75..]),
            (&table().image()[..], &[0xa5; 5][..])
        );
    }
}
