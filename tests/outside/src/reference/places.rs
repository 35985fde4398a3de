//! 01, Judging: the places that a caller lends, and 02, 7/14: three numbers in them for each entry.

use super::tables::table;

/// 02, 7/14: "Each pair in places becomes three numbers: start, length, line (0 where unused)."
#[derive(Clone, Copy, Debug, Default, PartialEq, Eq)]
pub struct Triple {
    pub start: u32,
    pub length: u32,
    pub line: u32,
}

impl Triple {
    /// How many numbers it has.
    pub const NUMBERS: usize = 3;

    pub fn numbers(self) -> [u32; Triple::NUMBERS] {
        [self.start, self.length, self.line]
    }

    /// Whether it is that of an entry that was read: no value starts at 0.
    pub fn is_used(self) -> bool {
        self.start > 0
    }

    /// The value in its file.
    pub fn value(self, text: &[u8]) -> &[u8] {
        let start = self.start as usize;
        &text[start..start + self.length as usize]
    }
}

/// How many entries the files have at most. 01, Judging: 278 numbers, two for each; 02, 2/14: opacity has 55 more.
pub const ENTRIES: usize = 278 / 2 + 55;

/// 02, 7/14: "the least number of places is half as much again as before".
pub const PLACES: usize = ENTRIES * Triple::NUMBERS;

/// The first of a file's places, from 0.
pub fn first_place(file: u32) -> usize {
    Triple::NUMBERS * table(file).first_triple
}

/// All triples that are lent, in their order.
pub fn triples(places: &[u32]) -> impl Iterator<Item = Triple> + '_ {
    places.chunks_exact(Triple::NUMBERS).map(|numbers| Triple {
        start: numbers[0],
        length: numbers[1],
        line: numbers[2],
    })
}

/// 01, Judging: "entries in the order above, axles by number". The triples of all entries that a file may have.
pub fn triples_of(file: u32, places: &[u32]) -> impl Iterator<Item = Triple> + '_ {
    triples(&places[first_place(file)..]).take(table(file).most_entries())
}

/// Puts triples into places, from a file's first on, as many as are lent.
pub fn put_triples(places: &mut [u32], file: u32, triples: impl IntoIterator<Item = Triple>) {
    let numbers = triples.into_iter().flat_map(Triple::numbers);
    let lent = places.iter_mut().skip(first_place(file));
    for (place, number) in lent.zip(numbers) {
        *place = number;
    }
}

/// Whether a file was read: then its first entry was, whatever axles it has.
pub fn is_read(file: u32, places: &[u32]) -> bool {
    triples_of(file, places).next().is_some_and(Triple::is_used)
}
