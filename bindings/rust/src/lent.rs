//! The calls as they stand in `include/mctc.h`, with slices for pointers and lengths. All `unsafe` of the repository's
//! Rust is here.
//!
//! Each call returns number 0 of the answer, or 4294967295 where the answer has fewer than 16 numbers.

use crate::Set;

extern "C" {
    fn mctc_judge(
        stem: *const u8,
        stem_length: usize,
        ac2: *const u8,
        ac2_length: usize,
        acc: *const u8,
        acc_length: usize,
        drift: *const u8,
        drift_length: usize,
        suspension: *const u8,
        suspension_length: usize,
        gas: *const u8,
        gas_length: usize,
        identification: *const u8,
        identification_length: usize,
        opacity: *const u8,
        opacity_length: usize,
        places: *mut u32,
        places_length: usize,
        answer: *mut u32,
        answer_length: usize,
    ) -> u32;

    fn mctc_read(
        file: u32,
        text: *const u8,
        text_length: usize,
        places: *mut u32,
        places_length: usize,
        answer: *mut u32,
        answer_length: usize,
    ) -> u32;

    fn mctc_write(
        text: *const u8,
        text_length: usize,
        places: *const u32,
        places_length: usize,
        file: u32,
        axles: u32,
        output: *mut u8,
        output_length: usize,
        answer: *mut u32,
        answer_length: usize,
    ) -> u32;

    fn mctc_quote(
        text: *const u8,
        text_length: usize,
        places: *const u32,
        places_length: usize,
        file: u32,
        axles: u32,
        answer: *mut u32,
        answer_length: usize,
    ) -> u32;

    fn mctc_commit(
        text: *const u8,
        text_length: usize,
        places: *const u32,
        places_length: usize,
        file: u32,
        axles: u32,
        length: u32,
        output: *mut u8,
        output_length: usize,
        answer: *mut u32,
        answer_length: usize,
    ) -> u32;

    fn mctc_join(
        first: *const u8,
        first_length: usize,
        second: *const u8,
        second_length: usize,
        output: *mut u8,
        output_length: usize,
        answer: *mut u32,
        answer_length: usize,
    ) -> u32;

    fn mctc_due(
        file: u32,
        ac2: *const u8,
        ac2_length: usize,
        text: *const u8,
        text_length: usize,
        places: *mut u32,
        places_length: usize,
        column: *mut u32,
        column_length: usize,
        answer: *mut u32,
        answer_length: usize,
    ) -> u32;

    fn mctc_entry_name(
        file: u32,
        entry: u32,
        output: *mut u8,
        output_length: usize,
        answer: *mut u32,
        answer_length: usize,
    ) -> u32;

    fn mctc_heading_name(
        file: u32,
        section: u32,
        output: *mut u8,
        output_length: usize,
        answer: *mut u32,
        answer_length: usize,
    ) -> u32;

    fn mctc_kind(file: u32, entry: u32, answer: *mut u32, answer_length: usize) -> u32;

    fn mctc_word(
        file: u32,
        entry: u32,
        word: u32,
        output: *mut u8,
        output_length: usize,
        answer: *mut u32,
        answer_length: usize,
    ) -> u32;

    fn mctc_condition(file: u32, entry: u32, answer: *mut u32, answer_length: usize) -> u32;

    fn mctc_file_condition(file: u32, answer: *mut u32, answer_length: usize) -> u32;

    fn mctc_test(
        test: u32,
        value: *const u8,
        value_length: usize,
        answer: *mut u32,
        answer_length: usize,
    ) -> u32;

    fn mctc_identification(
        text: *const u8,
        text_length: usize,
        answer: *mut u32,
        answer_length: usize,
    ) -> u32;

    fn mctc_field(field: u32, answer: *mut u32, answer_length: usize) -> u32;
}

// What the header asks of its callers, Rust grants for every slice: a pointer and a length belong together, the pointer
// of an empty slice is not null and is aligned, and a slice lent with `&mut` overlaps no other. The library keeps no
// pointer and writes only to the arrays that are `*mut` above. This holds for each call below.

/// Judges a whole set.
pub fn judge(set: &Set, places: &mut [u32], answer: &mut [u32]) -> u32 {
    unsafe {
        mctc_judge(
            set.stem.as_ptr(),
            set.stem.len(),
            set.ac2.as_ptr(),
            set.ac2.len(),
            set.acc.as_ptr(),
            set.acc.len(),
            set.drift.as_ptr(),
            set.drift.len(),
            set.suspension.as_ptr(),
            set.suspension.len(),
            set.gas.as_ptr(),
            set.gas.len(),
            set.identification.as_ptr(),
            set.identification.len(),
            set.opacity.as_ptr(),
            set.opacity.len(),
            places.as_mut_ptr(),
            places.len(),
            answer.as_mut_ptr(),
            answer.len(),
        )
    }
}

/// Reads one file alone, by its number.
pub fn read(file: u32, text: &[u8], places: &mut [u32], answer: &mut [u32]) -> u32 {
    unsafe {
        mctc_read(
            file,
            text.as_ptr(),
            text.len(),
            places.as_mut_ptr(),
            places.len(),
            answer.as_mut_ptr(),
            answer.len(),
        )
    }
}

/// Writes one file from a text and the pairs of its values.
pub fn write(
    text: &[u8],
    places: &[u32],
    file: u32,
    axles: u32,
    output: &mut [u8],
    answer: &mut [u32],
) -> u32 {
    unsafe {
        mctc_write(
            text.as_ptr(),
            text.len(),
            places.as_ptr(),
            places.len(),
            file,
            axles,
            output.as_mut_ptr(),
            output.len(),
            answer.as_mut_ptr(),
            answer.len(),
        )
    }
}

/// The length of the file that is written from a text and the pairs of its values.
pub fn quote(text: &[u8], places: &[u32], file: u32, axles: u32, answer: &mut [u32]) -> u32 {
    unsafe {
        mctc_quote(
            text.as_ptr(),
            text.len(),
            places.as_ptr(),
            places.len(),
            file,
            axles,
            answer.as_mut_ptr(),
            answer.len(),
        )
    }
}

/// Writes one file from a text and the pairs of its values, of the length that was quoted.
pub fn commit(
    text: &[u8],
    places: &[u32],
    file: u32,
    axles: u32,
    length: u32,
    output: &mut [u8],
    answer: &mut [u32],
) -> u32 {
    unsafe {
        mctc_commit(
            text.as_ptr(),
            text.len(),
            places.as_ptr(),
            places.len(),
            file,
            axles,
            length,
            output.as_mut_ptr(),
            output.len(),
            answer.as_mut_ptr(),
            answer.len(),
        )
    }
}

/// Joins two drift files.
pub fn join(first: &[u8], second: &[u8], output: &mut [u8], answer: &mut [u32]) -> u32 {
    unsafe {
        mctc_join(
            first.as_ptr(),
            first.len(),
            second.as_ptr(),
            second.len(),
            output.as_mut_ptr(),
            output.len(),
            answer.as_mut_ptr(),
            answer.len(),
        )
    }
}

/// The due column of one file, with AC2's text.
pub fn due(
    file: u32,
    ac2: &[u8],
    text: &[u8],
    places: &mut [u32],
    column: &mut [u32],
    answer: &mut [u32],
) -> u32 {
    unsafe {
        mctc_due(
            file,
            ac2.as_ptr(),
            ac2.len(),
            text.as_ptr(),
            text.len(),
            places.as_mut_ptr(),
            places.len(),
            column.as_mut_ptr(),
            column.len(),
            answer.as_mut_ptr(),
            answer.len(),
        )
    }
}

/// The name of an entry, by file and number.
pub fn entry_name(file: u32, entry: u32, output: &mut [u8], answer: &mut [u32]) -> u32 {
    unsafe {
        mctc_entry_name(
            file,
            entry,
            output.as_mut_ptr(),
            output.len(),
            answer.as_mut_ptr(),
            answer.len(),
        )
    }
}

/// A heading with its brackets, by file and number.
pub fn heading_name(file: u32, section: u32, output: &mut [u8], answer: &mut [u32]) -> u32 {
    unsafe {
        mctc_heading_name(
            file,
            section,
            output.as_mut_ptr(),
            output.len(),
            answer.as_mut_ptr(),
            answer.len(),
        )
    }
}

/// The kind of an entry, by file and number.
pub fn kind(file: u32, entry: u32, answer: &mut [u32]) -> u32 {
    unsafe { mctc_kind(file, entry, answer.as_mut_ptr(), answer.len()) }
}

/// A word that an entry's value may be, by file and numbers.
pub fn word(file: u32, entry: u32, word: u32, output: &mut [u8], answer: &mut [u32]) -> u32 {
    unsafe {
        mctc_word(
            file,
            entry,
            word,
            output.as_mut_ptr(),
            output.len(),
            answer.as_mut_ptr(),
            answer.len(),
        )
    }
}

/// What is asked of an entry, and why.
pub fn condition(file: u32, entry: u32, answer: &mut [u32]) -> u32 {
    unsafe { mctc_condition(file, entry, answer.as_mut_ptr(), answer.len()) }
}

/// What is asked of a file, and why.
pub fn file_condition(file: u32, answer: &mut [u32]) -> u32 {
    unsafe { mctc_file_condition(file, answer.as_mut_ptr(), answer.len()) }
}

/// Whether a value passes a test.
pub fn test(test: u32, value: &[u8], answer: &mut [u32]) -> u32 {
    unsafe {
        mctc_test(
            test,
            value.as_ptr(),
            value.len(),
            answer.as_mut_ptr(),
            answer.len(),
        )
    }
}

/// Where the fields of an identification answer end.
pub fn identification(text: &[u8], answer: &mut [u32]) -> u32 {
    unsafe { mctc_identification(text.as_ptr(), text.len(), answer.as_mut_ptr(), answer.len()) }
}

/// The entry of gas that a field of the identification answer must equal.
pub fn field(field: u32, answer: &mut [u32]) -> u32 {
    unsafe { mctc_field(field, answer.as_mut_ptr(), answer.len()) }
}
