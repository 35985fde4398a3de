//! The C static library libmctc.a as a judge, by the binding of `bindings/rust`.

use mctc::lent;

use crate::judge::{Arrays, Call, Judge, Set};

pub struct Library;

impl Judge for Library {
    fn name(&self) -> &'static str {
        "library"
    }

    fn answer(&self, call: &Call, arrays: Arrays) -> u32 {
        let Arrays {
            places,
            column,
            output,
            answer,
        } = arrays;
        match call {
            Call::Judge { set, .. } => lent::judge(&set_of(set), places, answer),
            Call::Read { file, text, .. } => lent::read(*file, text, places, answer),
            Call::Write {
                text, file, axles, ..
            } => lent::write(text, places, *file, *axles, output, answer),
            Call::Quote {
                text, file, axles, ..
            } => lent::quote(text, places, *file, *axles, answer),
            Call::Commit {
                text,
                file,
                axles,
                length,
                ..
            } => lent::commit(text, places, *file, *axles, *length, output, answer),
            Call::Due {
                file, ac2, text, ..
            } => lent::due(*file, ac2, text, places, column, answer),
            Call::EntryName { file, entry, .. } => lent::entry_name(*file, *entry, output, answer),
            Call::HeadingName { file, section, .. } => {
                lent::heading_name(*file, *section, output, answer)
            }
            Call::Kind { file, entry } => lent::kind(*file, *entry, answer),
            Call::Word {
                file, entry, word, ..
            } => lent::word(*file, *entry, *word, output, answer),
            Call::Join { first, second, .. } => lent::join(first, second, output, answer),
        }
    }
}

/// As the binding takes it.
pub fn set_of(set: &Set) -> mctc::Set<'_> {
    let slices = set.as_slices();
    mctc::Set {
        stem: slices.stem,
        ac2: slices.ac2,
        acc: slices.acc,
        drift: slices.drift,
        suspension: slices.suspension,
        gas: slices.gas,
        identification: slices.identification,
        opacity: slices.opacity,
    }
}
