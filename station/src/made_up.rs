//! Files that are made up to be tried with the library.

use crate::table;

/// The stem of a set that is made up.
pub const STEM: &[u8] = b"AB123456";

/// Values by the names of their entries. What stands first counts.
pub type Values<'a> = [(&'a str, &'a str)];

/// A file with these values, and nothing at all other entries; drift and suspension with nine axles.
pub fn text(file: u32, values: &Values) -> Vec<u8> {
    let mut text = String::new();
    for section in table::sections(file) {
        text += &format!("{}\r\n", section.heading);
        for entry in section.entries {
            let value = values.iter().find(|(name, _)| *name == entry.name);
            let value = value.map_or("", |(_, value)| value);
            text += &format!("{}={value}\r\n", entry.name);
        }
    }
    text.into_bytes()
}
