//! Lengths and outputs with which a writing is committed (02, 9/14), beside the length of its file.

use crate::random::Random;

/// What is handed in as the quoted length.
#[derive(Clone, Copy, Debug, PartialEq, Eq)]
pub enum Length {
    /// That of the file.
    Quoted,
    OneLess,
    OneMore,
    Zero,
    /// The largest number, which is no quote's.
    Largest,
    Less,
    /// Often the same in its last 8, 16 or 31 bits.
    More,
}

impl Length {
    pub const ALL: [Length; 7] = [
        Length::Quoted,
        Length::OneLess,
        Length::OneMore,
        Length::Zero,
        Length::Largest,
        Length::Less,
        Length::More,
    ];

    /// The number handed in, for a file of this length.
    pub fn number(self, random: &mut Random, file: u32) -> u32 {
        match self {
            Length::Quoted => file,
            Length::OneLess => file.saturating_sub(1),
            Length::OneMore => file + 1,
            Length::Zero => 0,
            Length::Largest => u32::MAX,
            Length::Less => random.below(file as usize + 1) as u32,
            Length::More => {
                let any = 2 + random.below(3_000) as u32;
                file + random.pick(&[1 << 8, 1 << 16, 1 << 31, any, any])
            }
        }
    }

    /// What a number handed in is for a file of this length.
    pub fn of(number: u32, file: u32) -> Length {
        match number {
            _ if number == file => Length::Quoted,
            0 => Length::Zero,
            u32::MAX => Length::Largest,
            _ if number + 1 == file => Length::OneLess,
            _ if number == file + 1 => Length::OneMore,
            _ if number < file => Length::Less,
            _ => Length::More,
        }
    }

    pub fn name(self) -> &'static str {
        match self {
            Length::Quoted => "the quoted length",
            Length::OneLess => "one less",
            Length::OneMore => "one more",
            Length::Zero => "a length of 0",
            Length::Largest => "the largest number",
            Length::Less => "several less",
            Length::More => "several more",
        }
    }
}

/// The output that is lent.
#[derive(Clone, Copy, Debug, PartialEq, Eq)]
pub enum Output {
    Longer,
    /// Just the length of the file.
    Just,
    OneShort,
    Empty,
}

impl Output {
    pub const ALL: [Output; 4] = [
        Output::Longer,
        Output::Just,
        Output::OneShort,
        Output::Empty,
    ];

    /// How many bytes it has, for a file of this length.
    pub fn size(self, random: &mut Random, file: usize) -> usize {
        match self {
            Output::Longer => file + random.between(1, 200),
            Output::Just => file,
            Output::OneShort => file.saturating_sub(1),
            Output::Empty => 0,
        }
    }

    pub fn name(self) -> &'static str {
        match self {
            Output::Longer => "a longer output",
            Output::Just => "an output of just its length",
            Output::OneShort => "an output one byte short",
            Output::Empty => "an output of 0 bytes",
        }
    }
}
