//! Names that are near one that was written.

/// The name that is nearest to what was written, where one is near: the same but for capitals and spaces, or at most
/// two letters off. A single letter with another is no slip: `NO` is no `N`, which as an outcome says 'not required'.
/// Digits must agree: another number is another thing. None where two are as near, or where a word of one or two letters,
/// such as `N1`, begins with another: its first letter is what it says.
pub fn nearest<'a>(written: &[u8], names: impl Iterator<Item = &'a str>) -> Option<&'a str> {
    let plain = plain(written);
    let near = names.filter_map(|name| {
        let other = self::plain(name.as_bytes());
        let most = match other.len() {
            0 | 1 => 0,
            2..=5 => 1,
            _ => 2,
        };
        let distance = distance(&plain, &other);
        (distance <= most && digits(&plain) == digits(&other)).then_some((distance, name))
    });
    let mut near: Vec<(usize, &str)> = near.collect();
    near.sort();
    near.dedup();
    match near.as_slice() {
        [(first, _), (second, _), ..] if first == second => None,
        near => {
            let near = near.first().map(|(_, name)| *name);
            near.filter(|name| is_same_code(&plain, &self::plain(name.as_bytes())))
        }
    }
}

/// Whether a word of one or two letters begins with the same one; true of other words.
fn is_same_code(written: &[u8], name: &[u8]) -> bool {
    let letters = |word: &[u8]| -> Vec<u8> {
        let letters = word.iter().filter(|byte| byte.is_ascii_alphabetic());
        letters.copied().collect()
    };
    let (written, name) = (letters(written), letters(name));
    !matches!(name.len(), 1 | 2) || written.first() == name.first()
}

/// The stem that is nearest to one that no file has, where one is at most one byte off.
pub fn nearest_stem<'a>(
    written: &[u8],
    mut stems: impl Iterator<Item = &'a [u8]>,
) -> Option<&'a [u8]> {
    stems.find(|stem| distance(&plain(written), &plain(stem)) <= 1)
}

/// Whether two names are the same but for capitals and spaces.
pub fn is_alike(one: &[u8], other: &[u8]) -> bool {
    plain(one) == plain(other)
}

/// Small letters, without spaces.
pub fn plain(name: &[u8]) -> Vec<u8> {
    let kept = name.iter().filter(|byte| !byte.is_ascii_whitespace());
    kept.map(u8::to_ascii_lowercase).collect()
}

fn digits(name: &[u8]) -> Vec<u8> {
    name.iter().copied().filter(u8::is_ascii_digit).collect()
}

/// How many letters must be put in, taken out or changed.
fn distance(one: &[u8], other: &[u8]) -> usize {
    let mut row: Vec<usize> = (0..=other.len()).collect();
    for (above, letter) in one.iter().enumerate() {
        let mut before = above;
        let mut left = above + 1;
        for (cell, other) in row.iter_mut().skip(1).zip(other) {
            let changed = before + usize::from(letter != other);
            before = *cell;
            left = changed.min(left + 1).min(*cell + 1);
            *cell = left;
        }
        if let Some(first) = row.first_mut() {
            *first = above + 1;
        }
    }
    row.last().copied().unwrap_or_default()
}

#[cfg(test)]
mod tests {
    use super::{distance, nearest};

    #[test]
    fn distances() {
        for (one, other, right) in [
            ("", "", 0),
            ("", "abc", 3),
            ("abc", "", 3),
            ("abc", "abc", 0),
            ("abc", "axc", 1),
            ("abc", "ac", 1),
            ("abc", "abxc", 1),
            ("kitten", "sitting", 3),
        ] {
            assert_eq!(
                distance(one.as_bytes(), other.as_bytes()),
                right,
                "{one} {other}"
            );
        }
    }

    #[test]
    fn digits_agree() {
        let names = ["[DerivaAsse_1]", "[DerivaAsse_2]"];
        let nearest = |written: &str| nearest(written.as_bytes(), names.into_iter());
        assert_eq!(nearest("[derivaasse_2]"), Some("[DerivaAsse_2]"));
        assert_eq!(nearest("[DerivaAse_1]"), Some("[DerivaAsse_1]"));
        assert_eq!(nearest("[DerivaAsse_3]"), None);
        assert_eq!(nearest("[Sospensioni]"), None);
    }

    #[test]
    fn categories_are_not_near() {
        let categories = ["L3e", "L4e", "M1", "M3", "N1", "N3", "O1", "O3", "O4"];
        let nearest = |written: &str| nearest(written.as_bytes(), categories.into_iter());
        assert_eq!(nearest("n 1"), Some("N1"));
        assert_eq!(nearest("N1G"), Some("N1"));
        assert_eq!(nearest("L4ee"), Some("L4e"));
        for other in ["N4", "M4", "4", "N4e", "M3e", "L3", "04"] {
            assert_eq!(nearest(other), None, "{other}");
        }
    }

    #[test]
    fn letters_are_not_near() {
        let outcomes = ["R", "I", "N"];
        let nearest = |written: &str| nearest(written.as_bytes(), outcomes.into_iter());
        assert_eq!(nearest("r "), Some("R"));
        for other in ["NO", "SI", "P", "RR"] {
            assert_eq!(nearest(other), None, "{other}");
        }
    }
}
