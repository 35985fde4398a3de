//! 02, 6/14: two entry names compared, and the steps of it.

/// "The comparison answers whether the names are equal, and its steps".
#[derive(Clone, Copy, Debug, PartialEq, Eq)]
pub struct Comparison {
    pub equal: bool,
    pub steps: usize,
}

/// "each eight bytes and each byte left over".
fn pieces(name: &[u8]) -> impl Iterator<Item = &[u8]> {
    let (words, left_over) = name.split_at(name.len() - name.len() % 8);
    words.chunks(8).chain(left_over.chunks(1))
}

/// "none for unequal lengths, else one for each eight bytes and each byte left over, up to and with
/// the first that differs".
fn steps(one: &[u8], other: &[u8]) -> usize {
    if one.len() != other.len() {
        return 0;
    }
    let mut steps = 0;
    for (a, b) in pieces(one).zip(pieces(other)) {
        steps += 1;
        if a != b {
            break;
        }
    }
    steps
}

pub fn compare(one: &[u8], other: &[u8]) -> Comparison {
    Comparison {
        equal: one == other,
        steps: steps(one, other),
    }
}
