//! The judges against the vectors.

use outside::judge::{Judge, Reference};
use outside::vectors::run_vectors;

fn assert_agrees(judge: &dyn Judge) {
    match run_vectors(judge) {
        // Quotes with their commits after 02, 9/14; joinings after 8/14; sets, files read alone and writings after 7/14; sets
        // after 5/14, 4/14 and 3/14; all three after 2/14.
        Ok(count) => {
            let sets = 200 + 49 + 60;
            assert_eq!(count, 70 + 90 + (200 + 60 + 60) + sets + (61 + 60 + 60))
        }
        Err(difference) => panic!("{difference}"),
    }
}

#[test]
fn the_reference_agrees_with_all_vectors() {
    assert_agrees(&Reference);
}

#[cfg(feature = "library")]
#[test]
fn the_library_agrees_with_all_vectors() {
    assert_agrees(&outside::library::Library);
}
