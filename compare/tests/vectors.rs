//! What the program crates/vectors is held to is what the second implementation prints.

use compare::vectors;

#[test]
fn stored_text_is_the_seconds() {
    let stored = include_str!("../../crates/vectors/stdout");
    assert_eq!(stored, vectors::text());
    assert_eq!(stored.lines().count(), 29);
}
