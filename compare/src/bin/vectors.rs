//! What the program crates/vectors must print, by the second implementation. Its file of expected output is
//! made so:
//!
//!     cargo run --release --bin vectors > ../crates/vectors/stdout

use compare::vectors;

fn main() {
    print!("{}", vectors::text());
}
