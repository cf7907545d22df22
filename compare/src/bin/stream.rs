//! The transport stream that `make demo` is run on. Its file is made so:
//!
//!     cargo run --release --bin stream > ../examples/streams/story.ts

use compare::stream;
use std::io::{self, Write};

fn main() -> io::Result<()> {
    io::stdout().write_all(&stream::story())
}
