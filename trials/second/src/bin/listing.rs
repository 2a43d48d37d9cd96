//! The second router's answer to what `knee` does: reads a record from
//! standard input and writes its listing.

use std::io::{Read, Write};

fn main() -> std::io::Result<()> {
    let mut record = Vec::new();
    std::io::stdin().read_to_end(&mut record)?;
    std::io::stdout().write_all(second::printed(&record).as_bytes())
}
