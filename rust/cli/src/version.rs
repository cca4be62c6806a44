//! The version of the product, of the source and of the toolchain.

use std::io::{self, Write};

pub fn print(out: &mut impl Write) -> io::Result<()> {
    writeln!(out, "bjorkneve {}", env!("CARGO_PKG_VERSION"))?;
    if let Some(commit) = option_env!("BJORKNEVE_COMMIT") {
        writeln!(out, "commit {commit}")?;
    }
    write!(out, "toolchain {}", include_str!("../../../toolchain.txt"))
}
