//! Takes the Rust functions and links the archive exactly as the oracle does.

#[path = "../oracle/build.rs"]
mod oracle;

fn main() {
    oracle::main();
}
