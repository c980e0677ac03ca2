// The sample book of the repository, samples/night.book and samples/night.names: what the fixture `night` says.

use crate::fixtures;

/// The bytes of the book.
pub fn book() -> Vec<u8> {
    fixtures::night().book
}

/// The names of the atoms in index order, one to a line.
pub fn names() -> Vec<u8> {
    fixtures::night().atoms.iter().flat_map(|name| format!("{name}\n").into_bytes()).collect()
}

/// Compares the two files with the fixture.
pub fn compare() -> Result<(), String> {
    for (what, should) in [("book", book()), ("names", names())] {
        let path = format!("{}/../samples/night.{what}", env!("CARGO_MANIFEST_DIR"));
        let is = std::fs::read(&path).map_err(|why| format!("samples/night.{what}: {why}"))?;
        if is != should {
            return Err(format!(
                "samples/night.{what} differs; run: target/second/release/sample {what} > samples/night.{what}"
            ));
        }
    }
    Ok(())
}
