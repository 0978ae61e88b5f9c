//! True sheets byte by byte: cut, lengthened, changed.

use super::comparison::Comparison;
use super::some_drawing;
use crate::mapped::Mapped;
use second::drawings::paper;

/// The paper's drawings that have a sheet.
fn papers() -> Vec<Mapped> {
    paper().into_iter().filter_map(|drawing| Mapped::of_table(drawing.table)).collect()
}

/// Sheets cut at every byte, and with bytes added: the paper's, and so many others.
pub fn cut_and_added(comparison: &mut Comparison, count: usize) -> Result<(), String> {
    comparison.tally.begin("cut or added to");
    let mut drawings = papers();
    drawings.extend((0..count).map(|_| some_drawing(comparison)));
    for mapped in drawings {
        let bytes = mapped.sheet.bytes();
        for length in 0..bytes.len() {
            comparison.check(&mapped, &bytes[..length])?;
        }
        for more in 1..=20 {
            let word = comparison.random.word().to_be_bytes();
            let added = [&bytes[..], &word.repeat(3)[..more]].concat();
            comparison.check(&mapped, &added)?;
        }
    }
    Ok(())
}

/// Sheets that are no longer have each byte changed to every other value.
const SHORT: usize = 100;

/// Sheets with one byte changed: the paper's to every other value, and so many others to every
/// other or, where they are long, to a few.
pub fn changed(comparison: &mut Comparison, count: usize) -> Result<(), String> {
    comparison.tally.begin("with a byte changed");
    for mapped in papers() {
        let bytes = mapped.sheet.bytes();
        for at in 0..bytes.len() {
            for change in 1..=255 {
                check_changed(comparison, &mapped, &bytes, at, change)?;
            }
        }
    }
    for _ in 0..count {
        let mapped = some_drawing(comparison);
        let bytes = mapped.sheet.bytes();
        for at in 0..bytes.len() {
            let any = comparison.random.between(2, 254) as u8;
            let changes = if bytes.len() > SHORT { vec![1, any, 255] } else { (1..=255).collect() };
            for change in changes {
                check_changed(comparison, &mapped, &bytes, at, change)?;
            }
        }
    }
    Ok(())
}

fn check_changed(
    comparison: &mut Comparison,
    mapped: &Mapped,
    bytes: &[u8],
    at: usize,
    change: u8,
) -> Result<(), String> {
    let mut other = bytes.to_vec();
    other[at] = other[at].wrapping_add(change);
    comparison.check(mapped, &other)
}
