//! What a function of the library, or the second implementation, says to a table and a buffer or a
//! sheet, or to a text.

use second::Refused;

/// The length or depth, or a refusal.
pub type Reply = Result<usize, Refused>;

/// A reply as a person reads it.
pub fn described(reply: Reply) -> String {
    match reply {
        Ok(low) => format!("done, {low}"),
        Err((number, place)) => format!("refused {number} at {place}"),
    }
}
