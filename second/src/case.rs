//! Case: the letters of a text raised to A to F, or lowered to a to f. Other letters stay, as they are no digits.

use crate::random::Random;

/// Each letter a to f raised.
pub fn raised(text: &[u8]) -> Vec<u8> {
    let raise_letter = |&byte: &u8| match byte {
        b'a'..=b'f' => byte.to_ascii_uppercase(),
        _ => byte,
    };
    text.iter().map(raise_letter).collect()
}

/// Each letter A to F lowered.
pub fn lowered(text: &[u8]) -> Vec<u8> {
    lowered_if(text, || true)
}

/// Each letter A to F lowered if the draw for it is 0.
pub fn lowered_as_drawn(text: &[u8], random: &mut Random) -> Vec<u8> {
    lowered_if(text, || random.draw(2) == 0)
}

/// Asks for each letter A to F, in order, whether it is lowered.
fn lowered_if<L: FnMut() -> bool>(text: &[u8], mut lower: L) -> Vec<u8> {
    let lower_letter = |&byte: &u8| match byte {
        b'A'..=b'F' if lower() => byte.to_ascii_lowercase(),
        _ => byte,
    };
    text.iter().map(lower_letter).collect()
}
