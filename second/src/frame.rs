//! Frames: the reader of one line, with refusals 2 to 5, and the writer of one line. The reader takes digits of either
//! case, also mixed; the writer keeps to upper case.

/// Bytes in a line read: four pairs and a line feed.
pub const LINE: usize = 9;

/// Refusal 2: fewer than 9 bytes left, or the ninth is no line feed.
pub const REFUSED_LINE: u8 = 2;
/// Refusal 3: one of the eight is not 0-9, A-F or a-f.
pub const REFUSED_DIGIT: u8 = 3;
/// Refusal 4: the check doesn't come to 0.
pub const REFUSED_CHECK: u8 = 4;
/// Refusal 5: the line does not begin as wanted.
pub const REFUSED_KIND: u8 = 5;

/// Reads the line at the start of `text`. `wanted` is 1 for line 1 and 2 for a later line.
pub fn read(text: &[u8], wanted: u8) -> Result<[u8; 4], u8> {
    if text.len() < LINE || text[LINE - 1] != b'\n' {
        return Err(REFUSED_LINE);
    }
    let mut pairs = [0; 4];
    for i in 0..4 {
        pairs[i] = 16 * digit(text[2 * i])? + digit(text[2 * i + 1])?;
    }
    if sum(&pairs) != 0 {
        return Err(REFUSED_CHECK);
    }
    if pairs[0] != wanted {
        return Err(REFUSED_KIND);
    }
    Ok(pairs)
}

/// Writes the pairs, their check and a line feed to the end of `out`.
pub fn write(out: &mut Vec<u8>, pairs: &[u8]) {
    for &pair in pairs {
        write_pair(out, pair);
    }
    write_pair(out, sum(pairs).wrapping_neg());
    out.push(b'\n');
}

fn write_pair(out: &mut Vec<u8>, pair: u8) {
    const DIGITS: &[u8; 16] = b"0123456789ABCDEF";
    out.push(DIGITS[(pair / 16) as usize]);
    out.push(DIGITS[(pair % 16) as usize]);
}

/// A byte as a digit. Request [3]: a to f are worth what A to F are.
fn digit(byte: u8) -> Result<u8, u8> {
    match byte {
        b'0'..=b'9' => Ok(byte - b'0'),
        b'A'..=b'F' => Ok(byte - b'A' + 10),
        b'a'..=b'f' => Ok(byte - b'a' + 10),
        _ => Err(REFUSED_DIGIT),
    }
}

fn sum(pairs: &[u8]) -> u8 {
    pairs.iter().fold(0, |sum, &pair| sum.wrapping_add(pair))
}
