//! Damages of a text, whatever its format.

use crate::random::Random;

/// About the length of the longest text.
pub fn about_longest(r: &mut Random) -> usize {
    r.pick(&[65_535, 65_536, 65_536, 65_537, 65_538, 70_000, 140_000])
}

/// A byte changed or put in, one of the given ones or a bit turned; a few bytes dropped or doubled; or the text cut short.
pub fn damage_byte(text: &mut Vec<u8>, bytes: &[u8], r: &mut Random) {
    let byte = r.pick(bytes);
    let at = r.below(text.len() + 1);
    let end = text.len().min(at + r.between(1, 4));
    match r.below(6) {
        0 => text.insert(at, byte),
        1 if at < text.len() => text[at] = byte,
        2 if at < text.len() => text[at] ^= 1 << r.below(8),
        3 => drop(text.drain(at..end)),
        4 => {
            let again = text[at..end].to_vec();
            text.splice(at..at, again);
        }
        _ => text.truncate(at),
    }
}

/// Another header in place of the first line.
pub fn with_header(text: &[u8], headers: &[&[u8]], r: &mut Random) -> Vec<u8> {
    let rest = text.iter().position(|&b| b == b'\n').map_or(text.len(), |i| i + 1);
    [r.pick(headers), &text[rest..]].concat()
}

/// Another word in place of one, or behind it.
pub fn with_word(text: &[u8], words: &[&[u8]], r: &mut Random) -> Vec<u8> {
    let from = r.below(text.len() + 1);
    let is_blank = |b: &u8| b" \t\r\n".contains(b);
    let start = text[from..].iter().position(is_blank).map_or(text.len(), |i| from + i + 1);
    let end = text[start..].iter().position(is_blank).map_or(text.len(), |i| start + i);
    let end = if r.once_in(2) { end } else { start };
    [&text[..start], r.pick(words), if end == start { b" " } else { b"" }, &text[end..]].concat()
}

/// Other line ends from some place on.
pub fn with_line_ends(text: &[u8], r: &mut Random) -> Vec<u8> {
    let end: &[u8] = r.pick(&[b"\r" as &[u8], b"\r\n", b"\n\r", b"\n\n", b"\rc ", b"\n c "]);
    let from = r.below(text.len() + 1);
    let mut changed = text[..from].to_vec();
    for &b in &text[from..] {
        if b == b'\n' {
            changed.extend_from_slice(end);
        } else {
            changed.push(b);
        }
    }
    changed
}
