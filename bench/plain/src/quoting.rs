//! Octets as text: quoted, in hexadecimal, and back.

use crate::Id;

/// For each octet its quoted text and the length of that: those from `!` to `~` stand for themselves but for four,
/// every other is `%` and two digits.
static QUOTED: [([u8; 3], u8); 256] = quoted_table();

const fn quoted_table() -> [([u8; 3], u8); 256] {
    let digits = b"0123456789ABCDEF";
    let mut table = [([0; 3], 0); 256];
    let mut octet = 0;
    while octet < 256 {
        let escaped = [b'%', digits[octet >> 4], digits[octet & 15]];
        table[octet] = if is_plain(octet as u8) { ([octet as u8, 0, 0], 1) } else { (escaped, 3) };
        octet += 1;
    }
    table
}

const fn is_plain(octet: u8) -> bool {
    octet.is_ascii_graphic() && !matches!(octet, b'%' | b'~' | b'=' | b',')
}

/// Appends octets as they are quoted; no octets are `~`.
pub fn push_quoted(text: &mut Vec<u8>, octets: &[u8]) {
    if octets.is_empty() {
        text.push(b'~');
        return;
    }
    let mut end = text.len();
    text.resize(end + 3 * octets.len(), 0);
    for &octet in octets {
        let (quoted, length) = &QUOTED[usize::from(octet)];
        text[end..end + 3].copy_from_slice(quoted);
        end += usize::from(*length);
    }
    text.truncate(end);
}

/// Appends a list of quoted members, joined by commas; an empty one is `%`.
pub fn push_list<'a>(text: &mut Vec<u8>, members: impl Iterator<Item = &'a [u8]>) {
    push_joined(text, members, push_quoted);
}

/// The same of names and values.
pub fn push_pairs<'a>(text: &mut Vec<u8>, pairs: impl Iterator<Item = (&'a [u8], &'a [u8])>) {
    push_joined(text, pairs, |text, (name, value)| {
        push_quoted(text, name);
        text.push(b'=');
        push_quoted(text, value);
    });
}

#[inline]
fn push_joined<T>(text: &mut Vec<u8>, members: impl Iterator<Item = T>, push: impl Fn(&mut Vec<u8>, T)) {
    let start = text.len();
    for member in members {
        if text.len() > start {
            text.push(b',');
        }
        push(text, member);
    }
    if text.len() == start {
        text.push(b'%');
    }
}

/// The octets that a quoted text stands for, if it is the text of some.
pub fn unquote(text: &[u8]) -> Option<Vec<u8>> {
    if text == b"~" {
        return Some(Vec::new());
    }
    let mut octets = Vec::new();
    let mut rest = text;
    while let [octet, behind @ ..] = rest {
        if is_plain(*octet) {
            octets.push(*octet);
            rest = behind;
        } else {
            let [b'%', high, low, behind @ ..] = rest else { return None };
            let value = upper_digit(*high)? << 4 | upper_digit(*low)?;
            if is_plain(value) {
                return None;
            }
            octets.push(value);
            rest = behind;
        }
    }
    (!octets.is_empty()).then_some(octets)
}

/// The members of a list of quoted texts.
pub fn unquote_list(text: &[u8]) -> Option<Vec<Vec<u8>>> {
    if text == b"%" {
        return Some(Vec::new());
    }
    text.split(|octet| *octet == b',').map(unquote).collect()
}

fn upper_digit(digit: u8) -> Option<u8> {
    match digit {
        b'0'..=b'9' => Some(digit - b'0'),
        b'A'..=b'F' => Some(digit - b'A' + 10),
        _ => None,
    }
}

/// Appends the thirty-two digits of an identity.
pub fn push_id(text: &mut Vec<u8>, id: &Id) {
    for octet in id {
        text.extend(format!("{octet:02X}").bytes());
    }
}

/// The identity of thirty-two upper-case digits.
pub fn read_id(text: &[u8]) -> Option<Id> {
    if text.len() != 32 {
        return None;
    }
    let mut id = [0; 16];
    for (octet, digits) in id.iter_mut().zip(text.chunks_exact(2)) {
        *octet = upper_digit(digits[0])? << 4 | upper_digit(digits[1])?;
    }
    Some(id)
}

/// For each octet its value as a digit in lower case, or 255.
static DIGITS: [u8; 256] = digit_table();

const fn digit_table() -> [u8; 256] {
    let mut table = [255; 256];
    let mut value = 0;
    while value < 16 {
        table[b"0123456789abcdef"[value] as usize] = value as u8;
        value += 1;
    }
    table
}

/// Reads lower-case hexadecimal digits into a buffer that is used again; `-` is no octets.
pub fn read_hex<'a>(text: &[u8], octets: &'a mut Vec<u8>) -> Option<&'a [u8]> {
    octets.clear();
    if text == b"-" {
        return Some(octets);
    }
    if text.is_empty() || text.len() % 2 == 1 {
        return None;
    }
    // A digit that is none is found at the end: its value has high bits, which `seen` keeps.
    let mut seen = 0;
    octets.extend(text.chunks_exact(2).map(|digits| {
        let (high, low) = (DIGITS[usize::from(digits[0])], DIGITS[usize::from(digits[1])]);
        seen |= high | low;
        high << 4 | low & 15
    }));
    (seen < 16).then_some(octets)
}

/// Appends octets in lower-case hexadecimal digits.
pub fn push_hex(text: &mut Vec<u8>, octets: &[u8]) {
    if octets.is_empty() {
        text.push(b'-');
    }
    for octet in octets {
        let digits = b"0123456789abcdef";
        text.extend([digits[usize::from(octet >> 4)], digits[usize::from(octet & 15)]]);
    }
}

#[cfg(test)]
mod tests {
    use super::*;

    #[test]
    fn what_is_quoted_is_read_again() {
        let all: Vec<u8> = (0..=255).collect();
        for octets in [&b""[..], b"a b~c", &all] {
            let mut text = Vec::new();
            push_quoted(&mut text, octets);
            assert_eq!(unquote(&text).as_deref(), Some(octets));
        }
        let mut text = Vec::new();
        push_list(&mut text, [&b"a=b"[..], b""].into_iter());
        assert_eq!(text, b"a%3Db,~");
        assert_eq!(unquote_list(&text), Some(vec![b"a=b".to_vec(), Vec::new()]));
    }

    #[test]
    fn other_texts_are_of_no_octets() {
        for text in [&b""[..], b"~a", b"%2", b"%2c", b"%41", b"a b", b"a=", b"\x80"] {
            assert_eq!(unquote(text), None, "{text:?}");
        }
        assert_eq!(unquote_list(b"a,"), None);
    }

    #[test]
    fn hexadecimal_goes_both_ways() {
        let all: Vec<u8> = (0..=255).collect();
        for octets in [&b""[..], &all] {
            let mut text = Vec::new();
            push_hex(&mut text, octets);
            assert_eq!(read_hex(&text, &mut Vec::new()), Some(octets));
        }
        for text in [&b""[..], b"0", b"0A", b"0g", b"--", b"00 "] {
            assert_eq!(read_hex(text, &mut Vec::new()), None, "{text:?}");
        }
    }
}
