//! The properties of READY (RFC 23): each an octet of length and a name, four octets of length and a value.

/// A name and a value.
type Property<'a> = (&'a [u8], &'a [u8]);

/// The first property of a list, and the octets behind it.
fn split(list: &[u8]) -> Option<(Property<'_>, &[u8])> {
    let (&length, rest) = list.split_first()?;
    let (name, rest) = rest.split_at_checked(usize::from(length))?;
    let (size, rest) = rest.split_first_chunk::<4>()?;
    let (value, rest) = rest.split_at_checked(u32::from_be_bytes(*size) as usize)?;
    Some(((name, value), rest))
}

fn is_name(name: &[u8]) -> bool {
    !name.is_empty() && name.iter().all(|octet| octet.is_ascii_alphanumeric() || b"-_.+".contains(octet))
}

/// Whether these octets are a list of properties.
pub fn is_metadata(mut list: &[u8]) -> bool {
    while !list.is_empty() {
        match split(list) {
            Some(((name, _), rest)) if is_name(name) => list = rest,
            _ => return false,
        }
    }
    true
}

/// The value of the first property of this name, without regard to case.
pub fn property<'a>(mut list: &'a [u8], wanted: &str) -> Option<&'a [u8]> {
    while let Some(((name, value), rest)) = split(list) {
        if name.eq_ignore_ascii_case(wanted.as_bytes()) {
            return Some(value);
        }
        list = rest;
    }
    None
}

#[cfg(test)]
mod tests {
    use super::*;

    const LIST: &[u8] = b"\x0bSocket-Type\0\0\0\x06DEALER\x08Identity\0\0\0\0\x0bSOCKET-TYPE\0\0\0\x01x";

    #[test]
    fn the_first_of_two_equal_names_counts() {
        assert!(is_metadata(LIST));
        assert_eq!(property(LIST, "socket-type"), Some(&b"DEALER"[..]));
        assert_eq!(property(LIST, "Identity"), Some(&b""[..]));
        assert_eq!(property(LIST, "Resource"), None);
    }

    #[test]
    fn what_is_no_list_is_refused() {
        assert!(is_metadata(b""));
        for list in [&b"\0\0\0\0\0"[..], b"\x01", b"\x01a\0\0\0", b"\x01a\0\0\0\x02b", b"\x01 \0\0\0\0"] {
            assert!(!is_metadata(list), "{list:?}");
        }
    }
}
