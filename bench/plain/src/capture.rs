//! Captures: journals as text, a line for each entry.

use crate::limits::LINE_OCTETS;
use crate::node::{Command, Input};
use crate::quoting::{read_hex, read_id, unquote, unquote_list};
use std::net::Ipv4Addr;

/// The first line.
pub const HEAD: &[u8] = b"zre-capture 1";

/// Reads the line of an entry: the clock's reading, and what came. The buffer takes the octets that the line has in
/// hexadecimal.
#[inline]
pub fn read_entry<'a>(line: &[u8], buffer: &'a mut Vec<u8>) -> Option<(u64, Input<'a>)> {
    let (at, rest) = split(line)?;
    let at = number(at)?;
    let (word, fields) = match split(rest) {
        Some((word, fields)) => (word, Some(fields)),
        None => (rest, None),
    };
    Some((at, input(word, fields, buffer)?))
}

fn input<'a>(word: &[u8], fields: Option<&[u8]>, buffer: &'a mut Vec<u8>) -> Option<Input<'a>> {
    Some(match (word, fields) {
        (b"piece", Some(fields)) => {
            let (connection, hex) = split(fields)?;
            Input::Piece(number(connection)?, read_hex(hex, buffer)?)
        }
        (b"reply", Some(fields)) => {
            let (link, hex) = split(fields)?;
            Input::Reply(number(link)?, read_hex(hex, buffer)?)
        }
        (b"datagram", Some(fields)) => {
            let (from, hex) = split(fields)?;
            address(from)?;
            Input::Datagram(read_hex(hex, buffer)?)
        }
        (b"took", Some(fields)) => {
            let (link, count) = split(fields)?;
            Input::Took(number(link)?, number(count)?)
        }
        (b"opened", Some(connection)) => Input::Opened(number(connection)?),
        (b"shut", Some(connection)) => Input::Shut(number(connection)?),
        (b"linked", Some(link)) => Input::Linked(number(link)?),
        (b"unlinked", Some(link)) => Input::Unlinked(number(link)?),
        (b"tick", None) => Input::Tick,
        (b"end", None) => Input::End,
        (b"do", Some(b"quit")) => Input::Do(Command::Quit),
        (b"do", Some(fields)) => Input::Do(command(fields)?),
        _ => return None,
    })
}

fn command(fields: &[u8]) -> Option<Command> {
    let (word, fields) = split(fields)?;
    Some(match word {
        b"join" => Command::Join(unquote(fields)?),
        b"leave" => Command::Leave(unquote(fields)?),
        b"bad" => Command::Bad(number(fields)?),
        b"whisper" => {
            let (id, content) = split(fields)?;
            Command::Whisper(read_id(id)?, unquote_list(content)?)
        }
        b"shout" => {
            let (group, content) = split(fields)?;
            Command::Shout(unquote(group)?, unquote_list(content)?)
        }
        _ => return None,
    })
}

/// The first field and the rest, behind the space between them.
fn split(fields: &[u8]) -> Option<(&[u8], &[u8])> {
    let at = fields.iter().position(|octet| *octet == b' ')?;
    Some((&fields[..at], &fields[at + 1..]))
}

/// A number of 64 bits, decimal and without leading zeros.
fn number(field: &[u8]) -> Option<u64> {
    match field {
        [] | [b'0', _, ..] => None,
        _ => field.iter().try_fold(0u64, |value, digit| {
            let digit = digit.is_ascii_digit().then(|| u64::from(digit - b'0'))?;
            value.checked_mul(10)?.checked_add(digit)
        }),
    }
}

fn address(field: &[u8]) -> Option<Ipv4Addr> {
    let address: Ipv4Addr = std::str::from_utf8(field).ok()?.parse().ok()?;
    (address.to_string().as_bytes() == field).then_some(address)
}

/// What a field may be.
#[derive(Clone, Copy)]
enum Field {
    Mark,
    Format,
    Number,
    Word,
    CommandWord,
    Address,
    Hex,
    Group,
    Frames,
    Identity,
}

impl Field {
    fn accepts(self, field: &[u8]) -> bool {
        match self {
            Field::Mark => field == b"zre-capture",
            Field::Format => field == b"1",
            Field::Number => number(field).is_some(),
            Field::Word => behind_word(field).is_some(),
            Field::CommandWord => behind_command(field).is_some(),
            Field::Address => address(field).is_some(),
            Field::Hex => read_hex(field, &mut Vec::new()).is_some(),
            Field::Group => unquote(field).is_some(),
            Field::Frames => unquote_list(field).is_some(),
            Field::Identity => read_id(field).is_some(),
        }
    }
}

/// The fields that are required behind the word of an entry.
fn behind_word(word: &[u8]) -> Option<&'static [Field]> {
    Some(match word {
        b"datagram" => &[Field::Address, Field::Hex],
        b"piece" | b"reply" => &[Field::Number, Field::Hex],
        b"opened" | b"shut" | b"linked" | b"unlinked" => &[Field::Number],
        b"took" => &[Field::Number, Field::Number],
        b"do" => &[Field::CommandWord],
        b"tick" | b"end" => &[],
        _ => return None,
    })
}

/// The fields that are required behind the word of a command.
fn behind_command(word: &[u8]) -> Option<&'static [Field]> {
    Some(match word {
        b"join" | b"leave" => &[Field::Group],
        b"whisper" => &[Field::Identity, Field::Frames],
        b"shout" => &[Field::Group, Field::Frames],
        b"bad" => &[Field::Number],
        b"quit" => &[],
        _ => return None,
    })
}

/// The column, from 1, at which a refused line is bad: its first field that isn't as required, or behind its end. Of a
/// line that is too long those fields count that are whole within the limit.
#[cold]
pub fn bad_column(line_number: u64, line: &[u8]) -> usize {
    let mut required: &[Field] = match line_number {
        1 => &[Field::Mark, Field::Format],
        _ => &[Field::Number, Field::Word],
    };
    let is_long = line.len() > LINE_OCTETS;
    let line = &line[..line.len().min(LINE_OCTETS + 1)];
    let mut start = 0;
    for field in line.split(|octet| *octet == b' ') {
        let end = start + field.len();
        if is_long && end == line.len() {
            break;
        }
        match required {
            [next, behind @ ..] if next.accepts(field) => {
                required = match next {
                    Field::Word => behind_word(field).unwrap_or(&[]),
                    Field::CommandWord => behind_command(field).unwrap_or(&[]),
                    _ => behind,
                };
            }
            _ => return start + 1,
        }
        start = end + 1;
    }
    if is_long {
        LINE_OCTETS + 1
    } else {
        line.len() + 1
    }
}

#[cfg(test)]
mod tests {
    use super::*;

    #[test]
    fn lines_are_read() {
        let rows: [(&[u8], u64, Input); 8] = [
            (b"0 datagram 10.0.0.2 5a52", 0, Input::Datagram(b"ZR")),
            (b"7 piece 1 -", 7, Input::Piece(1, b"")),
            (b"18446744073709551615 tick", u64::MAX, Input::Tick),
            (b"1 took 2 3", 1, Input::Took(2, 3)),
            (b"1 do join a%20b", 1, Input::Do(Command::Join(b"a b".to_vec()))),
            (b"1 do shout ~ x,~", 1, Input::Do(Command::Shout(vec![], vec![b"x".to_vec(), vec![]]))),
            (b"1 do whisper 11111111111111111111111111111111 %", 1, Input::Do(Command::Whisper([0x11; 16], vec![]))),
            (b"1 do quit", 1, Input::Do(Command::Quit)),
        ];
        for (line, at, input) in rows {
            assert_eq!(read_entry(line, &mut Vec::new()), Some((at, input)), "{}", line.escape_ascii());
        }
    }

    #[test]
    fn a_bad_line_has_its_column() {
        let rows: [(&[u8], usize); 14] = [
            (b"", 1),
            (b"00 tick", 1),
            (b"18446744073709551616 tick", 1),
            (b"5", 2),
            (b"5 tock", 3),
            (b"5 tick ", 8),
            (b"5 piece x 00", 9),
            (b"5 piece 1 0", 11),
            (b"5 piece 1", 10),
            (b"5 piece 1 00 00", 14),
            (b"5 datagram 10.0.0.02 00", 12),
            (b"5 do", 5),
            (b"5 do dance", 6),
            (b"5 do join a=b", 11),
        ];
        for (line, column) in rows {
            assert_eq!(read_entry(line, &mut Vec::new()), None, "{}", line.escape_ascii());
            assert_eq!(bad_column(2, line), column, "{}", line.escape_ascii());
        }
        assert_eq!(bad_column(1, b"zre-capture 2"), 13);
    }

    #[test]
    fn a_line_that_is_too_long_is_bad_behind_the_limit() {
        let line = [b"5 piece 1 ", "0".repeat(LINE_OCTETS).as_bytes()].concat();
        assert_eq!(bad_column(2, &line), LINE_OCTETS + 1);
        assert_eq!(bad_column(2, &[b"5 x ", &line[..]].concat()), 3);
    }
}
