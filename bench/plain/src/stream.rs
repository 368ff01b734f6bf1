//! Streams of ZMTP 3 with the NULL mechanism (RFC 23), read in pieces of any size.
//!
//! The reader looks at frames where they lie, in the caller's piece. It keeps only what a piece leaves unfinished: the
//! octets behind the last item. Commands that come between the frames of a message aren't kept with it.

use crate::limits::{COMMAND_OCTETS, MESSAGE_FRAMES, MESSAGE_OCTETS};
use crate::metadata;
use std::borrow::Cow;
use std::ops::Range;

/// Octets of a greeting.
pub const GREETING: usize = 64;

/// Bits of a frame's flags octet.
const MORE: u8 = 1;
const LONG: u8 = 2;

/// Why a stream is refused, and the place of the octet or frame that is at fault, counted from the stream's first
/// octet.
#[derive(Clone, Copy, Debug, PartialEq)]
pub struct Fault {
    pub why: &'static str,
    pub place: u64,
}

/// What was read. Ranges are of the octets at hand.
#[derive(Debug, PartialEq)]
pub enum Item {
    Greeting {
        major: u8,
        minor: u8,
    },
    /// The size of its body, where its properties stand, and its place in the stream.
    Ready {
        size: usize,
        properties: Range<usize>,
        place: u64,
    },
    /// Any other command: the size of its body, and where its name stands.
    Command {
        size: usize,
        name: Range<usize>,
    },
    /// A whole message, which [`Reader::message`] gives until the next item is asked for.
    Message,
}

/// The bodies of the frames of one message; there is at least one.
#[derive(Clone, Copy)]
pub struct Frames<'a> {
    octets: &'a [u8],
    bodies: &'a [Range<usize>],
}

impl<'a> Frames<'a> {
    pub fn first(&self) -> &'a [u8] {
        &self.octets[self.bodies[0].clone()]
    }

    /// All but the first.
    pub fn rest(&self) -> Frames<'a> {
        Frames { octets: self.octets, bodies: &self.bodies[1..] }
    }

    pub fn len(&self) -> usize {
        self.bodies.len()
    }

    /// The sum of the lengths.
    pub fn total(&self) -> usize {
        self.bodies.iter().map(|body| body.len()).sum()
    }

    pub fn iter(&self) -> impl Iterator<Item = &'a [u8]> + '_ {
        self.bodies.iter().map(|body| &self.octets[body.clone()])
    }
}

#[derive(Clone, Copy, Default, PartialEq)]
enum Expected {
    #[default]
    Greeting,
    Ready,
    Traffic,
}

/// A reader of one stream. Hand it a piece by [`Reader::take_up`], ask for the items until there is none, and give the
/// octets back by [`Reader::put_by`].
#[derive(Default)]
pub struct Reader {
    expected: Expected,
    /// The octets behind the last item.
    kept: Vec<u8>,
    /// The place in the stream of the first octet at hand.
    place: u64,
    /// In the octets at hand, how many are done with, and where the next part begins.
    done: usize,
    position: usize,
    /// The frames of the message under way that lie in the octets at hand.
    frames: Vec<Range<usize>>,
    /// Those in front of a command that came between: their bodies, and where each stands in them.
    bodies: Vec<u8>,
    carried: Vec<Range<usize>>,
    /// The octets of the bodies of the message under way.
    size: usize,
    /// The message was given, so the next frame begins another.
    given: bool,
}

impl Reader {
    /// A reader of a whole stream: greeting, READY, traffic.
    pub fn stream() -> Reader {
        Reader::default()
    }

    /// A reader of the traffic alone.
    pub fn traffic() -> Reader {
        Reader { expected: Expected::Traffic, ..Reader::default() }
    }

    /// The octets to look at: those kept, and the piece.
    pub fn take_up<'a>(&mut self, piece: &'a [u8]) -> Cow<'a, [u8]> {
        if self.kept.is_empty() {
            Cow::Borrowed(piece)
        } else {
            let mut octets = std::mem::take(&mut self.kept);
            octets.extend_from_slice(piece);
            Cow::Owned(octets)
        }
    }

    /// Keeps what is unfinished, once there is no further item.
    pub fn put_by(&mut self, octets: Cow<'_, [u8]>) {
        let done = std::mem::take(&mut self.done);
        match octets {
            Cow::Borrowed(piece) => self.kept.extend_from_slice(&piece[done..]),
            Cow::Owned(mut octets) => {
                octets.drain(..done);
                self.kept = octets;
            }
        }
        if done > 0 {
            self.place += done as u64;
            self.position -= done;
            for body in &mut self.frames {
                *body = body.start - done..body.end - done;
            }
        }
    }

    /// Whether the octets so far end behind an item, and no message is unfinished.
    pub fn at_rest(&self) -> bool {
        self.kept.is_empty() && self.frames.is_empty() && self.carried.is_empty()
    }

    /// The message that was read last.
    #[inline]
    pub fn message<'a>(&'a self, octets: &'a [u8]) -> Frames<'a> {
        if self.carried.is_empty() {
            Frames { octets, bodies: &self.frames }
        } else {
            Frames { octets: &self.bodies, bodies: &self.carried }
        }
    }

    /// The next item of the octets at hand.
    #[inline]
    pub fn next(&mut self, octets: &[u8]) -> Result<Option<Item>, Fault> {
        if self.given {
            self.forget_message();
        }
        if self.expected == Expected::Greeting {
            return self.greeting(octets);
        }
        while let Some(&flags) = octets.get(self.position) {
            match flags {
                0..=3 => match self.message_frame(flags, octets)? {
                    None => return Ok(None),
                    Some(false) => {}
                    Some(true) => return Ok(Some(Item::Message)),
                },
                4 | 6 => return self.command(octets),
                _ => return Err(self.fault("Flags")),
            }
        }
        Ok(None)
    }

    fn fault(&self, why: &'static str) -> Fault {
        Fault { why, place: self.place + self.position as u64 }
    }

    fn forget_message(&mut self) {
        self.frames.clear();
        self.carried.clear();
        self.bodies.clear();
        self.size = 0;
        self.given = false;
    }

    /// Copies the bodies of the message under way, so that their octets are done with.
    #[cold]
    fn carry(&mut self, octets: &[u8]) {
        for body in self.frames.drain(..) {
            let start = self.bodies.len();
            self.bodies.extend_from_slice(&octets[body]);
            self.carried.push(start..self.bodies.len());
        }
    }

    /// Where the body of the frame at the position stands, by its size field, if that is there.
    #[inline]
    fn body_size(&self, octets: &[u8]) -> Option<(usize, u64)> {
        let field = self.position + 1;
        if octets[self.position] & LONG == 0 {
            Some((field + 1, u64::from(*octets.get(field)?)))
        } else {
            let size = octets.get(field..field + 8)?;
            Some((field + 8, u64::from_be_bytes(size.try_into().unwrap())))
        }
    }

    /// Takes a frame of a message; tells whether it is the last one, or nothing where the frame isn't whole.
    #[inline]
    fn message_frame(&mut self, flags: u8, octets: &[u8]) -> Result<Option<bool>, Fault> {
        if self.expected == Expected::Ready {
            return Err(self.fault("Order"));
        }
        if self.frames.len() + self.carried.len() == MESSAGE_FRAMES {
            return Err(self.fault("TooManyFrames"));
        }
        let Some((start, size)) = self.body_size(octets) else { return Ok(None) };
        if size > (MESSAGE_OCTETS - self.size) as u64 {
            return Err(self.fault("TooLarge"));
        }
        let end = start + size as usize;
        if end > octets.len() {
            return Ok(None);
        }
        self.position = end;
        self.size += size as usize;
        self.frames.push(start..end);
        if flags & MORE != 0 {
            return Ok(Some(false));
        }
        if !self.carried.is_empty() {
            self.carry(octets);
        }
        self.done = end;
        self.given = true;
        Ok(Some(true))
    }

    #[cold]
    fn greeting(&mut self, octets: &[u8]) -> Result<Option<Item>, Fault> {
        for (place, &octet) in octets.iter().take(GREETING).enumerate() {
            let why = match place {
                0 if octet != 0xff => "Signature",
                9 if octet != 0x7f => "Signature",
                10 if octet < 3 => "OldVersion",
                12..=31 if octet != *b"NULL".get(place - 12).unwrap_or(&0) => "Mechanism",
                _ => continue,
            };
            return Err(Fault { why, place: place as u64 });
        }
        if octets.len() < GREETING {
            return Ok(None);
        }
        self.position = GREETING;
        self.done = GREETING;
        self.expected = Expected::Ready;
        Ok(Some(Item::Greeting { major: octets[10], minor: octets[11] }))
    }

    #[cold]
    fn command(&mut self, octets: &[u8]) -> Result<Option<Item>, Fault> {
        let Some((start, size)) = self.body_size(octets) else { return Ok(None) };
        if size > COMMAND_OCTETS {
            return Err(self.fault("TooLarge"));
        }
        let size = size as usize;
        let Some(body) = octets.get(start..start + size) else { return Ok(None) };
        let Some(name) = command_name(body) else { return Err(self.fault("CommandName")) };
        let (name_start, name_end) = (start + 1, start + 1 + name.len());
        let item = if self.expected == Expected::Ready {
            self.judge_ready(name, &octets[name_end..start + size])?;
            self.expected = Expected::Traffic;
            let place = self.place + self.position as u64;
            Item::Ready { size, properties: name_end..start + size, place }
        } else {
            Item::Command { size, name: name_start..name_end }
        };
        self.carry(octets);
        self.position = start + size;
        self.done = self.position;
        Ok(Some(item))
    }

    fn judge_ready(&self, name: &[u8], properties: &[u8]) -> Result<(), Fault> {
        match name {
            b"ERROR" => Err(self.fault("PeerError")),
            b"READY" if metadata::is_metadata(properties) => Ok(()),
            b"READY" => Err(self.fault("Metadata")),
            _ => Err(self.fault("Order")),
        }
    }
}

/// The name of a command, by its body: an octet of length, which isn't 0, and so many octets.
fn command_name(body: &[u8]) -> Option<&[u8]> {
    let (&length, rest) = body.split_first()?;
    if length == 0 {
        return None;
    }
    rest.get(..usize::from(length))
}

#[cfg(test)]
mod tests {
    use super::*;
    use crate::spelling::{greeting, ready};

    /// The items of a stream that comes in pieces of so many octets: what is read, and the fault or whether it is at
    /// rest.
    fn read(mut reader: Reader, stream: &[u8], size: usize) -> (Vec<Vec<Vec<u8>>>, Result<bool, Fault>) {
        let mut messages = Vec::new();
        for piece in stream.chunks(size) {
            let octets = reader.take_up(piece);
            loop {
                match reader.next(&octets) {
                    Ok(Some(Item::Message)) => {
                        let message = reader.message(&octets);
                        messages.push(message.iter().map(<[u8]>::to_vec).collect());
                    }
                    Ok(Some(_)) => {}
                    Ok(None) => break,
                    Err(fault) => return (messages, Err(fault)),
                }
            }
            reader.put_by(octets);
        }
        (messages, Ok(reader.at_rest()))
    }

    #[test]
    fn a_stream_in_any_cut_gives_the_same_messages() {
        let mut stream = [&greeting()[..], &ready("DEALER", Some(&[7; 16]))].concat();
        stream.extend_from_slice(b"\x01\x02ab\x04\x05\x04PING\x02\0\0\0\0\0\0\0\x01c\x00\x00\x00\x01d");
        let expected: Vec<Vec<Vec<u8>>> = vec![vec![b"ab".to_vec(), b"c".to_vec()], vec![vec![]], vec![b"d".to_vec()]];
        for size in 1..=stream.len() {
            assert_eq!(read(Reader::stream(), &stream, size), (expected.clone(), Ok(true)), "in pieces of {size}");
        }
    }

    #[test]
    fn an_unfinished_message_is_not_at_rest() {
        for stream in [&b"\x01\x02ab"[..], b"\x00", b"\x00\x01", b"\x01\x00\x04\x05\x04PING"] {
            assert_eq!(read(Reader::traffic(), stream, 1), (vec![], Ok(false)), "{stream:?}");
        }
    }

    #[test]
    fn each_fault_has_its_place() {
        let ready = ready("DEALER", None);
        let rows: [(&[&[u8]], &str, u64); 11] = [
            (&[b"\x00"], "Signature", 0),
            (&[&greeting()[..9], b"\x00"], "Signature", 9),
            (&[&greeting()[..10], b"\x02"], "OldVersion", 10),
            (&[&greeting()[..12], b"NULX"], "Mechanism", 15),
            (&[&greeting(), b"\x00"], "Order", 64),
            (&[&greeting(), b"\x04\x01\x00"], "CommandName", 64),
            (&[&greeting(), b"\x04\x06\x05ERROR"], "PeerError", 64),
            (&[&greeting(), b"\x04\x05\x04PING"], "Order", 64),
            (&[&greeting(), b"\x04\x07\x05READY\x01"], "Metadata", 64),
            (&[&greeting(), &ready, b"\x05"], "Flags", 64 + ready.len() as u64),
            (&[&greeting(), &ready, b"\x02\0\0\0\0\0\x10\0\x01"], "TooLarge", 64 + ready.len() as u64),
        ];
        for (parts, why, place) in rows {
            for size in [1, 1000] {
                assert_eq!(read(Reader::stream(), &parts.concat(), size).1, Err(Fault { why, place }), "{why}");
            }
        }
    }

    #[test]
    fn a_message_has_at_most_1024_frames() {
        let stream = b"\x01\x00".repeat(1024);
        assert_eq!(read(Reader::traffic(), &stream, 100).1, Ok(false));
        let more = [&stream[..], b"\x00"].concat();
        assert_eq!(read(Reader::traffic(), &more, 100).1, Err(Fault { why: "TooManyFrames", place: 2048 }));
    }
}
