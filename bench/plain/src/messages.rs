//! The messages of ZRE (RFC 36), read from the frames of a message of ZMTP. Nothing is copied.

use crate::stream::Frames;

/// Why frames have no meaning: the reason, the frame, and the octet in it.
#[derive(Clone, Copy, Debug, PartialEq)]
pub struct Bad {
    pub why: &'static str,
    pub frame: usize,
    pub place: usize,
}

/// A message with its number.
pub struct Message<'a> {
    pub sequence: u16,
    pub body: Body<'a>,
}

pub enum Body<'a> {
    Hello(Box<Hello<'a>>),
    Whisper {
        content: Frames<'a>,
    },
    Shout {
        group: &'a [u8],
        content: Frames<'a>,
    },
    Join {
        group: &'a [u8],
        status: u8,
    },
    Leave {
        group: &'a [u8],
        status: u8,
    },
    Ping,
    PingOk,
    /// A command that RFC 36 doesn't name.
    Other {
        number: u8,
    },
}

pub struct Hello<'a> {
    pub endpoint: &'a [u8],
    pub groups: Vec<&'a [u8]>,
    pub status: u8,
    pub name: &'a [u8],
    pub headers: Vec<(&'a [u8], &'a [u8])>,
}

impl<'a> Message<'a> {
    /// The meaning of some frames.
    #[inline(always)]
    pub fn read(frames: Frames<'a>) -> Result<Message<'a>, Bad> {
        let first = frames.first();
        let [0xaa, 0xa1, command, 2, high, low, fields @ ..] = first else {
            return Err(bad_header(first));
        };
        let mut fields = Fields(fields);
        let Some(body) = fields.body(*command, frames) else {
            return Err(Bad { why: "Short", frame: 0, place: first.len() });
        };
        if !fields.0.is_empty() {
            return Err(Bad { why: "Trailing", frame: 0, place: first.len() - fields.0.len() });
        }
        let may_have_more = matches!(body, Body::Whisper { .. } | Body::Shout { .. } | Body::Other { .. });
        if frames.len() > 1 && !may_have_more {
            return Err(Bad { why: "ExtraFrames", frame: 1, place: 0 });
        }
        Ok(Message { sequence: u16::from_be_bytes([*high, *low]), body })
    }
}

/// What is wrong with the first six octets. An octet that isn't there makes the frame short only.
#[cold]
fn bad_header(first: &[u8]) -> Bad {
    let (why, place) = match first {
        [octet, ..] if *octet != 0xaa => ("Signature", 0),
        [_, octet, ..] if *octet != 0xa1 => ("Signature", 1),
        [_, _, _, octet, ..] if *octet != 2 => ("Version", 3),
        _ => ("Short", first.len()),
    };
    Bad { why, frame: 0, place }
}

/// The octets behind the fields read so far.
struct Fields<'a>(&'a [u8]);

impl<'a> Fields<'a> {
    #[inline]
    fn take(&mut self, count: usize) -> Option<&'a [u8]> {
        let (taken, rest) = self.0.split_at_checked(count)?;
        self.0 = rest;
        Some(taken)
    }

    #[inline]
    fn octet(&mut self) -> Option<u8> {
        self.take(1).map(|octets| octets[0])
    }

    #[inline]
    fn number(&mut self) -> Option<usize> {
        self.take(4).map(|octets| u32::from_be_bytes(octets.try_into().unwrap()) as usize)
    }

    #[inline]
    fn string(&mut self) -> Option<&'a [u8]> {
        let length = self.octet()?;
        self.take(usize::from(length))
    }

    fn long_string(&mut self) -> Option<&'a [u8]> {
        let length = self.number()?;
        self.take(length)
    }

    #[inline(always)]
    fn body(&mut self, command: u8, frames: Frames<'a>) -> Option<Body<'a>> {
        Some(match command {
            1 => self.hello()?,
            2 => Body::Whisper { content: frames.rest() },
            3 => Body::Shout { group: self.string()?, content: frames.rest() },
            4 => Body::Join { group: self.string()?, status: self.octet()? },
            5 => Body::Leave { group: self.string()?, status: self.octet()? },
            6 => Body::Ping,
            7 => Body::PingOk,
            number => {
                self.0 = &[];
                Body::Other { number }
            }
        })
    }

    // The counts are a stranger's, so the lists grow with what is really there.
    #[cold]
    fn hello(&mut self) -> Option<Body<'a>> {
        let endpoint = self.string()?;
        let groups = (0..self.number()?).map(|_| self.long_string()).collect::<Option<_>>()?;
        let status = self.octet()?;
        let name = self.string()?;
        let count = self.number()?;
        let headers = (0..count).map(|_| Some((self.string()?, self.long_string()?))).collect::<Option<_>>()?;
        Some(Body::Hello(Box::new(Hello { endpoint, groups, status, name, headers })))
    }
}
