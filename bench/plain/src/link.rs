//! The outgoing connection to one peer: what waits, what may go out, what came back.

use crate::limits::UNSENT_OCTETS;
use crate::metadata::property;
use crate::spelling::{greeting, push_message, ready, Body};
use crate::stream::{Fault, Item, Reader};
use crate::Id;
use std::collections::VecDeque;

/// Octets that go out before the other end's greeting, and before its READY.
const BEFORE_GREETING: usize = 64;
const BEFORE_READY: usize = 124;

pub struct Link {
    /// What was put on it and hasn't gone out, and how many octets have.
    waiting: VecDeque<u8>,
    gone: usize,
    /// How many of all its octets may go out, as far as the other end has answered.
    gate: usize,
    linked: bool,
    /// The number of the last message.
    sequence: u16,
    replies: Reader,
    /// Where a message is spelled.
    spelled: Vec<u8>,
}

/// A message would leave too many octets waiting.
#[derive(Debug, PartialEq)]
pub struct Slow {
    pub unsent: usize,
    pub size: usize,
}

impl Link {
    /// The greeting and READY stand on it.
    pub fn new(own: &Id) -> Link {
        let mut waiting = VecDeque::from(greeting().to_vec());
        waiting.extend(ready("DEALER", Some(own)));
        Link { waiting, gone: 0, gate: 0, linked: false, sequence: 0, replies: Reader::stream(), spelled: Vec::new() }
    }

    /// Puts a message with the next number on it.
    pub fn push(&mut self, body: &Body<'_>) -> Result<(), Slow> {
        let sequence = self.sequence.wrapping_add(1);
        self.spelled.clear();
        push_message(&mut self.spelled, sequence, body);
        let (unsent, size) = (self.waiting.len(), self.spelled.len());
        if unsent + size > UNSENT_OCTETS {
            return Err(Slow { unsent, size });
        }
        self.waiting.extend(&self.spelled);
        self.sequence = sequence;
        Ok(())
    }

    /// The connection stands.
    pub fn linked(&mut self) {
        if !self.linked {
            self.linked = true;
            self.gate = BEFORE_GREETING;
        }
    }

    /// Takes octets that came back. On a link that doesn't stand they mean nothing.
    pub fn reply(&mut self, piece: &[u8]) -> Result<(), Fault> {
        if !self.linked {
            return Ok(());
        }
        let octets = self.replies.take_up(piece);
        while let Some(item) = self.replies.next(&octets)? {
            match item {
                Item::Greeting { .. } => self.gate = BEFORE_READY,
                Item::Ready { properties, place, .. } => {
                    if property(&octets[properties], "Socket-Type") != Some(b"ROUTER") {
                        return Err(Fault { why: "SocketType", place });
                    }
                    self.gate = usize::MAX;
                }
                Item::Command { .. } | Item::Message => {}
            }
        }
        self.replies.put_by(octets);
        Ok(())
    }

    /// So many octets have gone out, as far as they may.
    pub fn took(&mut self, count: u64) {
        let most = (self.gate.saturating_sub(self.gone)).min(self.waiting.len());
        let count = usize::try_from(count).unwrap_or(most).min(most);
        self.waiting.drain(..count);
        self.gone += count;
    }
}

#[cfg(test)]
mod tests {
    use super::*;

    #[test]
    fn what_goes_out_waits_for_the_other_end() {
        let mut link = Link::new(&[0xff; 16]);
        link.push(&Body::Ping).unwrap();
        let mut waits = |step: &mut dyn FnMut(&mut Link)| {
            step(&mut link);
            link.took(u64::MAX);
            link.waiting.len()
        };
        assert_eq!(waits(&mut |_| {}), 132);
        assert_eq!(waits(&mut |link| link.linked()), 68);
        assert_eq!(waits(&mut |link| link.reply(&greeting()).unwrap()), 8);
        assert_eq!(waits(&mut |link| link.reply(&ready("ROUTER", None)).unwrap()), 0);
    }

    #[test]
    fn a_reply_must_come_from_a_router() {
        let mut link = Link::new(&[0xff; 16]);
        link.linked();
        let octets = [&greeting()[..], &ready("DEALER", None)].concat();
        assert_eq!(link.reply(&octets), Err(Fault { why: "SocketType", place: 64 }));
    }

    #[test]
    fn at_most_four_mebioctets_wait() {
        let mut link = Link::new(&[0xff; 16]);
        let content = [vec![0; 4 * 1024 * 1024 - 124 - 17]];
        link.push(&Body::Whisper { content: &content }).unwrap();
        assert_eq!(link.push(&Body::Ping), Err(Slow { unsent: 4 * 1024 * 1024, size: 8 }));
    }
}
