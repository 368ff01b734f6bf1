//! What a node tells its user, as lines or as counts.

use crate::quoting::{push_id, push_list, push_pairs, push_quoted};
use crate::stream::{Fault, Frames};
use crate::view::View;
use crate::Id;
use std::fmt::{self, Display, Formatter};
use std::io::Write;

/// Why a peer ended.
#[derive(Clone, Copy, Debug, PartialEq)]
pub enum Cause {
    Beacon,
    Expired,
    Link,
    Reply(Fault),
    Slow { unsent: usize, size: usize },
    Shut,
    Fault,
    Taken,
    Hello,
    Order { due: u16, got: u16 },
    Limit,
    Stop,
}

impl Display for Cause {
    fn fmt(&self, f: &mut Formatter<'_>) -> fmt::Result {
        match self {
            Cause::Beacon => f.write_str("beacon"),
            Cause::Expired => f.write_str("expired"),
            Cause::Link => f.write_str("link"),
            Cause::Reply(fault) => write!(f, "reply {} {}", fault.why, fault.place),
            Cause::Slow { unsent, size } => write!(f, "slow {unsent} {size}"),
            Cause::Shut => f.write_str("shut"),
            Cause::Fault => f.write_str("fault"),
            Cause::Taken => f.write_str("taken"),
            Cause::Hello => f.write_str("hello"),
            Cause::Order { due, got } => write!(f, "order {due} {got}"),
            Cause::Limit => f.write_str("limit"),
            Cause::Stop => f.write_str("stop"),
        }
    }
}

/// Why a connection was closed.
#[derive(Clone, Copy)]
pub enum CloseWhy {
    Zmtp(Fault),
    TooMany,
    Timeout,
    Taken,
}

/// Why a command of the user wasn't done.
#[derive(Clone, Copy)]
pub enum RefuseWhy<'a> {
    NoPeer(&'a Id),
    TooBig,
    NoGroup(&'a [u8]),
    Same(&'a [u8]),
    Limit(&'a [u8]),
    BadLine(u64),
}

pub enum Event<'a> {
    Enter { peer: &'a View },
    Join { peer: &'a View, group: &'a [u8] },
    Leave { peer: &'a View, group: &'a [u8] },
    Whisper { peer: &'a View, content: Frames<'a> },
    Shout { peer: &'a View, group: &'a [u8], content: Frames<'a> },
    Evasive { peer: &'a View },
    Exit { peer: &'a View, cause: Cause },
    Closed { connection: u64, why: CloseWhy },
    Ignored { connection: u64, why: &'static str },
    Refused(RefuseWhy<'a>),
    Stop,
}

/// Whoever is told.
pub trait Listener {
    fn tell(&mut self, event: Event<'_>);
}

/// How many events of each kind there were, and how many octets their content had.
#[derive(Debug, Default, PartialEq)]
pub struct Counts {
    pub enter: u64,
    pub join: u64,
    pub leave: u64,
    pub whisper: u64,
    pub shout: u64,
    pub exit: u64,
    pub content: u64,
}

impl Listener for Counts {
    #[inline]
    fn tell(&mut self, event: Event<'_>) {
        match event {
            Event::Enter { .. } => self.enter += 1,
            Event::Join { .. } => self.join += 1,
            Event::Leave { .. } => self.leave += 1,
            Event::Whisper { content, .. } => {
                self.whisper += 1;
                self.content += content.total() as u64;
            }
            Event::Shout { content, .. } => {
                self.shout += 1;
                self.content += content.total() as u64;
            }
            Event::Exit { .. } => self.exit += 1,
            _ => {}
        }
    }
}

/// The lines of the events.
#[derive(Default)]
pub struct Lines {
    pub text: Vec<u8>,
}

impl Listener for Lines {
    #[inline]
    fn tell(&mut self, event: Event<'_>) {
        match event {
            Event::Join { peer, group } => self.group_line("JOIN ", peer, group),
            Event::Leave { peer, group } => self.group_line("LEAVE ", peer, group),
            Event::Whisper { peer, content } => {
                self.begin("WHISPER ", peer);
                self.end_with(|text| push_list(text, content.iter()));
            }
            Event::Shout { peer, group, content } => {
                self.begin("SHOUT ", peer);
                self.text.push(b' ');
                push_quoted(&mut self.text, group);
                self.end_with(|text| push_list(text, content.iter()));
            }
            rare => self.rare_line(rare),
        }
    }
}

impl Lines {
    /// The word of the event, the peer's identity and its name.
    #[inline]
    fn begin(&mut self, word: &str, peer: &View) {
        self.text.extend_from_slice(word.as_bytes());
        self.text.extend_from_slice(peer.title());
    }

    /// A last field.
    #[inline]
    fn end_with(&mut self, push: impl FnOnce(&mut Vec<u8>)) {
        self.text.push(b' ');
        push(&mut self.text);
        self.text.push(b'\n');
    }

    #[inline]
    fn group_line(&mut self, word: &str, peer: &View, group: &[u8]) {
        self.begin(word, peer);
        self.end_with(|text| push_quoted(text, group));
    }

    #[cold]
    fn rare_line(&mut self, event: Event<'_>) {
        match event {
            Event::Enter { peer } => {
                self.begin("ENTER ", peer);
                self.text.push(b' ');
                push_quoted(&mut self.text, peer.endpoint());
                self.end_with(|text| push_pairs(text, peer.headers()));
            }
            Event::Evasive { peer } => {
                self.begin("EVASIVE ", peer);
                self.text.push(b'\n');
            }
            Event::Exit { peer, cause } => {
                self.begin("EXIT ", peer);
                self.write(format_args!(" {cause}\n"));
            }
            Event::Closed { connection, why } => match why {
                CloseWhy::Zmtp(Fault { why, place }) => self.write(format_args!("CLOSED {connection} {why} {place}\n")),
                CloseWhy::TooMany => self.write(format_args!("CLOSED {connection} TooMany\n")),
                CloseWhy::Timeout => self.write(format_args!("CLOSED {connection} Timeout\n")),
                CloseWhy::Taken => self.write(format_args!("CLOSED {connection} Taken\n")),
            },
            Event::Ignored { connection, why } => self.write(format_args!("IGNORED {connection} {why}\n")),
            Event::Refused(why) => self.refused_line(why),
            Event::Stop => self.write(format_args!("STOP\n")),
            _ => unreachable!("the frequent events have their lines in `tell`"),
        }
    }

    fn refused_line(&mut self, why: RefuseWhy<'_>) {
        self.text.extend_from_slice(b"REFUSED ");
        match why {
            RefuseWhy::NoPeer(id) => {
                self.text.extend_from_slice(b"NOPEER ");
                push_id(&mut self.text, id);
            }
            RefuseWhy::TooBig => self.text.extend_from_slice(b"TOOBIG"),
            RefuseWhy::NoGroup(group) => self.refused_group("NOGROUP ", group),
            RefuseWhy::Same(group) => self.refused_group("SAME ", group),
            RefuseWhy::Limit(group) => self.refused_group("LIMIT ", group),
            RefuseWhy::BadLine(number) => self.write(format_args!("BADLINE {number}")),
        }
        self.text.push(b'\n');
    }

    fn refused_group(&mut self, word: &str, group: &[u8]) {
        self.text.extend_from_slice(word.as_bytes());
        push_quoted(&mut self.text, group);
    }

    fn write(&mut self, line: fmt::Arguments<'_>) {
        self.text.write_fmt(line).expect("a vector takes all that is written");
    }
}
