//! The commands over an input: each reads it to its end and writes lines.

use crate::capture::{bad_column, read_entry, HEAD};
use crate::events::{Event, Lines, Listener};
use crate::limits::LINE_OCTETS;
use crate::messages::Message;
use crate::node::{Node, Settings};
use crate::show::push_item;
use crate::stream::{Fault, Item, Reader};
use crate::view::View;
use crate::Id;
use std::io::{BufRead, BufReader, Read, Write};

/// Octets of a piece that is read, and of text that is written.
const PIECE: usize = 1 << 16;

/// How a command ended; the number is the exit status.
#[derive(Clone, Copy, Debug, PartialEq)]
pub enum Status {
    Done = 0,
    Usage = 2,
    BadInput = 3,
    ReadFault = 4,
    WriteFault = 5,
}

/// What is made of the octets of a stream.
trait Machine {
    /// Takes a piece and appends its lines.
    fn feed(&mut self, piece: &[u8], lines: &mut Lines) -> Result<(), Fault>;

    /// Whether the input may end here.
    fn may_end(&self) -> bool;
}

/// Reads the input to its end and writes the lines of each piece. The last line of an input that is refused is its
/// place.
fn pump(mut input: impl Read, mut out: impl Write, mut machine: impl Machine) -> Status {
    let mut lines = Lines::default();
    let mut buffer = vec![0; PIECE];
    let mut total = 0;
    loop {
        let Ok(count) = input.read(&mut buffer) else { return Status::ReadFault };
        total += count as u64;
        let bad_place = if count == 0 {
            (!machine.may_end()).then_some(total)
        } else {
            machine.feed(&buffer[..count], &mut lines).err().map(|fault| fault.place)
        };
        if let Some(place) = bad_place {
            lines.text.extend(format!("BADINPUT {place}\n").bytes());
        }
        if out.write_all(&lines.text).is_err() {
            return Status::WriteFault;
        }
        lines.text.clear();
        if bad_place.is_some() {
            return Status::BadInput;
        }
        if count == 0 {
            return Status::Done;
        }
    }
}

/// The events of one connection of a peer, behind its handshake.
struct Follower {
    id: Id,
    reader: Reader,
    view: Option<View>,
    /// The run has ended; what follows isn't looked at.
    over: bool,
}

impl Follower {
    /// Takes a message; tells whether the run goes on.
    #[inline]
    fn take(&mut self, octets: &[u8], lines: &mut Lines) -> bool {
        let Ok(message) = Message::read(self.reader.message(octets)) else { return true };
        let Some(view) = &mut self.view else { return self.begin(octets, lines) };
        match view.take(&message, lines) {
            Ok(()) => true,
            Err(cause) => {
                lines.tell(Event::Exit { peer: view, cause });
                false
            }
        }
    }

    #[cold]
    fn begin(&mut self, octets: &[u8], lines: &mut Lines) -> bool {
        let Ok(message) = Message::read(self.reader.message(octets)) else { return true };
        match View::begin(&self.id, &message) {
            Ok(view) => {
                view.tell_entered(lines);
                self.view = Some(view);
                true
            }
            Err(why) => {
                lines.tell(Event::Ignored { connection: 1, why });
                false
            }
        }
    }
}

impl Machine for Follower {
    fn feed(&mut self, piece: &[u8], lines: &mut Lines) -> Result<(), Fault> {
        if self.over {
            return Ok(());
        }
        let octets = self.reader.take_up(piece);
        while let Some(item) = self.reader.next(&octets)? {
            if item == Item::Message && !self.take(&octets, lines) {
                self.over = true;
                return Ok(());
            }
        }
        self.reader.put_by(octets);
        Ok(())
    }

    fn may_end(&self) -> bool {
        self.over || self.reader.at_rest()
    }
}

/// The items of a whole stream.
struct Shower(Reader);

impl Machine for Shower {
    fn feed(&mut self, piece: &[u8], lines: &mut Lines) -> Result<(), Fault> {
        let octets = self.0.take_up(piece);
        while let Some(item) = self.0.next(&octets)? {
            push_item(&mut lines.text, &item, &self.0, &octets);
        }
        self.0.put_by(octets);
        Ok(())
    }

    fn may_end(&self) -> bool {
        self.0.at_rest()
    }
}

/// `follow`: the events of the traffic of one connection of this peer.
pub fn follow(id: Id, input: impl Read, out: impl Write) -> Status {
    pump(input, out, Follower { id, reader: Reader::traffic(), view: None, over: false })
}

/// `show`: what is in a stream.
pub fn show(input: impl Read, out: impl Write) -> Status {
    pump(input, out, Shower(Reader::stream()))
}

/// `replay`: the events of a node, from a capture.
pub fn replay(settings: Settings, input: impl Read, mut out: impl Write) -> Status {
    let mut input = BufReader::with_capacity(PIECE, input);
    let mut node = Node::new(settings, Lines::default());
    let (mut line, mut buffer) = (Vec::new(), Vec::new());
    for number in 1.. {
        line.clear();
        let Ok(count) = input.by_ref().take(LINE_OCTETS as u64 + 1).read_until(b'\n', &mut line) else {
            return Status::ReadFault;
        };
        if count == 0 && number > 1 {
            break;
        }
        let good = line.pop_if(|octet| *octet == b'\n').is_some() && take_line(number, &line, &mut buffer, &mut node);
        let text = &mut node.listener.text;
        if !good {
            text.extend(format!("BADINPUT {number} {}\n", bad_column(number, &line)).bytes());
        }
        if !good || text.len() >= PIECE {
            if out.write_all(text).is_err() {
                return Status::WriteFault;
            }
            text.clear();
        }
        if !good {
            return Status::BadInput;
        }
    }
    match out.write_all(&node.listener.text) {
        Ok(()) => Status::Done,
        Err(_) => Status::WriteFault,
    }
}

/// Tells the node the entry of a line, if it is one's.
#[inline]
fn take_line(number: u64, line: &[u8], buffer: &mut Vec<u8>, node: &mut Node<Lines>) -> bool {
    if number == 1 {
        return line == HEAD;
    }
    match read_entry(line, buffer) {
        Some((at, input)) => {
            node.step(at, input);
            true
        }
        None => false,
    }
}
