//! The core of a node: what each entry of a journal does to its peers and connections, and what it tells its user.
//!
//! It makes no acts, since no command here carries them out: nothing is sent.

mod arrivals;
mod commands;
mod table;
mod ticks;

#[cfg(test)]
mod tests;

use crate::events::{Cause, CloseWhy, Event, Listener};
use crate::limits::{CONNECTIONS, PEERS};
use crate::link::{Link, Slow};
use crate::spelling::Body;
use crate::stream::Reader;
use crate::view::View;
use crate::Id;
use table::Table;

/// With what a node is made. Times are milliseconds.
pub struct Settings {
    pub id: Id,
    pub name: Vec<u8>,
    /// `tcp://`, the host, a colon and the port.
    pub endpoint: String,
    pub headers: Vec<(Vec<u8>, Vec<u8>)>,
    pub evasive: u64,
    pub expired: u64,
}

/// What the outside tells a node, or its user asks of it.
#[derive(Debug, PartialEq)]
pub enum Input<'a> {
    Datagram(&'a [u8]),
    Opened(u64),
    Piece(u64, &'a [u8]),
    Shut(u64),
    Linked(u64),
    Reply(u64, &'a [u8]),
    Unlinked(u64),
    Took(u64, u64),
    Tick,
    Do(Command),
    End,
}

/// What the user asks.
#[derive(Debug, PartialEq)]
pub enum Command {
    Join(Vec<u8>),
    Leave(Vec<u8>),
    Whisper(Id, Vec<Vec<u8>>),
    Shout(Vec<u8>, Vec<Vec<u8>>),
    Bad(u64),
    Quit,
}

/// A known peer.
struct Peer {
    id: Id,
    /// The clock when it last showed that it is there.
    active: u64,
    link: Link,
    /// Its run, while it is entered: what is known of it, and the slot of the connection.
    run: Option<(View, usize)>,
}

impl Peer {
    fn view(&self) -> Option<&View> {
        self.run.as_ref().map(|(view, _)| view)
    }
}

/// What a connection is for.
#[derive(Clone, Copy)]
enum Role {
    /// Its first message hasn't come.
    Waiting,
    /// It runs the peer with this number, in this slot.
    Running { peer: u64, slot: usize },
    /// What comes on it has no effect any more.
    Ignored,
}

/// An open connection.
struct Connection {
    identity: Option<Id>,
    role: Role,
    /// The clock when it was opened or, where it is ignored, became so.
    since: u64,
    reader: Reader,
}

impl Connection {
    fn is_ignored(&self) -> bool {
        matches!(self.role, Role::Ignored)
    }
}

pub struct Node<L> {
    settings: Settings,
    clock: u64,
    /// Under the numbers of their births, which are those of their links.
    peers: Table<Peer>,
    births: u64,
    connections: Table<Connection>,
    /// The highest number that a connection has had.
    highest: Option<u64>,
    groups: Vec<Vec<u8>>,
    status: u8,
    stopped: bool,
    /// Whom it tells.
    pub listener: L,
}

impl<L: Listener> Node<L> {
    pub fn new(settings: Settings, listener: L) -> Node<L> {
        Node {
            settings,
            clock: 0,
            peers: Table::new(),
            births: 0,
            connections: Table::new(),
            highest: None,
            groups: Vec::new(),
            status: 0,
            stopped: false,
            listener,
        }
    }

    /// Takes an entry: the clock's reading and what came. Once the node has stopped nothing has an effect.
    #[inline]
    pub fn step(&mut self, at: u64, input: Input<'_>) {
        if self.stopped {
            return;
        }
        self.clock = self.clock.max(at);
        match input {
            Input::Piece(connection, piece) => self.piece(connection, piece),
            Input::Datagram(octets) => self.datagram(octets),
            Input::Opened(number) => self.opened(number),
            Input::Shut(number) => self.close(number, Cause::Shut, None),
            Input::Linked(link) => {
                if let Some(slot) = self.peers.slot(link) {
                    self.peers[slot].link.linked();
                }
            }
            Input::Reply(link, piece) => self.reply(link, piece),
            Input::Unlinked(link) => self.end(link, Cause::Link),
            Input::Took(link, count) => {
                if let Some(slot) = self.peers.slot(link) {
                    self.peers[slot].link.took(count);
                }
            }
            Input::Tick => self.tick(),
            Input::Do(Command::Quit) | Input::End => self.stop(),
            Input::Do(command) => self.command(command),
        }
    }

    /// The number and the slot of the peer with this identity.
    fn peer_of(&self, id: &Id) -> Option<(u64, usize)> {
        self.peers.find(|peer| peer.id == *id)
    }

    /// A peer is known from now on. HELLO stands on its new link. Its number and slot are answered.
    fn birth(&mut self, id: Id) -> (u64, usize) {
        self.births += 1;
        let mut link = Link::new(&self.settings.id);
        let hello = Body::Hello {
            endpoint: &self.settings.endpoint,
            groups: &self.groups,
            status: self.status,
            name: &self.settings.name,
            headers: &self.settings.headers,
        };
        link.push(&hello).expect("the HELLO of a valid node fits a new link");
        let slot = self.peers.insert(self.births, Peer { id, active: self.clock, link, run: None });
        (self.births, slot)
    }

    /// A peer ends, if it is known: an entered one is told, and its connection is ignored from now on.
    #[cold]
    fn end(&mut self, number: u64, cause: Cause) {
        let Some(peer) = self.peers.remove(number) else { return };
        if let Some((view, connection)) = &peer.run {
            self.listener.tell(Event::Exit { peer: view, cause });
            self.ignore(*connection);
        }
    }

    /// What comes on a connection has no effect any more, and nothing of it is kept.
    fn ignore(&mut self, slot: usize) {
        let connection = &mut self.connections[slot];
        connection.role = Role::Ignored;
        connection.since = self.clock;
        connection.reader = Reader::traffic();
    }

    /// Closes a connection, if it is open; the peer that it runs ends first.
    fn close(&mut self, number: u64, cause: Cause, why: Option<CloseWhy>) {
        let Some(slot) = self.connections.slot(number) else { return };
        if let Role::Running { peer, .. } = self.connections[slot].role {
            self.end(peer, cause);
        }
        self.connections.remove(number);
        if let Some(why) = why {
            self.listener.tell(Event::Closed { connection: number, why });
        }
    }

    /// Puts a message on the link of a peer, by its number and slot. One that is too slow ends.
    fn push(&mut self, number: u64, slot: usize, body: &Body<'_>) {
        if let Err(Slow { unsent, size }) = self.peers[slot].link.push(body) {
            self.end(number, Cause::Slow { unsent, size });
        }
    }

    fn datagram(&mut self, octets: &[u8]) {
        let [b'Z', b'R', b'E', 1, id @ .., high, low] = octets else { return };
        let Ok(id) = Id::try_from(id) else { return };
        let port = u16::from_be_bytes([*high, *low]);
        match self.peer_of(&id) {
            Some((number, _)) if port == 0 => self.end(number, Cause::Beacon),
            Some((_, slot)) => self.peers[slot].active = self.clock,
            None if port != 0 && id != self.settings.id && self.peers.len() < PEERS => {
                self.birth(id);
            }
            None => {}
        }
    }

    fn opened(&mut self, number: u64) {
        if self.highest.is_some_and(|highest| number <= highest) {
            return;
        }
        self.highest = Some(number);
        if self.connections.len() == CONNECTIONS {
            self.listener.tell(Event::Closed { connection: number, why: CloseWhy::TooMany });
            return;
        }
        let reader = Reader::stream();
        let connection = Connection { identity: None, role: Role::Waiting, since: self.clock, reader };
        self.connections.insert(number, connection);
    }

    fn reply(&mut self, link: u64, piece: &[u8]) {
        let Some(slot) = self.peers.slot(link) else { return };
        if let Err(fault) = self.peers[slot].link.reply(piece) {
            self.end(link, Cause::Reply(fault));
        }
    }

    fn stop(&mut self) {
        for number in self.peers.numbers(|_| true) {
            self.end(number, Cause::Stop);
        }
        self.connections = Table::new();
        self.listener.tell(Event::Stop);
        self.stopped = true;
    }
}
