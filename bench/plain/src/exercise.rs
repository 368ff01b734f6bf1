//! The exercise: a large journal that is made from a number, and the summary of what a node tells of it.

use crate::events::Counts;
use crate::node::{Command, Input, Node, Settings};
use crate::spelling::{beacon, greeting, push_message, ready, Body};
use crate::Id;

/// The group of all messages.
const GROUP: &[u8] = b"all";

/// Octets of content of a WHISPER or SHOUT.
const CONTENT: usize = 32;

/// A generator of numbers of 32 bits: the upper halves of a linear congruential sequence of 64 bits.
pub struct Draws(u64);

impl Draws {
    pub fn new(seed: u64) -> Draws {
        Draws(seed)
    }

    pub fn draw(&mut self) -> u32 {
        self.0 = self.0.wrapping_mul(6364136223846793005).wrapping_add(1442695040888963407);
        (self.0 >> 32) as u32
    }

    /// Fills octets with draws, four for each. Their count is a multiple of four.
    pub fn fill(&mut self, octets: &mut [u8]) {
        for four in octets.chunks_exact_mut(4) {
            four.copy_from_slice(&self.draw().to_be_bytes());
        }
    }
}

/// The identity of a peer, which are numbered from 0.
fn identity(peer: usize) -> Id {
    (peer as u128 + 1).to_be_bytes()
}

/// The beacon of a peer.
pub fn peer_beacon(peer: usize) -> Vec<u8> {
    beacon(&identity(peer), 49152)
}

/// The greeting and READY of a peer.
pub fn peer_handshake(peer: usize) -> Vec<u8> {
    [&greeting()[..], &ready("DEALER", Some(&identity(peer)))].concat()
}

/// The HELLO of a peer.
pub fn peer_hello(peer: usize) -> Vec<u8> {
    let endpoint = format!("tcp://10.1.0.{peer}:49152");
    let name = format!("p{peer}");
    let mut octets = Vec::new();
    let body = Body::Hello { endpoint: &endpoint, groups: &[], status: 0, name: name.as_bytes(), headers: &[] };
    push_message(&mut octets, 1, &body);
    octets
}

/// One message behind HELLO: whose it is, its octets, and where they are cut into two pieces.
pub struct Talk<'a> {
    pub peer: usize,
    pub octets: &'a [u8],
    pub cut: usize,
}

/// The messages behind HELLO. Each peer in turn sends JOIN, SHOUT, WHISPER and LEAVE, over and over.
pub struct Talks {
    draws: Draws,
    /// How often each peer has joined or left, modulo 256.
    statuses: Vec<u8>,
    /// Whose turn is next, and how many messages that peer has sent.
    peer: usize,
    turn: usize,
    content: [Vec<u8>; 1],
    octets: Vec<u8>,
}

impl Talks {
    pub fn new(seed: u64, peers: usize) -> Talks {
        let content = [vec![0; CONTENT]];
        Talks { draws: Draws::new(seed), statuses: vec![0; peers], peer: 0, turn: 0, content, octets: Vec::new() }
    }

    pub fn next(&mut self) -> Talk<'_> {
        let (peer, turn) = (self.peer, self.turn);
        self.peer += 1;
        if self.peer == self.statuses.len() {
            (self.peer, self.turn) = (0, turn + 1);
        }
        let is_change = turn % 4 == 0 || turn % 4 == 3;
        if is_change {
            self.statuses[peer] = self.statuses[peer].wrapping_add(1);
        } else {
            self.draws.fill(&mut self.content[0]);
        }
        let body = match turn % 4 {
            0 => Body::Join { group: GROUP, status: self.statuses[peer] },
            1 => Body::Shout { group: GROUP, content: &self.content },
            2 => Body::Whisper { content: &self.content },
            _ => Body::Leave { group: GROUP, status: self.statuses[peer] },
        };
        self.octets.clear();
        push_message(&mut self.octets, (2 + turn) as u16, &body);
        let cut = (self.draws.draw() % (self.octets.len() as u32 + 1)) as usize;
        Talk { peer, octets: &self.octets, cut }
    }
}

/// The settings of the node.
pub fn settings() -> Settings {
    Settings {
        id: [0xff; 16],
        name: b"node".to_vec(),
        endpoint: "tcp://10.0.0.1:49152".to_string(),
        headers: Vec::new(),
        evasive: 5000,
        expired: 30000,
    }
}

/// The text of the summary.
pub fn summary(seed: u64, peers: usize, messages: usize) -> String {
    let mut node = Node::new(settings(), Counts::default());
    let mut entries = 0;
    let mut step = |at: usize, input: Input<'_>| {
        entries += 1;
        node.step(at as u64, input);
    };
    for peer in 0..peers {
        let connection = peer as u64 + 1;
        step(0, Input::Datagram(&peer_beacon(peer)));
        step(0, Input::Opened(connection));
        step(0, Input::Piece(connection, &[peer_handshake(peer), peer_hello(peer)].concat()));
    }
    let mut talks = Talks::new(seed, peers);
    for at in 0..messages {
        let Talk { peer, octets, cut } = talks.next();
        let (first, second) = octets.split_at(cut);
        step(at, Input::Piece(peer as u64 + 1, first));
        step(at, Input::Piece(peer as u64 + 1, second));
    }
    step(messages, Input::Do(Command::Quit));
    text(entries, &node.listener)
}

fn text(entries: u64, counts: &Counts) -> String {
    let Counts { enter, join, leave, whisper, shout, exit, content } = counts;
    format!(
        "entries {entries}\nenter {enter}\njoin {join}\nleave {leave}\nwhisper {whisper}\n\
         shout {shout}\nexit {exit}\ncontent {content}\n"
    )
}

#[cfg(test)]
mod tests {
    use super::summary;

    #[test]
    fn three_peers_send_each_kind_of_message() {
        let text = "entries 34\nenter 3\njoin 3\nleave 3\nwhisper 3\nshout 3\nexit 3\ncontent 192\n";
        assert_eq!(summary(7, 3, 12), text);
    }

    #[test]
    fn numbers_go_on_behind_65535() {
        let text = "entries 140004\nenter 1\njoin 17500\nleave 17500\nwhisper 17500\n\
                    shout 17500\nexit 1\ncontent 1120000\n";
        assert_eq!(summary(1, 1, 70000), text);
    }
}
