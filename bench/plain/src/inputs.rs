//! Makers of the inputs that are measured. Each writes one input.

use crate::exercise::{peer_beacon, peer_handshake, peer_hello, Draws, Talk, Talks};
use crate::quoting::{push_hex, push_quoted};
use crate::spelling::{greeting, push_message, ready, Body};
use std::io::{self, Write};

/// Octets of the content of each message of [`large_capture`], and of its pieces.
const LARGE_CONTENT: usize = 1000;
const LARGE_PIECE: usize = 60_000;

/// Peers of [`shouts`] and of [`ticks`], the shouts after which each has taken what waits for it, the connections that
/// stay without a peer, and the moment from which on peers are silent.
const PEERS: usize = 256;
const BATCH: usize = 64;
const STRANGERS: usize = 256;
const SILENT: usize = 5000;

/// Names in each HELLO of [`hellos`], and octets of a name.
const NAMES: usize = 80_000;
const NAME_OCTETS: usize = 8;

/// The traffic of a peer of the exercise: HELLO, then so many messages of all kinds.
pub fn traffic(messages: usize, mut out: impl Write) -> io::Result<()> {
    out.write_all(&peer_hello(0))?;
    let mut talks = Talks::new(1, 1);
    for _ in 0..messages {
        out.write_all(talks.next().octets)?;
    }
    out.flush()
}

/// The same as a whole stream, with the greeting and READY first.
pub fn stream(messages: usize, mut out: impl Write) -> io::Result<()> {
    out.write_all(&peer_handshake(0))?;
    traffic(messages, out)
}

/// The traffic of a peer that joins and leaves one group in turn, so many messages after HELLO.
pub fn joins(messages: usize, mut out: impl Write) -> io::Result<()> {
    out.write_all(&peer_hello(0))?;
    let mut octets = Vec::new();
    for at in 0..messages {
        let status = (at + 1) as u8;
        let body = match at % 2 {
            0 => Body::Join { group: b"chat", status },
            _ => Body::Leave { group: b"chat", status },
        };
        octets.clear();
        push_message(&mut octets, (at + 2) as u16, &body);
        out.write_all(&octets)?;
    }
    out.flush()
}

/// The capture of an exercise.
pub fn capture(peers: usize, messages: usize, mut out: impl Write) -> io::Result<()> {
    out.write_all(&introductions(peers))?;
    let mut talks = Talks::new(1, peers);
    let mut lines = Vec::new();
    for at in 0..messages {
        let Talk { peer, octets, cut } = talks.next();
        let (first, second) = octets.split_at(cut);
        lines.clear();
        push_piece(&mut lines, at, peer + 1, first);
        push_piece(&mut lines, at, peer + 1, second);
        out.write_all(&lines)?;
    }
    writeln!(out, "{messages} do quit")?;
    out.flush()
}

/// A capture of one peer that shouts so many messages of 1,000 octets, which come in pieces of 60,000 octets.
pub fn large_capture(messages: usize, mut out: impl Write) -> io::Result<()> {
    out.write_all(&introductions(1))?;
    let mut draws = Draws::new(1);
    let mut content = [vec![0; LARGE_CONTENT]];
    let (mut waiting, mut lines) = (Vec::new(), Vec::new());
    for at in 0..messages {
        draws.fill(&mut content[0]);
        push_message(&mut waiting, (at + 2) as u16, &Body::Shout { group: b"all", content: &content });
        if waiting.len() >= LARGE_PIECE {
            lines.clear();
            push_piece(&mut lines, at, 1, &waiting[..LARGE_PIECE]);
            out.write_all(&lines)?;
            waiting.drain(..LARGE_PIECE);
        }
    }
    lines.clear();
    push_piece(&mut lines, messages, 1, &waiting);
    out.write_all(&lines)?;
    writeln!(out, "{messages} do quit")?;
    out.flush()
}

/// A capture of connections of one peer, each with a HELLO of nearly as many octets as a message may have, full of
/// distinct names of groups: far more than a peer may be in.
pub fn hellos(messages: usize, mut out: impl Write) -> io::Result<()> {
    out.write_all(b"zre-capture 1\n")?;
    let mut draws = Draws::new(1);
    let mut groups = vec![vec![0; NAME_OCTETS]; NAMES];
    let (mut octets, mut lines) = (Vec::new(), Vec::new());
    for at in 0..messages {
        groups.iter_mut().for_each(|name| draws.fill(name));
        octets.clear();
        octets.extend(peer_handshake(0));
        push_message(
            &mut octets,
            1,
            &Body::Hello { endpoint: "tcp://10.1.0.0:49152", groups: &groups, status: 0, name: b"p0", headers: &[] },
        );
        lines.clear();
        lines.extend(format!("{at} opened {}\n", at + 1).bytes());
        push_piece(&mut lines, at, at + 1, &octets);
        out.write_all(&lines)?;
    }
    writeln!(out, "{messages} do quit")?;
    out.flush()
}

/// A capture of so many shouts of 1,000 octets by the user, to a group of 256 peers whose links stand.
pub fn shouts(messages: usize, mut out: impl Write) -> io::Result<()> {
    let mut lines = introductions(PEERS);
    let mut join = Vec::new();
    push_message(&mut join, 2, &Body::Join { group: b"all", status: 1 });
    let replies = [&greeting()[..], &ready("ROUTER", None)].concat();
    for link in 1..=PEERS {
        push_piece(&mut lines, 0, link, &join);
        lines.extend(format!("0 linked {link}\n0 reply {link} ").bytes());
        push_hex(&mut lines, &replies);
        lines.push(b'\n');
    }
    out.write_all(&lines)?;
    let mut draws = Draws::new(1);
    let mut content = vec![0; LARGE_CONTENT];
    for at in 0..messages {
        draws.fill(&mut content);
        lines.clear();
        lines.extend(format!("{at} do shout all ").bytes());
        push_quoted(&mut lines, &content);
        lines.push(b'\n');
        if at % BATCH == BATCH - 1 {
            (1..=PEERS).for_each(|link| lines.extend(format!("{at} took {link} 1000000\n").bytes()));
        }
        out.write_all(&lines)?;
    }
    writeln!(out, "{messages} do quit")?;
    out.flush()
}

/// A capture of so many ticks with 256 peers that are silent, and as many connections of which only a greeting has
/// come.
pub fn ticks(messages: usize, mut out: impl Write) -> io::Result<()> {
    let mut lines = introductions(PEERS);
    for connection in PEERS + 1..=PEERS + STRANGERS {
        lines.extend(format!("0 opened {connection}\n").bytes());
        push_piece(&mut lines, 0, connection, &greeting());
    }
    out.write_all(&lines)?;
    for at in 0..messages {
        writeln!(out, "{} tick", SILENT + at)?;
    }
    writeln!(out, "{} do quit", SILENT + messages)?;
    out.flush()
}

/// The head of a capture, and the entries by which the peers become known and entered.
fn introductions(peers: usize) -> Vec<u8> {
    let mut lines = b"zre-capture 1\n".to_vec();
    for peer in 0..peers {
        lines.extend(format!("0 datagram 10.1.0.{peer} ").bytes());
        push_hex(&mut lines, &peer_beacon(peer));
        lines.extend(format!("\n0 opened {}\n", peer + 1).bytes());
        push_piece(&mut lines, 0, peer + 1, &[peer_handshake(peer), peer_hello(peer)].concat());
    }
    lines
}

fn push_piece(lines: &mut Vec<u8>, at: usize, connection: usize, octets: &[u8]) {
    lines.extend(format!("{at} piece {connection} ").bytes());
    push_hex(lines, octets);
    lines.push(b'\n');
}

#[cfg(test)]
mod tests {
    use super::*;
    use crate::commands::{follow, replay, show, Status};
    use crate::exercise::settings;

    fn lines_of(run: impl FnOnce(&mut Vec<u8>) -> Status) -> Vec<String> {
        let mut text = Vec::new();
        assert_eq!(run(&mut text), Status::Done);
        String::from_utf8(text).unwrap().lines().map(str::to_string).collect()
    }

    fn made(make: impl FnOnce(&mut Vec<u8>) -> io::Result<()>) -> Vec<u8> {
        let mut octets = Vec::new();
        make(&mut octets).unwrap();
        octets
    }

    #[test]
    fn each_message_has_a_line() {
        let id = 1u128.to_be_bytes();
        for octets in [made(|out| traffic(100, out)), made(|out| joins(100, out))] {
            let lines = lines_of(|out| follow(id, &octets[..], out));
            assert_eq!(lines.len(), 101);
            assert!(lines[0].starts_with("ENTER ") && lines[100].starts_with("LEAVE "));
        }
        let octets = made(|out| stream(100, out));
        assert_eq!(lines_of(|out| show(&octets[..], out)).len(), 103);
    }

    #[test]
    fn captures_are_read_to_their_end() {
        let octets = made(|out| capture(3, 100, out));
        let lines = lines_of(|out| replay(settings(), &octets[..], out));
        assert_eq!(lines.len(), 3 + 100 + 3 + 1);
        let octets = made(|out| large_capture(100, out));
        let lines = lines_of(|out| replay(settings(), &octets[..], out));
        assert_eq!(lines.len(), 1 + 100 + 1 + 1);
        assert_eq!(lines.last().unwrap(), "STOP");
        let octets = made(|out| shouts(130, out));
        let lines = lines_of(|out| replay(settings(), &octets[..], out));
        assert_eq!(lines.len(), 256 + 256 + 256 + 1);
        let octets = made(|out| ticks(2, out));
        let lines = lines_of(|out| replay(settings(), &octets[..], out));
        assert_eq!(lines.len(), 256 + 2 * 256 + 256 + 1);
        let octets = made(|out| hellos(3, out));
        let lines = lines_of(|out| replay(settings(), &octets[..], out));
        let due = ["IGNORED 1 Limit", "CLOSED 1 Taken", "IGNORED 2 Limit", "CLOSED 2 Taken", "IGNORED 3 Limit", "STOP"];
        assert_eq!(lines, due);
    }
}
