//! What comes on a connection.

use super::{Node, Role};
use crate::events::{Cause, CloseWhy, Event, Listener};
use crate::limits::PEERS;
use crate::messages::{Body, Message};
use crate::metadata::property;
use crate::spelling::Body as Written;
use crate::stream::{Fault, Item};
use crate::view::View;
use crate::Id;

impl<L: Listener> Node<L> {
    /// Takes octets of a connection, as long as it is read.
    #[inline]
    pub(super) fn piece(&mut self, number: u64, piece: &[u8]) {
        let Some(slot) = self.connections.slot(number) else { return };
        let connection = &mut self.connections[slot];
        if connection.is_ignored() {
            return;
        }
        let octets = connection.reader.take_up(piece);
        loop {
            let taken = match self.connections[slot].reader.next(&octets) {
                Ok(Some(Item::Message)) if !self.message(number, slot, &octets) => return,
                Ok(Some(Item::Ready { properties, place, .. })) => self.introduced(slot, &octets[properties], place),
                Ok(Some(_)) => Ok(()),
                Ok(None) => return self.connections[slot].reader.put_by(octets),
                Err(fault) => Err(fault),
            };
            if let Err(fault) = taken {
                return self.close(number, Cause::Fault, Some(CloseWhy::Zmtp(fault)));
            }
        }
    }

    /// READY tells the peer's identity. An older connection with the same one is closed.
    #[cold]
    fn introduced(&mut self, slot: usize, properties: &[u8], place: u64) -> Result<(), Fault> {
        if property(properties, "Socket-Type") != Some(b"DEALER") {
            return Err(Fault { why: "SocketType", place });
        }
        let id = match property(properties, "Identity") {
            Some([1, id @ ..]) => Id::try_from(id).ok().filter(|id| *id != self.settings.id),
            _ => None,
        };
        let id = id.ok_or(Fault { why: "Identity", place })?;
        if let Some((older, _)) = self.connections.find(|connection| connection.identity == Some(id)) {
            self.close(older, Cause::Taken, Some(CloseWhy::Taken));
        }
        self.connections[slot].identity = Some(id);
        Ok(())
    }

    /// Takes a message; tells whether the connection is still read. One without a meaning is dropped.
    #[inline]
    fn message(&mut self, number: u64, slot: usize, octets: &[u8]) -> bool {
        let connection = &self.connections[slot];
        let Role::Running { peer: peer_number, slot: peer_slot } = connection.role else {
            return self.first_message(number, slot, octets);
        };
        let Ok(message) = Message::read(connection.reader.message(octets)) else { return true };
        let peer = &mut self.peers[peer_slot];
        let Some((view, _)) = &mut peer.run else { unreachable!("a connection runs an entered peer") };
        if let Err(cause) = view.take(&message, &mut self.listener) {
            self.end(peer_number, cause);
            return false;
        }
        peer.active = self.clock;
        if let Body::Ping = message.body {
            self.push(peer_number, peer_slot, &Written::PingOk);
            return !self.connections[slot].is_ignored();
        }
        true
    }

    /// The first message of a connection starts a run, or the connection is ignored from now on.
    #[cold]
    fn first_message(&mut self, number: u64, slot: usize, octets: &[u8]) -> bool {
        let connection = &self.connections[slot];
        let Ok(message) = Message::read(connection.reader.message(octets)) else { return true };
        let id = connection.identity.expect("messages come behind READY");
        let known = self.peer_of(&id);
        let started = View::begin(&id, &message).and_then(|view| match known {
            None if !is_endpoint(view.endpoint()) => Err("NoEndpoint"),
            None if self.peers.len() == PEERS => Err("Full"),
            _ => Ok(view),
        });
        match started {
            Ok(view) => {
                view.tell_entered(&mut self.listener);
                let (peer, peer_slot) = known.unwrap_or_else(|| self.birth(id));
                self.peers[peer_slot].active = self.clock;
                self.peers[peer_slot].run = Some((view, slot));
                self.connections[slot].role = Role::Running { peer, slot: peer_slot };
                true
            }
            Err(why) => {
                self.listener.tell(Event::Ignored { connection: number, why });
                self.ignore(slot);
                false
            }
        }
    }
}

/// Whether octets are `tcp://`, an IPv4 address, a colon and a port other than 0, in their one spelling.
fn is_endpoint(octets: &[u8]) -> bool {
    let parts = || {
        let (host, port) = std::str::from_utf8(octets).ok()?.strip_prefix("tcp://")?.split_once(':')?;
        Some((host.parse::<std::net::Ipv4Addr>().ok()?, port.parse::<u16>().ok()?))
    };
    parts().is_some_and(|(host, port)| port != 0 && format!("tcp://{host}:{port}").as_bytes() == octets)
}

#[cfg(test)]
mod tests {
    use super::is_endpoint;

    #[test]
    fn an_endpoint_has_one_spelling() {
        assert!(is_endpoint(b"tcp://10.0.0.2:49152"));
        for octets in [
            &b""[..],
            b"tcp://10.0.0:1",
            b"tcp://10.0.0.02:1",
            b"tcp://10.0.0.2:0",
            b"tcp://10.0.0.2:+1",
            b"tcp://10.0.0.2:65536",
            b"tcp://a:1",
        ] {
            assert!(!is_endpoint(octets), "{octets:?}");
        }
    }
}
