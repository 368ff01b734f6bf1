//! What the clock does: silent peers and connections without a run.

use super::{Connection, Node, Role};
use crate::events::{Cause, CloseWhy, Event, Listener};
use crate::spelling::Body;

impl<L: Listener> Node<L> {
    #[cold]
    pub(super) fn tick(&mut self) {
        let (clock, evasive, expired) = (self.clock, self.settings.evasive, self.settings.expired);
        for number in self.peers.numbers(|peer| clock - peer.active >= expired) {
            self.end(number, Cause::Expired);
        }
        for number in self.peers.numbers(|peer| clock - peer.active >= evasive) {
            self.falter(number);
        }
        let is_stale = |connection: &Connection| {
            let is_running = matches!(connection.role, Role::Running { .. });
            !is_running && clock - connection.since >= expired
        };
        for number in self.connections.numbers(is_stale) {
            self.close(number, Cause::Expired, Some(CloseWhy::Timeout));
        }
    }

    /// An entered peer is silent: that is told, and PING is put on its link.
    fn falter(&mut self, number: u64) {
        let Some(slot) = self.peers.slot(number) else { return };
        if let Some(peer) = self.peers[slot].view() {
            self.listener.tell(Event::Evasive { peer });
            self.push(number, slot, &Body::Ping);
        }
    }
}
