//! What the user asks.

use super::{Command, Node};
use crate::events::{Event, Listener, RefuseWhy};
use crate::limits::{GROUP_OCTETS, MESSAGE_FRAMES, MESSAGE_OCTETS, OWN_GROUPS};
use crate::spelling::Body;
use crate::Id;

impl<L: Listener> Node<L> {
    #[cold]
    pub(super) fn command(&mut self, command: Command) {
        let done = match &command {
            Command::Join(group) => self.join(group),
            Command::Leave(group) => self.leave(group),
            Command::Whisper(id, content) => self.whisper(id, content),
            Command::Shout(group, content) => self.shout(group, content),
            Command::Bad(number) => Err(RefuseWhy::BadLine(*number)),
            Command::Quit => {
                self.stop();
                Ok(())
            }
        };
        if let Err(why) = done {
            self.listener.tell(Event::Refused(why));
        }
    }

    fn join<'a>(&mut self, group: &'a Vec<u8>) -> Result<(), RefuseWhy<'a>> {
        if group.len() > GROUP_OCTETS {
            return Err(RefuseWhy::TooBig);
        }
        if self.groups.contains(group) {
            return Err(RefuseWhy::Same(group));
        }
        if self.groups.len() == OWN_GROUPS {
            return Err(RefuseWhy::Limit(group));
        }
        self.groups.push(group.clone());
        self.status = self.status.wrapping_add(1);
        self.push_to(self.peers.numbers(|_| true), &Body::Join { group, status: self.status });
        Ok(())
    }

    fn leave<'a>(&mut self, group: &'a Vec<u8>) -> Result<(), RefuseWhy<'a>> {
        let at = self.groups.iter().position(|joined| joined == group).ok_or(RefuseWhy::NoGroup(group))?;
        self.groups.remove(at);
        self.status = self.status.wrapping_add(1);
        self.push_to(self.peers.numbers(|_| true), &Body::Leave { group, status: self.status });
        Ok(())
    }

    fn whisper<'a>(&mut self, id: &'a Id, content: &[Vec<u8>]) -> Result<(), RefuseWhy<'a>> {
        let entered = self.peer_of(id).filter(|(_, slot)| self.peers[*slot].run.is_some());
        let (number, slot) = entered.ok_or(RefuseWhy::NoPeer(id))?;
        let body = Body::Whisper { content };
        if is_too_big(&body) {
            return Err(RefuseWhy::TooBig);
        }
        self.push(number, slot, &body);
        Ok(())
    }

    fn shout<'a>(&mut self, group: &'a [u8], content: &[Vec<u8>]) -> Result<(), RefuseWhy<'a>> {
        let body = Body::Shout { group, content };
        if group.len() > GROUP_OCTETS || is_too_big(&body) {
            return Err(RefuseWhy::TooBig);
        }
        self.push_to(self.peers.numbers(|peer| peer.view().is_some_and(|view| view.has_group(group))), &body);
        Ok(())
    }

    /// Puts a message on the links of these peers.
    fn push_to(&mut self, numbers: Vec<u64>, body: &Body<'_>) {
        for number in numbers {
            if let Some(slot) = self.peers.slot(number) {
                self.push(number, slot, body);
            }
        }
    }
}

/// Whether a message passes the limits of frames or octets.
fn is_too_big(body: &Body<'_>) -> bool {
    let content = body.content();
    let octets: usize = content.iter().map(Vec::len).sum();
    1 + content.len() > MESSAGE_FRAMES || body.first_size() + octets > MESSAGE_OCTETS
}
