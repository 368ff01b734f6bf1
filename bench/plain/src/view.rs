//! One peer as its messages show it, and the rules that its messages keep to.

use crate::events::{Cause, Event, Listener};
use crate::limits::{GROUPS, GROUP_OCTETS, HEADERS};
use crate::messages::{Body, Hello, Message};
use crate::quoting::{push_id, push_quoted};
use crate::Id;

/// What is known of an entered peer.
pub struct View {
    /// The digits of its identity, a space and its quoted name, as they stand in each of its lines.
    title: Vec<u8>,
    endpoint: Vec<u8>,
    headers: Vec<(Vec<u8>, Vec<u8>)>,
    /// In the order in which it joined them first.
    groups: Vec<Vec<u8>>,
    /// How many of its messages were counted, modulo 65,536.
    counted: u16,
}

impl View {
    /// The view that the first message of a run sets: HELLO with number 1, within the limits.
    pub fn begin(id: &Id, message: &Message<'_>) -> Result<View, &'static str> {
        let Message { sequence: 1, body: Body::Hello(hello) } = message else {
            return Err("NotHello");
        };
        let mut title = Vec::new();
        push_id(&mut title, id);
        title.push(b' ');
        push_quoted(&mut title, hello.name);
        let groups = distinct_groups(hello).ok_or("Limit")?;
        let headers = first_headers(hello).ok_or("Limit")?;
        Ok(View { title, endpoint: hello.endpoint.to_vec(), headers, groups, counted: 1 })
    }

    pub fn title(&self) -> &[u8] {
        &self.title
    }

    pub fn endpoint(&self) -> &[u8] {
        &self.endpoint
    }

    pub fn headers(&self) -> impl Iterator<Item = (&[u8], &[u8])> {
        self.headers.iter().map(|(name, value)| (&name[..], &value[..]))
    }

    pub fn has_group(&self, group: &[u8]) -> bool {
        self.groups.iter().any(|joined| joined == group)
    }

    /// Tells what the first message told.
    pub fn tell_entered(&self, listener: &mut impl Listener) {
        listener.tell(Event::Enter { peer: self });
        for group in &self.groups {
            listener.tell(Event::Join { peer: self, group });
        }
    }

    /// Counts a later message and tells its event, or refuses it with the cause by which the peer ends.
    #[inline(always)]
    pub fn take(&mut self, message: &Message<'_>, listener: &mut impl Listener) -> Result<(), Cause> {
        if let Body::Hello(_) = message.body {
            return Err(Cause::Hello);
        }
        let due = self.counted.wrapping_add(1);
        if message.sequence != due {
            return Err(Cause::Order { due, got: message.sequence });
        }
        match message.body {
            Body::Join { group, .. } => {
                self.join(group)?;
                listener.tell(Event::Join { peer: self, group });
            }
            Body::Leave { group, .. } => {
                self.groups.retain(|joined| joined != group);
                listener.tell(Event::Leave { peer: self, group });
            }
            Body::Whisper { content } => listener.tell(Event::Whisper { peer: self, content }),
            Body::Shout { group, content } => listener.tell(Event::Shout { peer: self, group, content }),
            Body::Hello(_) | Body::Ping | Body::PingOk | Body::Other { .. } => {}
        }
        self.counted = due;
        Ok(())
    }

    fn join(&mut self, group: &[u8]) -> Result<(), Cause> {
        if !self.has_group(group) {
            if self.groups.len() == GROUPS {
                return Err(Cause::Limit);
            }
            self.groups.push(group.to_vec());
        }
        Ok(())
    }
}

/// The distinct groups of a HELLO in the order of their first occurrence, where they keep to the limits.
fn distinct_groups(hello: &Hello<'_>) -> Option<Vec<Vec<u8>>> {
    let mut groups: Vec<Vec<u8>> = Vec::new();
    for group in &hello.groups {
        if group.len() > GROUP_OCTETS {
            return None;
        }
        if !groups.iter().any(|joined| joined == group) {
            if groups.len() == GROUPS {
                return None;
            }
            groups.push(group.to_vec());
        }
    }
    Some(groups)
}

/// The headers of a HELLO, the first of equal names each, where they keep to the limit.
fn first_headers(hello: &Hello<'_>) -> Option<Vec<(Vec<u8>, Vec<u8>)>> {
    let mut headers: Vec<(Vec<u8>, Vec<u8>)> = Vec::new();
    for (name, value) in &hello.headers {
        if !headers.iter().any(|(before, _)| before == name) {
            if headers.len() == HEADERS {
                return None;
            }
            headers.push((name.to_vec(), value.to_vec()));
        }
    }
    Some(headers)
}
