//! What a node writes: greetings, READY, beacons and the messages of ZRE in frames of the shortest form.

use crate::Id;

/// The greeting of ZMTP 3.0 with the NULL mechanism.
pub fn greeting() -> [u8; 64] {
    let mut octets = [0; 64];
    octets[0] = 0xff;
    octets[9] = 0x7f;
    octets[10] = 3;
    octets[12..16].copy_from_slice(b"NULL");
    octets
}

/// READY of a socket of this type, with an identity or without.
pub fn ready(socket_type: &str, id: Option<&Id>) -> Vec<u8> {
    let mut body = b"\x05READY".to_vec();
    push_property(&mut body, "Socket-Type", socket_type.as_bytes());
    if let Some(id) = id {
        push_property(&mut body, "Identity", &[&[1], &id[..]].concat());
    }
    let mut octets = vec![4, body.len() as u8];
    octets.append(&mut body);
    octets
}

fn push_property(octets: &mut Vec<u8>, name: &str, value: &[u8]) {
    octets.push(name.len() as u8);
    octets.extend_from_slice(name.as_bytes());
    octets.extend_from_slice(&(value.len() as u32).to_be_bytes());
    octets.extend_from_slice(value);
}

/// The beacon of a node.
pub fn beacon(id: &Id, port: u16) -> Vec<u8> {
    [b"ZRE\x01", &id[..], &port.to_be_bytes()].concat()
}

/// The body of a message that is written. Strings have at most 255 octets.
pub enum Body<'a> {
    Hello { endpoint: &'a str, groups: &'a [Vec<u8>], status: u8, name: &'a [u8], headers: &'a [(Vec<u8>, Vec<u8>)] },
    Whisper { content: &'a [Vec<u8>] },
    Shout { group: &'a [u8], content: &'a [Vec<u8>] },
    Join { group: &'a [u8], status: u8 },
    Leave { group: &'a [u8], status: u8 },
    Ping,
    PingOk,
}

impl Body<'_> {
    /// Its number in RFC 36.
    fn command(&self) -> u8 {
        match self {
            Body::Hello { .. } => 1,
            Body::Whisper { .. } => 2,
            Body::Shout { .. } => 3,
            Body::Join { .. } => 4,
            Body::Leave { .. } => 5,
            Body::Ping => 6,
            Body::PingOk => 7,
        }
    }

    /// The frames behind the first one.
    pub fn content(&self) -> &[Vec<u8>] {
        match self {
            Body::Whisper { content } | Body::Shout { content, .. } => content,
            _ => &[],
        }
    }

    /// The octets of the first frame.
    pub fn first_size(&self) -> usize {
        6 + match self {
            Body::Hello { endpoint, groups, name, headers, .. } => {
                let groups: usize = groups.iter().map(|group| 4 + group.len()).sum();
                let headers: usize = headers.iter().map(|(name, value)| 5 + name.len() + value.len()).sum();
                11 + endpoint.len() + groups + name.len() + headers
            }
            Body::Shout { group, .. } => 1 + group.len(),
            Body::Join { group, .. } | Body::Leave { group, .. } => 2 + group.len(),
            Body::Whisper { .. } | Body::Ping | Body::PingOk => 0,
        }
    }

    fn push_fields(&self, octets: &mut Vec<u8>) {
        match self {
            Body::Hello { endpoint, groups, status, name, headers } => {
                push_string(octets, endpoint.as_bytes());
                octets.extend_from_slice(&(groups.len() as u32).to_be_bytes());
                groups.iter().for_each(|group| push_long_string(octets, group));
                octets.push(*status);
                push_string(octets, name);
                octets.extend_from_slice(&(headers.len() as u32).to_be_bytes());
                for (name, value) in *headers {
                    push_string(octets, name);
                    push_long_string(octets, value);
                }
            }
            Body::Shout { group, .. } => push_string(octets, group),
            Body::Join { group, status } | Body::Leave { group, status } => {
                push_string(octets, group);
                octets.push(*status);
            }
            Body::Whisper { .. } | Body::Ping | Body::PingOk => {}
        }
    }
}

fn push_string(octets: &mut Vec<u8>, string: &[u8]) {
    octets.push(string.len() as u8);
    octets.extend_from_slice(string);
}

fn push_long_string(octets: &mut Vec<u8>, string: &[u8]) {
    octets.extend_from_slice(&(string.len() as u32).to_be_bytes());
    octets.extend_from_slice(string);
}

/// A frame's flags and size.
#[inline]
fn push_frame_head(octets: &mut Vec<u8>, more: bool, size: usize) {
    match u8::try_from(size) {
        Ok(size) => octets.extend_from_slice(&[u8::from(more), size]),
        Err(_) => {
            octets.push(u8::from(more) | 2);
            octets.extend_from_slice(&(size as u64).to_be_bytes());
        }
    }
}

/// Appends the frames of a message.
#[inline]
pub fn push_message(octets: &mut Vec<u8>, sequence: u16, body: &Body<'_>) {
    let content = body.content();
    push_frame_head(octets, !content.is_empty(), body.first_size());
    let [high, low] = sequence.to_be_bytes();
    octets.extend_from_slice(&[0xaa, 0xa1, body.command(), 2, high, low]);
    body.push_fields(octets);
    for (at, frame) in content.iter().enumerate() {
        push_frame_head(octets, at + 1 < content.len(), frame.len());
        octets.extend_from_slice(frame);
    }
}

#[cfg(test)]
mod tests {
    use super::*;

    fn spelled(sequence: u16, body: &Body<'_>) -> Vec<u8> {
        let mut octets = Vec::new();
        push_message(&mut octets, sequence, body);
        octets
    }

    #[test]
    fn messages_have_their_one_spelling() {
        let endpoint = "tcp://10.0.0.2:49152";
        let hello = Body::Hello { endpoint, groups: &[], status: 0, name: b"Ann", headers: &[] };
        let due = b"\x00\x28\xaa\xa1\x01\x02\x00\x01\x14tcp://10.0.0.2:49152\0\0\0\0\0\x03Ann\0\0\0\0";
        assert_eq!(spelled(1, &hello), due);
        let join = Body::Join { group: b"chat", status: 1 };
        assert_eq!(spelled(2, &join), b"\x00\x0c\xaa\xa1\x04\x02\x00\x02\x04chat\x01");
        let shout = Body::Shout { group: b"g", content: &[b"hi".to_vec(), vec![]] };
        assert_eq!(spelled(3, &shout), b"\x01\x08\xaa\xa1\x03\x02\x00\x03\x01g\x01\x02hi\x00\x00");
        let long = Body::Whisper { content: &[vec![7; 256]] };
        let head = b"\x01\x06\xaa\xa1\x02\x02\x00\x04\x02\0\0\0\0\0\0\x01\0";
        assert_eq!(spelled(4, &long), [&head[..], &[7; 256]].concat());
    }
}
