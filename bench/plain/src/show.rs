//! The lines of `show`: one for each greeting, command and message of a stream.

use crate::messages::{Body, Hello, Message};
use crate::quoting::{push_list, push_pairs, push_quoted};
use crate::stream::{Frames, Item, Reader};
use std::io::Write;

macro_rules! push {
    ($text:expr, $($format:tt)*) => {
        write!($text, $($format)*).expect("a vector takes all that is written")
    };
}

/// Appends the line of an item that the reader has read in these octets.
pub fn push_item(text: &mut Vec<u8>, item: &Item, reader: &Reader, octets: &[u8]) {
    match item {
        Item::Greeting { major, minor } => push!(text, "greeting {major}.{minor}"),
        Item::Ready { size, .. } => push!(text, "command READY {size}"),
        Item::Command { size, name } => {
            text.extend_from_slice(b"command ");
            push_quoted(text, &octets[name.clone()]);
            push!(text, " {size}");
        }
        Item::Message => push_message(text, reader.message(octets)),
    }
    text.push(b'\n');
}

fn push_message(text: &mut Vec<u8>, frames: Frames<'_>) {
    push!(text, "message {} {} ", frames.len(), frames.total());
    let message = match Message::read(frames) {
        Ok(message) => message,
        Err(bad) => return push!(text, "BAD {} {} {}", bad.why, bad.frame, bad.place),
    };
    let sequence = message.sequence;
    match message.body {
        Body::Hello(hello) => push_hello(text, sequence, &hello),
        Body::Whisper { content } => {
            push!(text, "WHISPER {sequence} ");
            push_list(text, content.iter());
        }
        Body::Shout { group, content } => {
            push!(text, "SHOUT {sequence} ");
            push_quoted(text, group);
            text.push(b' ');
            push_list(text, content.iter());
        }
        Body::Join { group, status } => push_change(text, "JOIN", sequence, group, status),
        Body::Leave { group, status } => push_change(text, "LEAVE", sequence, group, status),
        Body::Ping => push!(text, "PING {sequence}"),
        Body::PingOk => push!(text, "PING-OK {sequence}"),
        Body::Other { number } => push!(text, "OTHER {sequence} {number}"),
    }
}

fn push_change(text: &mut Vec<u8>, word: &str, sequence: u16, group: &[u8], status: u8) {
    push!(text, "{word} {sequence} ");
    push_quoted(text, group);
    push!(text, " {status}");
}

fn push_hello(text: &mut Vec<u8>, sequence: u16, hello: &Hello<'_>) {
    push!(text, "HELLO {sequence} ");
    push_quoted(text, hello.endpoint);
    text.push(b' ');
    push_list(text, hello.groups.iter().copied());
    push!(text, " {} ", hello.status);
    push_quoted(text, hello.name);
    text.push(b' ');
    push_pairs(text, hello.headers.iter().copied());
}
