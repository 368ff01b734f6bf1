//! The work of `zre`'s commands as a plain program in stock Rust, and the makers of the inputs by which both are
//! measured.
//!
//! The commands and their words are those of `zre`. It checks and refuses the same streams, messages and captures, and
//! writes the same lines. Nothing of it is proved.

mod capture;
mod commands;
mod events;
mod exercise;
mod inputs;
mod limits;
mod link;
mod messages;
mod metadata;
mod node;
mod quoting;
mod show;
mod spelling;
mod stream;
mod view;
mod words;

#[cfg(test)]
mod recorded;

use commands::Status;
use std::io::{stdin, stdout, BufWriter, Write};
use std::process::ExitCode;
use words::Task;

/// An identity of a node.
pub type Id = [u8; 16];

fn run(task: Task) -> Status {
    let input = stdin().lock();
    let mut out = stdout().lock();
    match task {
        Task::Follow(id) => commands::follow(id, input, out),
        Task::Show => commands::show(input, out),
        Task::Replay(settings) => commands::replay(settings, input, out),
        Task::Exercise { seed, peers, messages } => {
            let summary = exercise::summary(seed, peers, messages);
            written(out.write_all(summary.as_bytes()))
        }
        Task::Make(input) => {
            let out = BufWriter::with_capacity(1 << 20, out);
            written(match input {
                words::Made::Traffic { messages } => inputs::traffic(messages, out),
                words::Made::Stream { messages } => inputs::stream(messages, out),
                words::Made::Joins { messages } => inputs::joins(messages, out),
                words::Made::Capture { peers, messages } => inputs::capture(peers, messages, out),
                words::Made::LargeCapture { messages } => inputs::large_capture(messages, out),
                words::Made::Shouts { messages } => inputs::shouts(messages, out),
                words::Made::Ticks { messages } => inputs::ticks(messages, out),
                words::Made::Hellos { messages } => inputs::hellos(messages, out),
            })
        }
    }
}

fn written(result: std::io::Result<()>) -> Status {
    match result {
        Ok(()) => Status::Done,
        Err(_) => Status::WriteFault,
    }
}

fn main() -> ExitCode {
    let words: Option<Vec<String>> = std::env::args_os().skip(1).map(|word| word.into_string().ok()).collect();
    let status = match words.as_deref().and_then(words::read) {
        Some(task) => run(task),
        None => {
            println!("USAGE");
            Status::Usage
        }
    };
    ExitCode::from(status as u8)
}
