//! The words of the command line: the name of a command, then `key=value` in any order.

use crate::node::Settings;
use crate::quoting::push_id;
use crate::Id;
use std::net::Ipv4Addr;

/// What is to be done.
pub enum Task {
    Follow(Id),
    Show,
    Replay(Settings),
    Exercise { seed: u64, peers: usize, messages: usize },
    Make(Made),
}

/// An input that is made. These are no commands of `zre`.
pub enum Made {
    Traffic { messages: usize },
    Stream { messages: usize },
    Joins { messages: usize },
    Capture { peers: usize, messages: usize },
    LargeCapture { messages: usize },
    Shouts { messages: usize },
    Ticks { messages: usize },
    Hellos { messages: usize },
}

/// The task of some words, if they are one.
pub fn read(words: &[String]) -> Option<Task> {
    let (name, words) = words.split_first()?;
    let mut words = Words::read(words)?;
    let task = match name.as_str() {
        "follow" => Task::Follow(id(words.value("id")?)?),
        "show" => Task::Show,
        "replay" => Task::Replay(settings(&mut words)?),
        "exercise" => Task::Exercise {
            seed: number(words.value("seed")?)?,
            peers: peers(&mut words)?,
            messages: messages(&mut words).filter(|messages| *messages <= 1_000_000)?,
        },
        "make-traffic" => Task::Make(Made::Traffic { messages: messages(&mut words)? }),
        "make-stream" => Task::Make(Made::Stream { messages: messages(&mut words)? }),
        "make-joins" => Task::Make(Made::Joins { messages: messages(&mut words)? }),
        "make-capture" => Task::Make(Made::Capture { peers: peers(&mut words)?, messages: messages(&mut words)? }),
        "make-large-capture" => Task::Make(Made::LargeCapture { messages: messages(&mut words)? }),
        "make-shouts" => Task::Make(Made::Shouts { messages: messages(&mut words)? }),
        "make-ticks" => Task::Make(Made::Ticks { messages: messages(&mut words)? }),
        "make-hellos" => Task::Make(Made::Hellos { messages: messages(&mut words)? }),
        _ => return None,
    };
    words.0.is_empty().then_some(task)
}

/// The words that were not looked at yet.
struct Words<'a>(Vec<(&'a str, &'a str)>);

impl<'a> Words<'a> {
    fn read(words: &'a [String]) -> Option<Words<'a>> {
        words.iter().map(|word| word.split_once('=')).collect::<Option<_>>().map(Words)
    }

    /// Takes the first word of a key. A second one is left, so the words are refused.
    fn value(&mut self, key: &str) -> Option<&'a str> {
        let at = self.0.iter().position(|word| word.0 == key)?;
        Some(self.0.remove(at).1)
    }
}

fn settings(words: &mut Words<'_>) -> Option<Settings> {
    let id = id(words.value("id")?)?;
    let host: Ipv4Addr = words.value("host")?.parse().ok()?;
    let port: u16 = number(words.value("port")?)?.try_into().ok().filter(|port| *port > 0)?;
    let name = match words.value("name") {
        Some(name) => name.as_bytes().to_vec(),
        None => {
            let mut digits = Vec::new();
            push_id(&mut digits, &id);
            digits.truncate(6);
            digits
        }
    };
    let evasive = words.value("evasive").map_or(Some(5000), number)?;
    let expired = words.value("expired").map_or(Some(30000), number)?;
    let mut headers: Vec<(Vec<u8>, Vec<u8>)> = Vec::new();
    while let Some(header) = words.value("header") {
        let (name, value) = header.split_once('=')?;
        headers.push((name.into(), value.into()));
    }
    let endpoint = format!("tcp://{host}:{port}");
    let settings = Settings { id, name, endpoint, headers, evasive, expired };
    is_valid(&settings).then_some(settings)
}

/// The limits of a node's settings.
fn is_valid(settings: &Settings) -> bool {
    let headers = &settings.headers;
    let fits = headers.iter().all(|(name, value)| name.len() <= 255 && value.len() <= 1024);
    let is_new = |at: usize| headers[..at].iter().all(|before| before.0 != headers[at].0);
    let distinct = (0..headers.len()).all(is_new);
    let times = 1 <= settings.evasive && settings.evasive <= settings.expired && settings.expired <= 86_400_000;
    settings.name.len() <= 255 && headers.len() <= 256 && fits && distinct && times
}

/// An identity: thirty-two digits, or these with hyphens, as a UUID is printed.
fn id(text: &str) -> Option<Id> {
    let groups: Vec<usize> = text.split('-').map(str::len).collect();
    if groups != [32] && groups != [8, 4, 4, 4, 12] {
        return None;
    }
    let digits = text.replace('-', "");
    if !digits.bytes().all(|digit| digit.is_ascii_hexdigit()) {
        return None;
    }
    u128::from_str_radix(&digits, 16).ok().map(u128::to_be_bytes)
}

/// A decimal number without leading zeros.
fn number(text: &str) -> Option<u64> {
    text.parse::<u64>().ok().filter(|number| number.to_string() == text)
}

fn peers(words: &mut Words<'_>) -> Option<usize> {
    number(words.value("peers")?)?.try_into().ok().filter(|peers| (1..=256).contains(peers))
}

fn messages(words: &mut Words<'_>) -> Option<usize> {
    number(words.value("messages")?)?.try_into().ok()
}

#[cfg(test)]
mod tests {
    use super::{read, Task};

    fn task(line: &str) -> Option<Task> {
        read(&line.split(' ').map(str::to_string).collect::<Vec<_>>())
    }

    #[test]
    fn words_in_any_order_are_a_task() {
        assert!(matches!(task("show"), Some(Task::Show)));
        let line = "exercise messages=5 seed=18446744073709551615 peers=256";
        assert!(matches!(task(line), Some(Task::Exercise { seed: u64::MAX, peers: 256, messages: 5 })));
        let Some(Task::Replay(settings)) =
            task("replay port=1 host=10.0.0.1 id=a0a0a0a0-a0a0-a0a0-a0a0-a0a0a0a0a0a0 header=a=b=c")
        else {
            panic!("the words of a node are a task")
        };
        assert_eq!((settings.name, settings.headers), (b"A0A0A0".to_vec(), vec![(b"a".to_vec(), b"b=c".to_vec())]));
    }

    #[test]
    fn other_words_are_none() {
        let id = "00000000000000000000000000000001";
        let rows = [
            "list".to_string(),
            "show x=1".to_string(),
            "follow".to_string(),
            format!("follow id={id} id={id}"),
            format!("replay id={id} host=10.0.0.1 port=0"),
            format!("replay id={id} host=10.0.0.1 port=1 evasive=2 expired=1"),
            "exercise seed=1 peers=257 messages=1".to_string(),
            "exercise seed=1 peers=1 messages=1000001".to_string(),
            "exercise seed=01 peers=1 messages=1".to_string(),
        ];
        for line in rows {
            assert!(task(&line).is_none(), "{line}");
        }
    }
}
