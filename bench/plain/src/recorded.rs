//! The texts of the streams and captures of real peers in `tests/data` are those that the proved program must write.

use crate::commands::{follow, replay, show, Status};
use crate::words::{self, Task};
use std::fs;
use std::path::Path;

#[test]
fn recorded_streams_and_captures_have_their_texts() {
    let data = Path::new(env!("CARGO_MANIFEST_DIR")).join("../../tests/data");
    let index = fs::read_to_string(data.join("INDEX")).unwrap();
    assert!(!index.is_empty());
    for line in index.lines() {
        let [name, command, status] = line.split('\t').collect::<Vec<_>>()[..] else { panic!("{line}") };
        let input = fs::read(data.join(name)).unwrap();
        let wanted = fs::read(data.join(format!("{name}.txt"))).unwrap();
        let mut text = Vec::new();
        let command: Vec<String> = command.split(' ').map(str::to_string).collect();
        let ended = match words::read(&command) {
            Some(Task::Follow(id)) => follow(id, &input[..], &mut text),
            Some(Task::Show) => show(&input[..], &mut text),
            Some(Task::Replay(settings)) => replay(settings, &input[..], &mut text),
            _ => panic!("{line}"),
        };
        assert_eq!(ended as u8, status.parse::<u8>().unwrap(), "{name}");
        assert_eq!(ended, Status::Done);
        assert!(text == wanted, "the text of {name} differs");
    }
}
