//! Worked journals, as captures: the entries behind the head, and the lines that must be written.

use super::Settings;
use crate::commands::{replay, Status};
use crate::quoting::push_hex;
use crate::spelling::{beacon, greeting, push_message, ready, Body};
use crate::Id;

const ANN: Id = [0xaa; 16];
const ID: &str = "AAAAAAAAAAAAAAAAAAAAAAAAAAAAAAAA";

fn hex(octets: &[u8]) -> String {
    let mut text = Vec::new();
    push_hex(&mut text, octets);
    String::from_utf8(text).unwrap()
}

fn message(sequence: u16, body: &Body<'_>) -> String {
    let mut octets = Vec::new();
    push_message(&mut octets, sequence, body);
    hex(&octets)
}

fn handshake(id: &Id) -> String {
    hex(&[&greeting()[..], &ready("DEALER", Some(id))].concat())
}

fn hello(groups: &[Vec<u8>]) -> String {
    message(1, &Body::Hello { endpoint: "tcp://10.0.0.2:49152", groups, status: 0, name: b"Ann", headers: &[] })
}

fn join(sequence: u16) -> String {
    message(sequence, &Body::Join { group: b"chat", status: 1 })
}

/// Ann becomes known at 0 and entered at 100, on connection 1.
fn entered() -> Vec<String> {
    vec![
        format!("0 datagram 10.0.0.2 {}", hex(&beacon(&ANN, 49152))),
        "0 opened 1".to_string(),
        format!("100 piece 1 {}{}", handshake(&ANN), hello(&[])),
    ]
}

fn behind_entering<const N: usize>(entries: [String; N]) -> Vec<String> {
    [entered(), entries.to_vec()].concat()
}

fn settings() -> Settings {
    Settings {
        id: [0xff; 16],
        name: b"Me".to_vec(),
        endpoint: "tcp://10.0.0.1:49153".to_string(),
        headers: Vec::new(),
        evasive: 5000,
        expired: 30000,
    }
}

/// Compares what is written of some entries, with `ANN` for Ann's identity and name.
fn expect(shows: &str, entries: &[String], lines: &[&str]) {
    let capture = ["zre-capture 1".to_string(), entries.join("\n"), String::new()].join("\n");
    let mut text = Vec::new();
    assert_eq!(replay(settings(), capture.as_bytes(), &mut text), Status::Done, "{shows}");
    let wanted: Vec<String> = lines.iter().map(|line| line.replace("ANN", &format!("{ID} Ann"))).collect();
    assert_eq!(String::from_utf8(text).unwrap().lines().collect::<Vec<_>>(), wanted, "{shows}");
}

const ENTER: &str = "ENTER ANN tcp://10.0.0.2:49152 %";

#[test]
fn a_peer_ends_by_its_messages_and_connections() {
    let last_beacon = format!("900 datagram 10.0.0.2 {}", hex(&beacon(&ANN, 0)));
    let again = format!("300 piece 2 {}{}", handshake(&ANN), hello(&[]));
    let third = format!("200 piece 1 {}", join(3));
    let end = ["300 end".to_string(), "400 tick".to_string()];
    let rows: [(&str, Vec<String>, &[&str]); 8] = [
        ("its last beacon", behind_entering([last_beacon]), &[ENTER, "EXIT ANN beacon"]),
        ("a message out of order", behind_entering([third]), &[ENTER, "EXIT ANN order 2 3"]),
        ("a second HELLO", behind_entering([format!("200 piece 1 {}", hello(&[]))]), &[ENTER, "EXIT ANN hello"]),
        (
            "a message in two pieces, and a fault behind it",
            behind_entering([format!("200 piece 1 {}", &join(2)[..6]), format!("200 piece 1 {}05", &join(2)[6..])]),
            &[ENTER, "JOIN ANN chat", "EXIT ANN fault", "CLOSED 1 Flags 180"],
        ),
        ("a shut connection", behind_entering(["200 shut 1".to_string()]), &[ENTER, "EXIT ANN shut"]),
        (
            "a takeover by the same identity",
            behind_entering(["300 opened 2".to_string(), again]),
            &[ENTER, "EXIT ANN taken", "CLOSED 1 Taken", ENTER],
        ),
        ("a broken link", behind_entering(["300 unlinked 1".to_string()]), &[ENTER, "EXIT ANN link"]),
        ("the end", behind_entering(end), &[ENTER, "EXIT ANN stop", "STOP"]),
    ];
    for (shows, entries, lines) in rows {
        expect(shows, &entries, lines);
    }
}

#[test]
fn silence_is_told_and_then_ends_a_peer() {
    let ticks = ["5099", "5100", "4000", "30099", "30100"].map(|at| format!("{at} tick"));
    let lines = [ENTER, "EVASIVE ANN", "EVASIVE ANN", "EVASIVE ANN", "EXIT ANN expired"];
    expect("the clock doesn't go back", &behind_entering(ticks), &lines);
    let unused = ["0 opened 1", "29999 tick", "30000 tick"].map(str::to_string);
    expect("a connection without a run", &unused, &["CLOSED 1 Timeout"]);
}

#[test]
fn what_cannot_be_done_is_refused() {
    let commands = [
        format!("do whisper {ID} x"),
        "do leave h".to_string(),
        "do join g".to_string(),
        "do join g".to_string(),
        format!("do whisper {} x", "4".repeat(32)),
        format!("do join {}", "g".repeat(256)),
        format!("do shout g {}", vec!["~"; 1024].join(",")),
        "do bad 7".to_string(),
    ];
    let lines = [
        ENTER,
        "REFUSED NOGROUP h",
        "REFUSED SAME g",
        "REFUSED NOPEER 44444444444444444444444444444444",
        "REFUSED TOOBIG",
        "REFUSED TOOBIG",
        "REFUSED BADLINE 7",
    ];
    expect("each reason", &behind_entering(commands.map(|command| format!("200 {command}"))), &lines);
}

#[test]
fn a_peer_that_takes_nothing_is_too_slow() {
    let whisper = format!("200 do whisper {ID} {}", "%00".repeat(1_048_570));
    let lines = [ENTER, "EXIT ANN slow 3145926 1048587"];
    expect("four large whispers", &behind_entering([(); 4].map(|()| whisper.clone())), &lines);
    let shout = format!("200 do shout chat {}", "%00".repeat(1_048_565));
    let shouts = [(); 4].map(|()| shout.clone()).to_vec();
    expect("shouts to a group that it isn't in", &[entered(), shouts].concat(), &[ENTER]);
}

#[test]
fn the_first_message_starts_a_run_or_is_refused() {
    let groups: Vec<Vec<u8>> = (0..1025u16).map(|at| at.to_be_bytes().to_vec()).collect();
    let nowhere = Body::Hello { endpoint: "tcp://host:1", groups: &[], status: 0, name: b"Ann", headers: &[] };
    let rows = [(join(1), "NotHello"), (hello(&groups), "Limit"), (message(1, &nowhere), "NoEndpoint")];
    for (first, why) in rows {
        let entries = ["0 opened 1".to_string(), format!("0 piece 1 {}{first}{}", handshake(&ANN), join(2))];
        expect(why, &entries, &[&format!("IGNORED 1 {why}")]);
    }
    let twice = hello(&[b"a".to_vec(), b"a".to_vec()]);
    let entries = ["0 opened 1".to_string(), format!("0 piece 1 {}{twice}", handshake(&ANN))];
    expect("a group twice", &entries, &[ENTER, "JOIN ANN a"]);
    let own = ["0 opened 1".to_string(), format!("0 piece 1 {}", handshake(&[0xff; 16]))];
    expect("the node's own identity", &own, &["CLOSED 1 Identity 64"]);
}

#[test]
fn peers_and_connections_are_few() {
    let beacons = (1..=256u128).map(|id| format!("0 datagram 10.0.0.3 {}", hex(&beacon(&id.to_be_bytes(), 1))));
    let full = ["0 opened 1".to_string(), format!("0 piece 1 {}{}", handshake(&ANN), hello(&[]))];
    expect("a peer too many", &beacons.chain(full).collect::<Vec<_>>(), &["IGNORED 1 Full"]);
    let opened = (1..=513).map(|number| format!("0 opened {number}")).chain(["0 opened 513".to_string()]);
    expect("a connection too many", &opened.collect::<Vec<_>>(), &["CLOSED 513 TooMany"]);
}
