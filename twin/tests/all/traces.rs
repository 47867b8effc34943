//! Traces: lines parsed and printed, and the player. docs/TRACES.md.

use crate::support::Rng;
use twin::branches;
use twin::cue::Cue;
use twin::end::{Attempt, Heard, Params, Reply, Request, Status};
use twin::message::{Message, DATA};
use twin::replay::{play, Mode};
use twin::trace::{row_of_draws, Asked, At, Brought, Composed, Does, Field, Line, Row, Verb};

fn parse(line: &str) -> Option<Line> {
    Line::parse(line.as_bytes())
}

/// What a line does; none where it is malformed or does nothing.
fn does(line: &str) -> Option<Does> {
    match parse(line) {
        Some(Line::Row(row)) => Some(row.does),
        _ => None,
    }
}

fn played(trace: &str, mode: Mode) -> String {
    let mut printed = Vec::new();
    play(trace.as_bytes(), mode, &mut printed).unwrap();
    String::from_utf8(printed).unwrap()
}

/// The lines of the plain mode, without the last one.
fn answers(trace: &str) -> Vec<String> {
    let printed = played(trace, Mode::Plain);
    let mut lines: Vec<String> = printed.lines().map(str::to_string).collect();
    lines.pop();
    lines
}

/// The answer of the trace's last line.
fn last(trace: &str) -> String {
    let lines = answers(trace);
    let line = lines.last().expect("a line with an answer");
    let (_, said) = line.split_once(' ').unwrap();
    said.split(';').next().unwrap().to_string()
}

const AT: At = At {
    source: 3,
    place: 63,
};

/// One line of each form, each as it is printed.
const LINES: [&str; 107] = [
    "start",
    "draws 66 65535 7",
    "draws 0 0 0",
    "draw 65 65535",
    "each 1 2 65535",
    "room 200",
    "fill 165",
    "0 open 255 9 8 4 4 4 8",
    "0 open 0 9 8 4 4 4 8 65535",
    "9 join 0",
    "0 joined 18446744073709551615",
    "1 leave 2",
    "2 left 3",
    "3 crash 4",
    "4 fire 5",
    "5 report 6",
    "6 send 7 -32768",
    "6 send 7 -2 1 0 -1 65535",
    "6 send 7 bytes FFFE00000000000000000000000000000000000000000001",
    "7 hear 8 0",
    "7 hear 8 18446744073709551615",
    "7 hear 8 bytes none",
    "7 hear 8 bytes 0102FF",
    "8 hear 9 rqst 1 392 name 0 1 1",
    "8 hear 9 data 255 5 name 255 65535 253 cue -1 2 3 4 5",
    "8 hear 9 repl 1 2 name 0 0 7 cuebytes FFFE00000000000000000000000000000000000000000001",
    "8 hear 9 sess 1 18446744073709551615 report 0 1 report 1 65535 echo 3 4 5 echo 4 5 18446744073709551615",
    "8 hear 9 0 0 0",
    "8 hear 9 255 0 0 counts 1 2 3 18446744073709551615",
    "read none",
    "read 020100000000018801000101000000",
    "write sess 0 0",
    "write probe",
    "write data 0 5 cue 0 0 0 0 0 counts 1 1 0 0",
    "write sess 0 0 report 0 0 report 1 0 report 2 0 report 3 0 report 4 0 report 5 0 report 6 0 report 7 0",
    "write sess 7 0 echo 0 0 0 echo 1 0 0 echo 2 0 0 echo 3 0 0 echo 4 0 0 echo 5 0 0 echo 6 0 0",
    "test 2001",
    "test 0 0 0 0 1001",
    "test bytes 000000000000000000000000000000000000000000000001",
    "8 copy 9",
    "0 set host 255",
    "0 set clock 18446744073709551615",
    "0 set next 4294967295",
    "0 set params 0 1 2 3 4 255 65535",
    "0 set pair 7 255 255 65535",
    "0 set nopair 7",
    "0 ask pair 7",
    "0 set waits 7 63 1 2 3 express 18446744073709551615",
    "8 hear 9 xprs 1 392 name 0 1 2",
    "write xprs 1 392 name 0 65535 2",
    "0 set status idle",
    "0 set status joining",
    "0 set status member",
    "0 set status leaving",
    "0 set status crashed",
    "0 set span 7 65535 0",
    "0 set closed 7",
    "0 set missed 7 4294967295",
    "0 set distance 7 18446744073709551615",
    "0 set heard 7 18446744073709551615 0",
    "0 set unheard 7",
    "0 set heard 7 1 0 255",
    "0 set origin 7 65535",
    "0 set noorigin 7",
    "0 set attempt 7 63 255 1",
    "0 ask origin 7",
    "0 ask attempt 7 63",
    "5 fetch 6 255 65535",
    "5 why fetch 6 7 0",
    "8 hear 9 ftch 1 392 name 0 1 2",
    "write late 1 392 name 0 65535 2 cue -1 2 3 4 5",
    "5 fetch 6 0 0 = late | never so",
    "5 announce 6",
    "5 why announce 6 = none",
    "8 hear 9 annc 1 392 name 1 1 1 name 1 64 1",
    "write annc 1 392 name 1 0 1 name 1 65535 1",
    "write data 1 5 name 1 0 1 name 1 0 1 cue 0 0 0 0 0 counts 1 1 0 0",
    "0 set empty 7 63",
    "0 set held 7 63",
    "0 set waits 7 63 255 18446744073709551615 0",
    "0 set reply 7 63 18446744073709551615 255",
    "0 set cue 7 63 -2",
    "0 set cue 7 63 bytes 000000000000000000000000000000000000000000000001",
    "0 set hush 7 63 18446744073709551615",
    "0 ask clock",
    "0 ask next",
    "0 ask status",
    "0 ask host",
    "0 ask params",
    "0 ask distance 7",
    "0 ask span 7",
    "0 ask missed 7",
    "write 1 0 5 cue 0 0 0 0 0 counts 1 1 0 0",
    "read 12010000000001880100000101000000",
    "0 ask heard 7",
    "0 ask record 7 63",
    "0 ask same 9",
    "ask output",
    "0 show",
    "0 why join 40",
    "1 why send 40 -2 1 0 -1 65535",
    "2 why hear 40 3",
    "3 why hear 40 bytes none",
    "4 why hear 40 rqst 1 392 name 0 1 1 = none",
    "# a heading = with | marks",
    "#",
    "0 fire 3 = out 16 rqst | a remark | and = more",
];

#[test]
fn every_form_is_printed_as_it_was_read() {
    for line in LINES {
        let parsed = parse(line).unwrap_or_else(|| panic!("{line}"));
        assert_eq!(parsed.to_string(), line);
    }
}

#[test]
fn forms_have_their_values() {
    let call = |verb| {
        Some(Does::Call {
            end: 1,
            clock: 7,
            verb,
        })
    };
    let set = |field| Some(Does::Set { end: 2, field });
    let ask = |asked| Some(Does::Ask { end: 2, asked });
    assert_eq!(does("1 crash 7"), call(Verb::Crash));
    let cue = Cue::with_focus(-2);
    assert_eq!(does("1 send 7 -2"), call(Verb::Send(cue)));
    assert_eq!(does("1 send 7 -2 0 0 0 0"), call(Verb::Send(cue)));
    assert_eq!(does("1 hear 7 4"), call(Verb::Hear(Brought::Number(4))));
    let message = Message {
        kind: DATA,
        sender: 2,
        stamp: 3,
        names: vec![],
        cues: vec![],
        reports: vec![],
        echoes: vec![],
    };
    let composed = Composed::of(message);
    let brought = Brought::Composed(composed.clone());
    assert_eq!(does("1 hear 7 data 2 3"), call(Verb::Hear(brought.clone())));
    assert_eq!(does("1 hear 7 17 2 3"), call(Verb::Hear(brought)));
    assert_eq!(does("write 17 2 3"), Some(Does::Write(composed)));
    let span = Field::Span {
        source: 3,
        first: 65_472,
        last: 65_535,
    };
    assert_eq!(does("2 set span 3 65472 65535"), set(span));
    assert_eq!(does("2 set missed 3 70000"), set(Field::Missed(3, 70_000)));
    assert_eq!(does("2 set next 65536"), set(Field::Next(65_536)));
    assert_eq!(does("2 ask missed 3"), ask(Asked::Missed(3)));
    assert_eq!(
        does("2 set status leaving"),
        set(Field::Status(Status::Leaving))
    );
    let heard = |sources| Heard {
        stamp: 4,
        at: 5,
        sources,
    };
    assert_eq!(does("2 set heard 3 4 5"), set(Field::Heard(3, heard(0))));
    assert_eq!(
        does("2 set heard 3 4 5 255"),
        set(Field::Heard(3, heard(255)))
    );
    assert_eq!(does("2 set heard 3 4 5 256"), None);
    assert_eq!(does("2 set origin 3 65535"), set(Field::Origin(3, 65_535)));
    assert_eq!(does("2 set noorigin 3"), set(Field::NoOrigin(3)));
    assert_eq!(does("2 set origin 3 65536"), None);
    assert_eq!(does("2 set origin 8 0"), None);
    assert_eq!(does("2 ask origin 3"), ask(Asked::Origin(3)));
    let attempt = Attempt {
        tried: 254,
        late: true,
    };
    assert_eq!(
        does("2 set attempt 3 63 254 1"),
        set(Field::Attempt(AT, attempt))
    );
    assert_eq!(does("2 ask attempt 3 63"), ask(Asked::Attempt(AT)));
    for bad in ["3 64 0 0", "8 0 0 0", "3 63 256 0", "3 63 0 2", "3 63 0"] {
        assert_eq!(does(&format!("2 set attempt {bad}")), None);
    }
    assert_eq!(does("1 fetch 7 255 65535"), call(Verb::Fetch(255, 65_535)));
    for bad in ["7 256 0", "7 0 65536", "7 0", "7", "7 0 0 0"] {
        assert_eq!(does(&format!("1 fetch {bad}")), None);
    }
    let request = Request {
        round: 1,
        due: 2,
        quiet_until: 3,
        express: None,
    };
    assert_eq!(
        does("2 set waits 3 63 1 2 3"),
        set(Field::Waits(AT, request))
    );
    let reply = Reply {
        due: 1,
        requester: 2,
    };
    assert_eq!(does("2 set reply 3 63 1 2"), set(Field::Reply(AT, reply)));
    assert_eq!(does("2 set cue 3 63 -2"), set(Field::Cue(AT, cue)));
    assert_eq!(does("2 ask record 3 63"), ask(Asked::Record(AT)));
    assert_eq!(does("2 ask same 9"), ask(Asked::Same(9)));
    let open = Does::Open {
        end: 0,
        host: 1,
        params: Params::STANDARD,
    };
    assert_eq!(does("0 open 1 9 8 4 4 4 8"), Some(open));
}

#[test]
fn expectations_and_remarks() {
    let row = |expected: Option<&str>, remark: Option<&str>| {
        Some(Line::Row(Row {
            does: Does::AskOutput,
            expected: expected.map(str::to_string),
            remark: remark.map(str::to_string),
        }))
    };
    assert_eq!(parse("ask output"), row(None, None));
    assert_eq!(parse("ask output = a b"), row(Some("a b"), None));
    assert_eq!(parse("ask output = a = b"), row(Some("a = b"), None));
    assert_eq!(parse("ask output | a = b"), row(None, Some("a = b")));
    assert_eq!(
        parse("ask output = a | b | c"),
        row(Some("a"), Some("b | c"))
    );
    assert_eq!(parse("ask output | "), row(None, Some("")));
    assert_eq!(parse(""), Some(Line::Blank));
    assert_eq!(parse(" | a remark"), Some(Line::Blank));
    assert_eq!(parse("#x"), Some(Line::Heading("x".to_string())));
    assert_eq!(
        Line::parse(b"#\xFF"),
        Some(Line::Heading("\u{FFFD}".to_string()))
    );
}

/// Lines that are malformed in one place each.
const MALFORMED: [&str; 134] = [
    " ",
    "0",
    "stop",
    "start 0",
    " start",
    "start ",
    "start = done",
    "0 join",
    "0  join 0",
    "0 join  0",
    "0 join 0 ",
    "0 join 00",
    "0 join 01",
    "0 join +1",
    "0 join -1",
    "0 join 18446744073709551616",
    "0 join 0 0",
    "0 Join 0",
    "10 join 0",
    "00 join 0",
    "x join 0",
    "0 join 0\r",
    "0 join 0\t",
    "0 join 0 = ",
    "0 join 0 =",
    "0 join 0 |",
    "0 join 0 =done",
    " = done",
    "draws 67 0 0",
    "draws 64 65536 0",
    "draws 64 0 65536",
    "draws 64 0",
    "draws 64 0 0 = done",
    "draw 66 0",
    "draw 0 65536",
    "each",
    "each 65536",
    "room 201",
    "room 0 = 0",
    "fill 256",
    "0 open 256 9 8 4 4 4 8",
    "0 open 0 9 8 4 4 4",
    "0 open 0 9 8 4 4 4 256",
    "0 open 0 9 8 4 4 4 8 0 0",
    "0 open 0 9 8 4 4 4 8 65536",
    "0 open 0 9 8 4 4 4 8 ",
    "0 set params 9 8 4 4 4 8",
    "0 set params 9 8 4 4 4 8 65536",
    "0 set params 9 8 4 4 4 8 0 0",
    "0 set pair 8 0 0 0",
    "0 set pair 0 256 0 0",
    "0 set pair 0 0 256 0",
    "0 set pair 0 0 0 65536",
    "0 set pair 0 0 0",
    "0 set nopair 8",
    "0 set nopair 0 0",
    "0 set waits 0 0 1 2 3 express",
    "0 set waits 0 0 1 2 3 4",
    "0 set waits 0 0 1 2 3 express 18446744073709551616",
    "0 ask pair 8",
    "0 send 0",
    "0 send 0 -0",
    "0 send 0 -",
    "0 send 0 -01",
    "0 send 0 32768",
    "0 send 0 -32769",
    "0 send 0 0 0 0 0",
    "0 send 0 0 0 0 0 -1",
    "0 send 0 0 0 0 0 65536",
    "0 send 0 0 0 0 0 0 0",
    "0 send 0 bytes none",
    "0 send 0 bytes 0000000000000000000000000000000000000000000000",
    "0 send 0 bytes 00000000000000000000000000000000000000000000000000",
    "0 send 0 bytes ff0000000000000000000000000000000000000000000000",
    "0 hear 0",
    "0 hear 0 -1",
    "0 hear 0 data",
    "0 hear 0 data 0",
    "0 hear 0 0 0",
    "0 hear 0 256 0 0",
    "0 hear 0 DATA 0 0",
    "0 hear 0 bytes",
    "0 hear 0 bytes 0",
    "0 hear 0 bytes 0G",
    "0 hear 0 bytes NONE",
    "read",
    "read 0",
    "read 00 00",
    "write",
    "write 0",
    "write data 256 0",
    "write data 0 18446744073709551616",
    "write data 0 0 name 0 0",
    "write data 0 0 name 0 0 0 name 0 0 0 name 0 0 0",
    "write data 0 0 cue 0",
    "write data 0 0 cue 0 0 0 0 0 cuebytes none",
    "write data 0 0 cue 0 0 0 0 0 name 0 0 0",
    "write sess 0 0 echo 1 0 0 report 0 0",
    "write sess 0 0 counts 0 0 0",
    "write sess 0 0 counts 0 0 0 0 report 0 0",
    "test",
    "test 0 0",
    "0 copy 10",
    "0 copy 1 = same",
    "0 set next 4294967296",
    "0 set span 0 65536 0",
    "0 set span 0 0 65536",
    "0 set missed 0",
    "0 set missed 8 0",
    "0 set missed 0 4294967296",
    "0 ask missed",
    "0 ask missed 8",
    "write data 0 0 name 0 65536 0",
    "write sess 0 0 report 0 65536",
    "0 set status Idle",
    "0 set span 8 0 0",
    "0 set held 0 64",
    "0 set held 0",
    "0 set nothing 0",
    "0 set clock 0 = 0",
    "0 ask",
    "0 ask output",
    "ask clock",
    "why join 40",
    "0 why",
    "0 why join",
    "0 why why join 40",
    "0 why open 0 9 8 4 4 4 8",
    "0 why show",
    "0 why hear 40",
    "write probe 0 0",
    "write Probe",
    "0 hear 0 probe",
    "read probe",
];

#[test]
fn malformed_lines() {
    for line in MALFORMED {
        assert_eq!(parse(line), None, "{line}");
        let played = played(&format!("\n{line}\n0 join 0\n"), Mode::Plain);
        assert_eq!(played, "2 bad\n", "{line}");
    }
    assert_eq!(Line::parse(b"0 join \xFF"), None);
}

#[test]
fn lengths_of_lines_and_bytes() {
    let remark = |length: usize| format!("start | {}", "x".repeat(length - 8));
    assert!(parse(&remark(1000)).is_some());
    assert_eq!(parse(&remark(1001)), None);
    assert_eq!(parse(&format!("#{}", "x".repeat(1000))), None);
    let bytes = |count: usize| format!("read {}", "00".repeat(count));
    assert!(parse(&bytes(256)).is_some());
    assert_eq!(parse(&bytes(257)), None);
    let each = |count: usize| format!("each{}", " 65535".repeat(count));
    assert!(parse(&each(66)).is_some());
    assert_eq!(parse(&each(67)), None);
    let reports = |count: usize| format!("write sess 0 0{}", " report 0 0".repeat(count));
    assert!(parse(&reports(8)).is_some());
    assert_eq!(parse(&reports(9)), None);
    let echoes = |count: usize| format!("write sess 0 0{}", " echo 1 0 0".repeat(count));
    assert!(parse(&echoes(7)).is_some());
    assert_eq!(parse(&echoes(8)), None);
}

/// Document 01's script.
const SCRIPT: &str = "\
0 join 0
0 joined 0
1 join 0
1 joined 0
0 send 10 -2
1 hear 12 0
0 send 20 -2
0 send 30 -2
1 hear 32 2
1 fire 391
1 fire 392
0 hear 400 3
0 fire 560
1 hear 570 4
";

#[test]
fn a_script_of_house_is_a_trace() {
    let lines = answers(SCRIPT);
    let said: Vec<&str> = lines.iter().map(|l| l.split(';').next().unwrap()).collect();
    let expected = [
        "1 done",
        "2 done",
        "3 done",
        "4 done",
        "5 out 40 data 0 0",
        "6 got 0 0",
        "7 out 40 data 0 1",
        "8 out 40 data 0 2",
        "9 got 0 2",
        "10 nothing",
        "11 out 16 rqst 0 1",
        "12 done",
        "13 out 40 repl 0 1",
        "14 got 0 1",
    ];
    assert_eq!(said, expected);
    // "RQST of end 1 at clock 392 for name 0,1"
    assert!(lines[10].starts_with("11 out 16 rqst 0 1; 12010000000001880100000101000000; "));
    assert!(lines[13].contains("; FFFE00000000000000000000000000000000000000000000; "));
    let printed = played(SCRIPT, Mode::Plain);
    assert!(printed.ends_with("\n14 lines, 14 calls, 0 right, 0 wrong\n"));
}

#[test]
fn reasons() {
    let lines = answers(
        "0 report 5\n0 why report 5\n0 why join 5\n0 join 5\n0 join 4\nroom 127\n0 join 5\nask output\n0 why join 5 = done\n",
    );
    let reasons: Vec<&str> = lines
        .iter()
        .map(|line| line.rsplit("; ").next().unwrap())
        .collect();
    assert_eq!(
        reasons,
        [
            "wrong status",
            "2 wrong status",
            "3 none",
            "none",
            "refused 5",
            "wrong status",
            "8 none",
            "9 wrong status WRONG",
        ]
    );
    assert_eq!(played("0 why hear 0 0\n", Mode::Plain), "1 bad\n");
    // It is a call; what was put out stays, and the output that it has none of.
    let trace = "0 join 0\n0 joined 0\n0 report 0\n0 why fire 0\nask output\n0 why hear 0 0\n";
    let printed = played(trace, Mode::Plain);
    assert!(
        printed.ends_with("4 none\n5 none\n6 own message\n6 lines, 5 calls, 0 right, 0 wrong\n")
    );
}

#[test]
fn the_digest_is_the_pages() {
    // Both were worked out from the page's last paragraph apart from this program: the
    // fresh end of host 0, and what the script leaves of host 1's.
    assert_eq!(
        answers("3 open 0 9 8 4 4 4 8\n"),
        ["1 opened; none; 54299547BE1D01FD"]
    );
    assert!(answers(SCRIPT)[13].ends_with("; 0153C9EE7E7B6DB5; none"));
}

#[test]
fn every_field_counts_in_the_digest_and_in_same() {
    for field in [
        "host 1",
        "clock 1",
        "next 1",
        "params 9 8 4 4 4 7 0",
        "params 9 8 4 4 4 8 1",
        "pair 0 0 0 0",
        "pair 7 0 0 0",
        "waits 7 63 1 0 0 express 0",
        "status member",
        "span 0 0 0",
        "missed 0 1",
        "missed 7 1",
        "distance 7 41",
        "heard 7 0 0",
        "origin 0 0",
        "origin 7 0",
        "attempt 7 63 1 0",
        "attempt 7 63 0 1",
        "attempt 0 0 128 0",
        "waits 7 63 1 0 0",
        "held 7 63",
        "reply 7 63 0 1",
        "cue 7 63 1",
        "cue 0 0 bytes 000000000000000000000000000000000000000000000001",
        "hush 7 63 1",
    ] {
        let trace = format!("room 0\n8 set {field}\n8 ask same 9\n8 fire 0\n9 fire 0\n");
        let lines = answers(&trace);
        assert_eq!(lines[0], "3 different", "{field}");
        assert_ne!(lines[1][2..], lines[2][2..], "{field}");
    }
}

#[test]
fn states_are_set_and_asked() {
    for (set, ask, answer) in [
        ("clock 5", "clock", "5"),
        ("next 6", "next", "6"),
        ("status leaving", "status", "leaving"),
        ("host 7", "host", "7"),
        ("params 1 2 3 4 5 6 7", "params", "1 2 3 4 5 6 7"),
        ("pair 7 8 9 10", "pair 7", "8 9 10"),
        ("pair 6 8 9 10", "pair 7", "none"),
        ("nopair 7", "pair 7", "none"),
        ("distance 7 8", "distance 7", "8"),
        ("span 7 8 9", "span 7", "8 9"),
        ("closed 7", "span 7", "closed"),
        ("span 7 65472 65535", "span 7", "65472 65535"),
        ("missed 7 65472", "missed 7", "65472"),
        ("missed 6 65472", "missed 7", "0"),
        ("next 65536", "next", "65536"),
        ("heard 7 8 9", "heard 7", "8 9 0"),
        ("heard 7 8 9 255", "heard 7", "8 9 255"),
        ("heard 7 8 9 255\n4 set heard 7 8 9", "heard 7", "8 9 0"),
        ("origin 7 65535", "origin 7", "65535"),
        ("origin 6 65535", "origin 7", "none"),
        ("origin 7 1\n4 set noorigin 7", "origin 7", "none"),
        ("attempt 7 63 254 1", "attempt 7 63", "254 1"),
        ("attempt 7 63 254 0", "attempt 7 62", "0 0"),
        ("attempt 7 63 0 1", "attempt 7 63", "0 1"),
        ("unheard 7", "heard 7", "unheard"),
    ] {
        let trace = format!("4 set {set}\n4 ask {ask}\n");
        assert_eq!(last(&trace), answer);
    }
    let zeros = "000000000000000000000000000000000000000000000000";
    for (set, answer) in [
        ("4 set held 7 63", "held"),
        ("4 set reply 7 63 8 9", "held reply 8 9"),
        ("4 set reply 7 63 8 9\n4 set held 7 63", "held"),
        ("4 set reply 7 63 8 9\n4 set empty 7 63", "empty"),
        (
            "4 set reply 7 63 8 9\n4 set waits 7 63 1 2 3",
            "waits 1 2 3",
        ),
        ("4 set waits 7 63 1 2 3 express 4", "waits 1 2 3 express 4"),
        (
            "4 set waits 7 63 1 2 3 express 4\n4 set waits 7 63 1 2 3",
            "waits 1 2 3",
        ),
        (
            "4 set waits 7 63 1 2 3\n4 set reply 7 63 8 9",
            "held reply 8 9",
        ),
    ] {
        let trace = format!("{set}\n4 ask record 7 63\n");
        assert_eq!(last(&trace), format!("{answer} hush 0 cue {zeros}"));
    }
    let kept = "4 set cue 7 63 -2\n4 set hush 7 63 5\n4 set held 7 63\n4 set empty 7 63\n4 ask record 7 63\n";
    assert_eq!(last(kept), format!("empty hush 5 cue FFFE{}", &zeros[4..]));
}

#[test]
fn what_surrounds_a_call() {
    let member = "0 set status member\n";
    for (before, answer) in [
        ("", "out 12 sess 0 0"),
        ("room 128\n", "out 12 sess 0 0"),
        ("room 200\n", "out 12 sess 0 0"),
        ("room 127\n", "refused 1"),
        ("draws 63 0 0\n", "refused 2"),
        ("draws 65 0 0\n", "refused 2"),
        ("each 1\n", "refused 2"),
        ("draws 63 0 0\ndraws 64 0 0\n", "out 12 sess 0 0"),
        ("draw 65 1\n", "out 12 sess 0 0"),
        (
            "room 0\ndraws 0 0 0\nstart\n0 set status member\n",
            "out 12 sess 0 0",
        ),
    ] {
        assert_eq!(last(&format!("{member}{before}0 report 0\n")), answer);
    }
    // The draw at cue number 1 is (65000 + 1 × 1000) modulo 65536 = 464, and 320 × 464 =
    // 148480 is 2 × 65535 and 17410 more.
    let gap =
        "draws 64 65000 1000\n1 set status member\n1 hear 0 data 0 0 name 0 0 0 cue 0 0 0 0 0\n\
               1 hear 0 data 0 0 name 0 2 0 cue 0 0 0 0 0\n1 ask record 0 1\n";
    assert!(last(gap).starts_with("waits 1 362 160 hush 0 "));
}

#[test]
fn a_row_of_draws() {
    assert_eq!(row_of_draws(3, 7, 2), [7, 9, 11]);
    assert_eq!(row_of_draws(0, 7, 2), []);
    let row = row_of_draws(66, 65535, 65535);
    // (65535 + 65 × 65535) modulo 65536 is 66 below 65536.
    assert_eq!((row[0], row[1], row[65]), (65535, 65534, 65470));
}

#[test]
fn outputs_are_asked() {
    assert_eq!(last("ask output\n"), "none");
    assert_eq!(
        last("write sess 1 2\nask output\n"),
        "140100000000000200000000"
    );
    assert_eq!(
        last("fill 7\nwrite sess 1 2\nread none\nask output\n"),
        "none"
    );
    assert_eq!(
        last("write sess 1 2\n0 open 0 9 8 4 4 4 8\nask output\n"),
        "none"
    );
    assert_eq!(last("write sess 1 2\nstart\nask output\n"), "none");
}

#[test]
fn calls_without_an_end() {
    for (line, answer) in [
        ("read none", "probe"),
        ("read 14", "refused 8"),
        ("write probe", "written 0 none"),
        (
            "read 020100000000018801000101000000",
            "accepted rqst 1 392 name 0 1 1",
        ),
        (
            "read 12010000000001880100000101000000",
            "accepted rqst 1 392 name 0 1 1",
        ),
        ("read 02010000000001880100000101000000", "refused 8"),
        ("read 120100000000018801000101000000", "refused 8"),
        ("read 020100000000018801004001000000", "refused 10"),
        ("write 2 1 392 name 0 1 1", "refused 9"),
        (
            "write rqst 1 392 name 0 1 1",
            "written 16 12010000000001880100000101000000",
        ),
        ("write rqst 1 392 name 0 1 1 counts 2 0 0 0", "refused 9"),
        // The name is zeros, and a RQST's host is its sender.
        ("write rqst 1 0 counts 1 0 0 0", "refused 11"),
        ("write sess 0 281474976710656", "refused 10"),
        ("write rqst 1 392 name 1 1 1", "refused 11"),
        ("test -2000 2000 0 0 1000", "in range"),
        ("test -2001", "out of range"),
    ] {
        assert_eq!(last(&format!("{line}\n")), answer, "{line}");
    }
    assert_eq!(last("room 127\nwrite sess 0 0\n"), "refused 1");
    assert_eq!(last("room 127\nwrite probe\n"), "refused 1");
    assert_eq!(last("write probe\nask output\n"), "none");
    assert_eq!(
        last("write sess 0 5 report 1 2 counts 0 0 0 0\n"),
        "written 12 140000000000000500000000"
    );
    assert!(last("write data 0 5 counts 1 1 0 0\n").starts_with("written 40 1100"));
    for huge in ["18446744073709551615", "9", "4294967297"] {
        assert_eq!(
            last(&format!("write sess 0 0 counts 0 0 {huge} 0\n")),
            "refused 9"
        );
    }
}

#[test]
fn openings() {
    assert_eq!(last("5 open 5 9 8 4 4 4 8\n"), "opened");
    assert_eq!(last("5 open 8 9 8 4 4 4 8\n"), "refused 12");
    assert_eq!(last("5 open 5 8 8 4 4 4 7\n"), "refused 13");
    assert_eq!(last("5 open 5 9 8 4 4 4 8 1000\n"), "opened");
    assert_eq!(last("5 open 5 9 8 4 4 4 8 1001\n"), "refused 14");
    // "host 0's crashed end with parameters 9,8,4,4,4,8, otherwise fresh"
    assert_eq!(
        last("5 open 5 8 8 4 4 4 7\n8 set status crashed\n5 ask same 8\n"),
        "same"
    );
}

#[test]
fn messages_by_number() {
    let mut trace = "0 set status member\n1 set status member\n".to_string();
    for clock in 0..70 {
        trace += &format!("0 report {clock}\n");
    }
    let hear = |number: u64| last(&format!("{trace}1 hear 0 {number}\n1 ask heard 0\n"));
    assert_eq!(hear(69), "69 0 0");
    assert_eq!(hear(6), "6 0 0");
    for number in [5, 70, u64::MAX] {
        let printed = played(&format!("{trace}1 hear 0 {number}\n"), Mode::Plain);
        assert!(printed.ends_with("\n73 bad\n"), "{number}");
    }
    let restarted = played(&format!("{trace}start\n1 hear 0 69\n"), Mode::Plain);
    assert!(restarted.ends_with("\n74 bad\n"));
}

#[test]
fn composed_messages_are_heard() {
    let member = "1 set status member\n";
    let hear = |message: &str| last(&format!("{member}1 hear 5 {message}\n"));
    assert_eq!(hear("sess 0 5"), "done");
    assert_eq!(hear("sess 1 5"), "ignored");
    assert_eq!(hear("data 0 5 name 0 9 0 cue 1 2 3 4 5"), "got 0 9");
    // Refused by the writer, so the message is empty: a probe.
    assert_eq!(hear("data 0 5 name 0 64 0 cue 1 2 3 4 5"), "got 0 64");
    let refused = hear("1 0 5 name 0 64 0 cue 1 2 3 4 5");
    assert_eq!(refused, "out 12 sess 0 0");
    assert_eq!(hear("bytes none"), "out 12 sess 0 0");
    assert_eq!(last("1 hear 5 bytes none\n"), "ignored");
    assert_eq!(hear("bytes 050000000000000000000000"), "refused 9");
}

#[test]
fn expectations_are_judged() {
    for (line, right) in [
        ("test 0 = in range", true),
        ("test 0 = in", true),
        ("test 0 = in rang", false),
        ("test 0 = in range x", false),
        ("test 0 = out of range", false),
        ("8 ask same 9 = same", true),
        ("8 join 0 = done", true),
        ("8 join 0 = done; none", false),
        ("8 join 0 = ignored", false),
    ] {
        let printed = played(&format!("{line}\n"), Mode::Plain);
        let (right, wrong) = (u8::from(right), u8::from(!right));
        assert!(
            printed.ends_with(&format!("{right} right, {wrong} wrong\n")),
            "{line}"
        );
        assert_eq!(printed.contains(" WRONG\n"), wrong == 1, "{line}");
    }
}

#[test]
fn rows() {
    let trace = "test 0 = in\n# one\n0 show\ntest 0 = in\ntest 1 = out\n0 join 0 = done\n#two\n\n# three\n3 ask host = 3\n";
    let expected = "5 in range WRONG\none: 2 right\ntwo: 0 right\nthree: 1 right\n10 lines, 4 calls, 4 right, 1 wrong\n";
    assert_eq!(played(trace, Mode::Rows), expected);
    let stopped = "# one\ntest 0 = in\nx\n# two\n";
    assert_eq!(played(stopped, Mode::Rows), "3 bad\n");
    assert_eq!(
        played("", Mode::Rows),
        "0 lines, 0 calls, 0 right, 0 wrong\n"
    );
    assert_eq!(played("\n0 join 0", Mode::Plain), "2 bad\n");
}

#[test]
fn words() {
    let trace = "0 set span 2 3 4\n0 set missed 2 9\n0 set heard 2 5 6 7\n0 set hush 1 7 8\n0 set pair 2 10 11 12\n\
        0 set origin 2 3\n0 set attempt 2 63 254 1\n0 set attempt 1 0 0 1\ntest 0\n0 fire 0\n";
    let mut lines = vec!["9 in range".to_string()];
    let printed = played(trace, Mode::Words);
    let fired = printed.lines().nth(1).unwrap();
    assert!(fired.starts_with("10 refused 3; none; "));
    lines.push(fired.to_string());
    let state = [
        "host 0",
        "params 9 8 4 4 4 8 0",
        "clock 0",
        "status idle",
        "next 0",
        "source 0 closed missed 0 nopair distance 0 unheard noorigin",
        "source 1 closed missed 0 nopair distance 40 unheard noorigin",
        "record 1 7 empty hush 8 cue 000000000000000000000000000000000000000000000000",
        "attempt 1 0 0 1",
        "source 2 span 3 4 missed 9 pair 10 11 12 distance 40 heard 5 6 7 origin 3",
        "attempt 2 63 254 1",
        "source 3 closed missed 0 nopair distance 40 unheard noorigin",
        "source 4 closed missed 0 nopair distance 40 unheard noorigin",
        "source 5 closed missed 0 nopair distance 40 unheard noorigin",
        "source 6 closed missed 0 nopair distance 40 unheard noorigin",
        "source 7 closed missed 0 nopair distance 40 unheard noorigin",
    ];
    lines.extend(state.iter().map(|line| format!("  {line}")));
    lines.push("10 lines, 2 calls, 0 right, 0 wrong\n".to_string());
    assert_eq!(printed, lines.join("\n"));
    let shown = played(&trace.replace("test 0\n0 fire 0", "0 show"), Mode::Plain);
    assert_eq!(shown.lines().count(), state.len() + 1);
}

#[test]
fn branches_are_counted_from_when_they_are_asked_for() {
    played(SCRIPT, Mode::Plain);
    assert!(!branches::counting());
    branches::count();
    played(SCRIPT, Mode::Plain);
    let counts = branches::counts();
    let taken = |words: &str| counts.iter().find(|(said, _)| *said == words).unwrap().1;
    assert_eq!(taken("out DATA"), 3);
    assert_eq!(taken("got"), 3);
    assert_eq!(taken("refused 3"), 0);
    assert_eq!(taken("DATA: no first: first = last = the number, Got"), 1);
    assert_eq!(
        taken("DATA: above last, each number between gets round 1"),
        1
    );
    assert_eq!(taken("RQST: held, set a reply: own cue"), 1);
    assert_eq!(taken("REPL: not held: as DATA, Got"), 1);
    assert_eq!(taken("Fire: none due: Nothing"), 1);
    // The gap's round 1, and the round after the request; the request's reply.
    assert_eq!(taken("a round's share: draw 0"), 2);
    assert_eq!(taken("a reply's share: draw 0"), 1);
}

#[test]
fn each_branch_has_its_own_words() {
    let list = branches::BRANCHES;
    for (place, (branch, words)) in list.iter().enumerate() {
        assert_eq!(*branch as usize, place);
        assert!(
            list[..place].iter().all(|(_, said)| said != words),
            "{words}"
        );
    }
}

/// Lines of the forms above with numbers changed, played as one trace in all modes: each
/// is printed as it is read, and no state or argument that a line can say stops the twin.
#[test]
fn changed_lines() {
    const NUMBERS: [&str; 16] = [
        "0",
        "1",
        "2",
        "7",
        "8",
        "63",
        "64",
        "128",
        "255",
        "1000",
        "65535",
        "65536",
        "281474976710655",
        "281479271677952",
        "18446744073709551615",
        "-2000",
    ];
    let mut rng = Rng(7);
    let mut pick = |n: usize| rng.below(n as u64) as usize;
    let mut trace = String::new();
    for _ in 0..20_000 {
        let line = LINES[pick(LINES.len())];
        let mut words: Vec<&str> = line.split(' ').collect();
        for _ in 0..pick(4) {
            let place = pick(words.len());
            if words[place].parse::<i128>().is_ok() {
                words[place] = NUMBERS[pick(NUMBERS.len())];
            }
        }
        let changed = words.join(" ");
        // A message's number may be unknown, which is bad; `start` would undo too much.
        let asked = usize::from(words.contains(&"why"));
        let unknown = words.contains(&"hear") && words.len() == 4 + asked;
        let Some(parsed) = parse(&changed).filter(|_| !unknown && line != "start") else {
            continue;
        };
        assert_eq!(parsed, parse(&parsed.to_string()).unwrap(), "{changed}");
        trace += &format!("{changed}\n");
    }
    for mode in [Mode::Plain, Mode::Rows, Mode::Words] {
        let printed = played(&trace, mode);
        assert!(!printed.contains("CHANGED") && !printed.contains("OTHER BYTES"));
        let end = printed.lines().last().unwrap();
        assert!(end.starts_with(&format!("{} lines, ", trace.lines().count())));
    }
}
