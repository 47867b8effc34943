//! The house: document 01's listing, and what it turns down.

use std::io::{self, BufReader, Read, Write};
use std::process::{Command, Stdio};

use twin::house::{explain, play};

const SCRIPT: &str = "\
0 join 0
0 joined 0
1 join 0
1 joined 0
0 send 10 -2
1 hear 12 0
0 send 20 -2
0 send 30 -2
1 hear 32 2
1 fire 391
1 fire 392
0 hear 400 3
0 fire 560
1 hear 570 4
";

const PRINTED: &str = "\
0 0 done
0 0 done
1 0 done
1 0 done
0 10 out 0
1 12 got 0 0 -2
0 20 out 1
0 30 out 2
1 32 got 0 2 -2
1 391 nothing
1 392 out 3
0 400 done
0 560 out 4
1 570 got 0 1 -2
";

fn house(script: &[u8]) -> String {
    let mut printed = Vec::new();
    play(script, &mut printed).unwrap();
    String::from_utf8(printed).unwrap()
}

#[test]
fn listing() {
    assert_eq!(house(SCRIPT.as_bytes()), PRINTED);
    // The same in the smallest pieces a stream can give.
    let mut printed = Vec::new();
    play(BufReader::with_capacity(1, SCRIPT.as_bytes()), &mut printed).unwrap();
    assert_eq!(printed, PRINTED.as_bytes());
}

#[test]
fn program() {
    let mut child = Command::new(env!("CARGO_BIN_EXE_house"))
        .stdin(Stdio::piped())
        .stdout(Stdio::piped())
        .spawn()
        .unwrap();
    let mut stdin = child.stdin.take().unwrap();
    stdin.write_all(SCRIPT.as_bytes()).unwrap();
    drop(stdin);
    let output = child.wait_with_output().unwrap();
    assert!(output.status.success());
    assert_eq!(output.stdout, PRINTED.as_bytes());
}

#[test]
fn every_answer() {
    let script = "\
1 report 5
1 join 5
1 join 5
1 joined 4
1 joined 6
1 send 7 2001
1 send 8 -2000
1 send 281474976710656 0
1 send 18446744073709551615 -32768
1 hear 9 0
1 report 9
0 leave 0
0 hear 0 0
0 crash 1
0 crash 0
0 left 3
1 leave 10
1 left 10
";
    let printed = "\
1 5 ignored
1 5 done
1 5 ignored
1 4 refused 5
1 6 done
1 7 refused 6
1 8 out 0
1 281474976710656 refused 4
1 18446744073709551615 refused 4
1 9 ignored
1 9 out 1
0 0 ignored
0 0 ignored
0 1 done
0 0 refused 5
0 3 ignored
1 10 done
1 10 done
";
    assert_eq!(house(script.as_bytes()), printed);
}

/// `why` prints house's lines, with the reason's words after each `ignored`.
#[test]
fn why() {
    let script = "\
0 report 5
0 join 5
0 joined 5
0 send 7 1
0 hear 8 0
0 hear 7 0
0 fire 8
0 hear 9 1
";
    let printed = "\
0 5 ignored: wrong status
0 5 done
0 5 done
0 7 out 0
0 8 ignored: own message
0 7 refused 5
0 8 nothing
bad
";
    let mut explained = Vec::new();
    explain(script.as_bytes(), &mut explained).unwrap();
    assert_eq!(String::from_utf8(explained).unwrap(), printed);
}

/// The stored run of `why` is what the twin prints.
#[test]
fn stored_why() {
    let stored = |file: &str| {
        let path = concat!(env!("CARGO_MANIFEST_DIR"), "/../crates/why/");
        std::fs::read_to_string(format!("{path}{file}")).unwrap()
    };
    let mut explained = Vec::new();
    explain(stored("stdin").as_bytes(), &mut explained).unwrap();
    assert_eq!(String::from_utf8(explained).unwrap(), stored("stdout"));
}

#[test]
fn empty_input() {
    assert_eq!(house(b""), "");
}

#[test]
fn malformed_lines() {
    for line in [
        "\n",
        "0\n",
        "0 join\n",
        "0 join 1",
        "0 join 1 \n",
        " 0 join 1\n",
        "0  join 1\n",
        "0 join  1\n",
        "0\tjoin 1\n",
        "0 join 1\r\n",
        "0 join 1 2\n",
        "0 Join 1\n",
        "0 jo 1\n",
        "2 join 1\n",
        "00 join 1\n",
        "-1 join 1\n",
        "0 join 01\n",
        "0 join 00\n",
        "0 join +1\n",
        "0 join -1\n",
        "0 join x\n",
        "0 join 18446744073709551616\n",
        "0 join 99999999999999999999999999999999999999999999\n",
        "0 send 1\n",
        "0 send 1 \n",
        "0 send 1 2 3\n",
        "0 send 1 -0\n",
        "0 send 1 -\n",
        "0 send 1 --1\n",
        "0 send 1 +1\n",
        "0 send 1 01\n",
        "0 send 1 -01\n",
        "0 send 1 32768\n",
        "0 send 1 -32769\n",
        "0 hear 1\n",
        "0 hear 1 -1\n",
        "0 hear 1 00\n",
        "0 fire 1 0\n",
        "0 join 1\u{a0}\n",
        "0 join \u{661}\n",
    ] {
        let script = format!("1 join 3\n{line}1 joined 3\n");
        // Without its line feed the bad line runs into the next, bad all the same.
        assert_eq!(house(script.as_bytes()), "1 3 done\nbad\n", "{line:?}");
    }
    assert_eq!(house(b"0 join 0\n\xff\n"), "0 0 done\nbad\n");
    assert_eq!(house(b"0 join 0"), "bad\n");
}

#[test]
fn longest_line() {
    let script = b"0 send 18446744073709551615 -32768\n0 join 0\n";
    assert_eq!(
        house(script),
        "0 18446744073709551615 refused 4\n0 0 done\n"
    );
}

#[test]
fn unknown_message() {
    // Unknown is bad before any of the end's questions: this clock would be 4.
    let script =
        "0 join 0\n0 joined 0\n0 send 0 0\n1 hear 281474976710656 0\n1 hear 281474976710656 1\n";
    assert_eq!(
        house(script.as_bytes()),
        "0 0 done\n0 0 done\n0 0 out 0\n1 281474976710656 refused 4\nbad\n"
    );
    let script = "0 join 0\n0 joined 0\n0 send 0 0\n1 hear 0 18446744073709551616\n";
    assert!(house(script.as_bytes()).ends_with("out 0\nbad\n"));
}

#[test]
fn sixty_fifth_message() {
    let mut script = "0 join 0\n0 joined 0\n1 join 0\n1 joined 0\n".to_string();
    for _ in 0..64 {
        script += "0 send 1 0\n";
    }
    // A refused send is no message; what answers nothing neither.
    script += "0 send 1 2001\n1 fire 1\n1 hear 1 63\n";
    let printed = house(script.as_bytes());
    assert!(printed.ends_with("0 1 out 63\n0 1 refused 6\n1 1 nothing\n1 1 got 0 63 0\n"));
    // The end would put it out, the house has no number for it: by Report, or by a Send of number 64.
    for more in ["1 report 1\n1 fire 1\n", "0 send 1 0\n1 fire 1\n"] {
        let longer = script.clone() + more;
        assert_eq!(house(longer.as_bytes()), printed.clone() + "bad\n");
    }
}

#[test]
fn any_number_of_lines() {
    // A stream of 200,000 lines that exists nowhere as a whole.
    let script = std::iter::repeat_n(*b"0 join 0\n", 200_000);
    struct Lines<I>(I);
    impl<I: Iterator<Item = [u8; 9]>> Read for Lines<I> {
        fn read(&mut self, buffer: &mut [u8]) -> io::Result<usize> {
            match self.0.next() {
                Some(line) => {
                    buffer[..line.len()].copy_from_slice(&line);
                    Ok(line.len())
                }
                None => Ok(0),
            }
        }
    }
    struct Count(usize);
    impl Write for Count {
        fn write(&mut self, bytes: &[u8]) -> io::Result<usize> {
            self.0 += bytes.iter().filter(|&&b| b == b'\n').count();
            Ok(bytes.len())
        }
        fn flush(&mut self) -> io::Result<()> {
            Ok(())
        }
    }
    let mut count = Count(0);
    play(BufReader::new(Lines(script)), &mut count).unwrap();
    assert_eq!(count.0, 200_000);
}

#[test]
fn endless_line() {
    // A line without end is known to be bad after a few bytes.
    let mut printed = Vec::new();
    play(BufReader::new(io::repeat(b'0')), &mut printed).unwrap();
    assert_eq!(printed, b"bad\n");
}
