//! The benchmark's half in Rust: the same calls as the crate `pace`, with the state changed in place. The first argument is the
//! kind's letter, the second a digit d for 10^d times. Outputs are cleared before each call.
use std::hint::black_box;
use twin::cue::Cue;
use twin::end::{End, Event, Params};

fn call(e: &mut End, event: &Event, clock: u64) {
    let draws = [0u16; 64];
    let mut out = [0u8; 128];
    black_box(e.event(event, clock, &draws, &mut out));
    black_box(&out);
}

fn opened(host: u8) -> End {
    End::open(host, Params::STANDARD).1
}

fn member(host: u8) -> End {
    let mut e = opened(host);
    call(&mut e, &Event::Join, 0);
    call(&mut e, &Event::Joined, 0);
    e
}

/// The message with host 0's cue of this number, all zeros, sent at clock 0.
fn original(number: u8) -> Vec<u8> {
    let mut bytes = vec![0u8; 40];
    bytes[0] = 17;
    bytes[8] = 1;
    bytes[11] = number;
    bytes[13] = 1;
    bytes
}

fn run(kind: &str, n: u64) -> u64 {
    let mut e = member(0);
    match kind {
        "m" => {
            e = opened(0);
            for i in 0..n {
                call(&mut e, &Event::Join, i);
                call(&mut e, &Event::Joined, i);
                call(&mut e, &Event::Leave, i);
                call(&mut e, &Event::Left, i);
            }
        }
        "s" => {
            let send = Event::Send(Cue([0; 24]));
            for i in 0..n {
                if i % 64 == 0 {
                    e = member(0);
                }
                call(&mut e, &send, i);
            }
        }
        "g" => {
            let originals: Vec<Event> = (0..64).map(|k| Event::Arrival(original(k))).collect();
            for i in 0..n {
                if i % 64 == 0 {
                    e = member(1);
                }
                call(&mut e, &originals[(i % 64) as usize], i);
            }
        }
        "h" => {
            e = member(1);
            let mut bytes = vec![0u8; 12];
            bytes[0] = 20;
            let session = Event::Arrival(bytes);
            for i in 0..n {
                call(&mut e, &session, i);
            }
        }
        "f" => {
            for i in 0..n {
                call(&mut e, &Event::Fire, i);
            }
        }
        "r" => {
            for i in 0..n {
                call(&mut e, &Event::Report, i);
            }
        }
        "a" => {
            call(&mut e, &Event::Send(Cue([0; 24])), 0);
            for i in 0..n {
                call(&mut e, &Event::Announce, i);
            }
        }
        "t" => {
            e = member(1);
            call(&mut e, &Event::Arrival(original(5)), 0);
            let fetch = Event::Fetch {
                source: 0,
                number: 4,
            };
            for i in 0..n {
                call(&mut e, &fetch, i);
            }
        }
        "c" => {
            let member = e;
            e = opened(0);
            for i in 0..n {
                e.clone_from(&member);
                call(&mut e, &Event::Crash, i);
            }
        }
        _ => {
            let draws = [0u16; 63];
            for i in 0..n {
                let mut out = [0u8; 128];
                black_box(e.event(&Event::Fire, i, &draws, &mut out));
                black_box(&out);
            }
        }
    }
    black_box(&e).clock
}

fn main() {
    let args: Vec<String> = std::env::args().collect();
    if args[1] == "size" {
        print!("{}", std::mem::size_of::<End>());
        return;
    }
    let n = 10u64.pow(args[2].parse().expect("a digit"));
    print!("{}", run(&args[1], n));
}
