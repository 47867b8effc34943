//! The crate against document 01's listing and cases, the header's numbers, and what its types promise.

use std::thread;

use cuelink::{
    Answer, Cue, Display, End, Event, Name, Params, Reason, Refusal, Status, DISPLAY_SIZE, SIZE,
};

const DRAWS: [u16; 64] = [0; 64];

fn opened(host: u8) -> End {
    End::open(host, &Params::HOUSE).unwrap()
}

fn member(host: u8) -> End {
    let mut end = opened(host);
    assert_eq!(end.join(0, &DRAWS), Ok(Answer::Done));
    assert_eq!(end.joined(0, &DRAWS), Ok(Answer::Done));
    end
}

fn focus(focus: i16) -> Cue {
    Cue::new(focus, 0, 0, 0, 0)
}

fn name(source: u8, number: u16) -> Name {
    Name { source, number }
}

fn out(answer: Result<Answer, Refusal>) -> Vec<u8> {
    answer.unwrap().message().expect("a message").to_vec()
}

/// Document 01's listing, with the due times 392 and 560.
#[test]
fn listing() {
    let mut ends = [member(0), member(1)];
    let cue = focus(-2);
    let zero = out(ends[0].send(10, &DRAWS, &cue));
    assert_eq!(
        ends[1].arrival(12, &DRAWS, &zero),
        Ok(Answer::Got(name(0, 0), cue))
    );
    out(ends[0].send(20, &DRAWS, &cue));
    let two = out(ends[0].send(30, &DRAWS, &cue));
    assert_eq!(ends[1].due(), None);
    assert_eq!(
        ends[1].arrival(32, &DRAWS, &two),
        Ok(Answer::Got(name(0, 2), cue))
    );
    assert_eq!(ends[1].due(), Some(392));
    assert_eq!(ends[1].fire(391, &DRAWS), Ok(Answer::Nothing));
    let request = out(ends[1].fire(392, &DRAWS));
    assert_eq!(
        request,
        [0x12, 1, 0, 0, 0, 0, 1, 0x88, 1, 0, 0, 1, 1, 0, 0, 0]
    );
    assert_eq!(ends[0].arrival(400, &DRAWS, &request), Ok(Answer::Done));
    assert_eq!(ends[0].due(), Some(560));
    let repair = out(ends[0].fire(560, &DRAWS));
    assert_eq!(
        ends[1].arrival(570, &DRAWS, &repair),
        Ok(Answer::Got(name(0, 1), cue))
    );
    assert_eq!(
        (ends[1].first(0), ends[1].last(0), ends[1].origin(0)),
        (Some(0), Some(2), Some(0))
    );
}

#[test]
fn refusals() {
    let wrong = |change: fn(&mut Params)| {
        let mut params = Params::HOUSE;
        change(&mut params);
        End::open(0, &params).err()
    };
    assert_eq!(End::open(8, &Params::HOUSE).err(), Some(Refusal::BadHost));
    assert_eq!(wrong(|p| p.d3 = 10), Some(Refusal::BadParams));
    assert_eq!(wrong(|p| p.c1 = (1 << 32) + 9), Some(Refusal::BadParams));
    assert_eq!(wrong(|p| p.e = 1001), Some(Refusal::BadExpress));
    assert_eq!(wrong(|p| p.e = 1000), None);
    let mut end = member(0);
    assert_eq!(end.fire(1 << 48, &DRAWS), Err(Refusal::ClockHigh));
    assert_eq!(end.fire(9, &DRAWS), Ok(Answer::Nothing));
    assert_eq!(end.fire(8, &DRAWS), Err(Refusal::ClockBack));
    assert_eq!(end.send(9, &DRAWS, &focus(-2001)), Err(Refusal::BadCue));
    assert_eq!(end.arrival(9, &DRAWS, &[20]), Err(Refusal::BadLength));
    assert_eq!(end.arrival(9, &DRAWS, &[0; 12]), Err(Refusal::BadKind));
    assert_eq!(
        end.arrival(9, &DRAWS, &[20, 8, 0, 0, 0, 0, 0, 0, 0, 0, 0, 0]),
        Err(Refusal::BadRange)
    );
    assert_eq!(
        end.arrival(
            9,
            &DRAWS,
            &[0x12, 1, 0, 0, 0, 0, 1, 0x88, 1, 1, 0, 1, 1, 0, 0, 0]
        ),
        Err(Refusal::BadHosts)
    );
    assert_eq!(end.arrival(9, &DRAWS, &[0; 128]), Err(Refusal::BadLength));
    assert_eq!(end.clock(), 9);
    assert_eq!(
        Refusal::BadCue.to_string(),
        "refused 6: an offset is not in -2000..2000, or the lamp is above 1000"
    );
}

/// A restart with the stored numbers is Leave and Left, and the numbers go on.
#[test]
fn reopened() {
    let mut end = member(5);
    out(end.send(10, &DRAWS, &focus(1)));
    out(end.send(20, &DRAWS, &focus(2)));
    let mut again = End::reopen(5, &Params::HOUSE, end.clock(), end.next()).unwrap();
    end.leave(20, &DRAWS).unwrap();
    end.left(20, &DRAWS).unwrap();
    assert_eq!(again, end);
    again.join(20, &DRAWS).unwrap();
    again.joined(20, &DRAWS).unwrap();
    assert_eq!(out(again.send(21, &DRAWS, &focus(3)))[10..12], [0, 2]);
    assert_eq!(
        End::reopen(8, &Params::HOUSE, 1 << 48, 65_537).err(),
        Some(Refusal::BadHost)
    );
    assert_eq!(
        End::reopen(5, &Params::HOUSE, 1 << 48, 65_537).err(),
        Some(Refusal::ClockHigh)
    );
    assert_eq!(
        End::reopen(5, &Params::HOUSE, 1, 65_537).err(),
        Some(Refusal::NoNumbers)
    );
    let mut last = End::reopen(5, &Params::HOUSE, 1, 65_536).unwrap();
    last.join(1, &DRAWS).unwrap();
    last.joined(1, &DRAWS).unwrap();
    assert_eq!(last.send(1, &DRAWS, &focus(3)), Err(Refusal::NoNumbers));
}

/// Stored and read back an end is the same; of what is no sound state none is made.
#[test]
fn bytes() {
    let mut end = member(2);
    out(end.send(10, &DRAWS, &focus(1)));
    let stored = end.as_bytes().to_vec();
    assert_eq!(stored.len(), SIZE);
    let mut again = End::from_bytes(&stored).unwrap();
    assert_eq!(again, end);
    assert_eq!(again.report(11, &DRAWS), end.report(11, &DRAWS));
    assert_eq!(again.into_bytes(), end.into_bytes());
    let refused = |change: fn(&mut Vec<u8>)| {
        let mut bytes = stored.clone();
        change(&mut bytes);
        End::from_bytes(&bytes).err()
    };
    assert_eq!(refused(|_| ()), None);
    let not_sound = Some(Refusal::NotSound);
    assert_eq!(refused(|bytes| bytes.truncate(SIZE - 1)), not_sound);
    assert_eq!(refused(|bytes| bytes.push(0)), not_sound);
    assert_eq!(refused(|bytes| bytes.clear()), not_sound);
    assert_eq!(refused(|bytes| bytes[0] = 0), not_sound);
    assert_eq!(refused(|bytes| bytes[1] = 2), not_sound);
    assert_eq!(refused(|bytes| bytes[67] = 5), not_sound);
    // of the form of a state, and not sound: a next number that is not last + 1
    assert_eq!(refused(|bytes| bytes[71] += 1), not_sound);
}

#[test]
fn looks_and_reasons() {
    let mut end = opened(3);
    assert_eq!(
        (end.host(), end.status(), end.clock(), end.next()),
        (3, Status::Idle, 0, 0)
    );
    assert_eq!(
        (end.distance(0), end.distance(3), end.distance(8)),
        (Some(40), Some(0), None)
    );
    assert_eq!(
        (end.first(0), end.missed(0), end.missed(255)),
        (None, Some(0), None)
    );
    let cue = focus(4);
    assert_eq!(
        end.reason(1, Event::Send(&cue)),
        Ok(Some(Reason::WrongStatus))
    );
    assert_eq!(end.reason(1, Event::Arrival(&[7])), Err(Refusal::BadLength));
    assert_eq!(end.crash(1, &DRAWS), Ok(Answer::Done));
    assert_eq!(end.reason(1, Event::Join), Ok(Some(Reason::Crashed)));
    assert_eq!(end.status(), Status::Crashed);
    let mut end = member(3);
    assert_eq!(
        end.reason(1, Event::Fetch(name(200, 65_535))),
        Ok(Some(Reason::NoFetch))
    );
    assert_eq!(end.fetch(1, &DRAWS, name(200, 65_535)), Ok(Answer::Ignored));
    assert_eq!(end.announce(1, &DRAWS), Ok(Answer::Nothing));
    assert_eq!(end.reason(1, Event::Announce), Ok(None));
    assert_eq!(Reason::NoFetch.to_string(), "no fetch");
    assert!(format!("{end:?}").starts_with("End { host: 3, status: Member, clock: 1, next: 0"));
}

#[test]
fn clash_and_late() {
    let (mut a, mut b) = (member(0), member(1));
    let first = out(a.send(1, &DRAWS, &focus(1)));
    b.arrival(2, &DRAWS, &first).unwrap();
    let mut other = first.clone();
    other[15] = 9;
    assert_eq!(b.arrival(3, &DRAWS, &other), Ok(Answer::Clash(name(0, 0))));
    let mut late = member(2);
    let second = out(a.send(4, &DRAWS, &focus(2)));
    late.arrival(5, &DRAWS, &second).unwrap();
    let report = out(a.report(6, &DRAWS));
    late.arrival(7, &DRAWS, &report).unwrap();
    let fetch = out(late.fetch(8, &DRAWS, name(0, 0)));
    let answer = out(a.arrival(9, &DRAWS, &fetch));
    assert_eq!(
        late.arrival(10, &DRAWS, &answer),
        Ok(Answer::Late(name(0, 0), focus(1)))
    );
    assert_eq!(late.fetch(11, &DRAWS, name(0, 0)), Ok(Answer::Ignored));
}

/// docs/DISPLAYS.md, "The window in plain words".
#[test]
fn displays() {
    assert_eq!(Display::open(3, 3).err(), Some(Refusal::BadHost));
    assert_eq!(Display::open(3, 8).err(), Some(Refusal::BadHost));
    let mut screen = Display::open(3, 1).unwrap();
    assert_eq!(
        (
            screen.own(),
            screen.sender(),
            screen.clock(),
            screen.trail(),
            screen.lead()
        ),
        (3, 1, 0, None, None)
    );
    let data = |number: u16| {
        let mut bytes = vec![17, 1, 0, 0, 0, 0, 0, 5, 1, 1, 0, 0, 1, 1];
        bytes[10..12].copy_from_slice(&number.to_be_bytes());
        bytes.extend([0; 26]);
        bytes
    };
    assert_eq!(
        screen.hear(2, &data(5)).unwrap().answer,
        Answer::Got(name(1, 5), focus(0))
    );
    let heard = screen.hear(3, &data(70)).unwrap();
    assert_eq!(
        (heard.answer, heard.lost.above),
        (Answer::Got(name(1, 70), focus(0)), Some(6..=6))
    );
    let announced = [
        24, 1, 0, 0, 0, 0, 0, 5, 2, 1, 0, 200, 1, 1, 0, 210, 1, 0, 0, 0,
    ];
    let heard = screen.hear(4, &announced).unwrap();
    let lost: Vec<u16> = heard.lost.numbers().collect();
    assert_eq!(lost, (7..70).chain(71..200).collect::<Vec<_>>());
    assert_eq!((screen.trail(), screen.lead()), (Some(200), Some(210)));
    let stored = *screen.as_bytes();
    assert_eq!(stored.len(), DISPLAY_SIZE);
    assert_eq!(Display::from_bytes(&stored).unwrap(), screen);
    for wrong in [&stored[..24], &[stored.as_slice(), &[0]].concat(), &[0; 25]] {
        assert_eq!(Display::from_bytes(wrong).err(), Some(Refusal::NotSound));
    }
    let request = screen.step(5).unwrap().unwrap();
    assert_eq!(request[9..13], [1, 0, 200, 3]);
    assert_eq!(screen.step(4).err(), Some(Refusal::ClockBack));
    assert_eq!(screen.hear(5, &[1]).err(), Some(Refusal::BadLength));
    assert!(screen.hear(5, &[]).unwrap().lost.is_empty());
}

#[test]
fn lens_windows() {
    use cuelink::windows::{find, roll, Date, Moment, Window, MOST};
    let window = Window {
        first: Date::FIRST,
        last: Date::LAST,
        start: 10,
        end: 20,
    };
    let from = Moment {
        date: Date {
            year: 2024,
            month: 2,
            day: 28,
        },
        minute: 20,
    };
    let leap = Date {
        year: 2024,
        month: 2,
        day: 29,
    };
    for count in 1..=MOST {
        assert_eq!(
            find(&vec![window; count], from),
            Ok(Some(Moment {
                date: leap,
                minute: 10
            }))
        );
    }
    for count in [MOST + 1, MOST + 2, 1000] {
        assert_eq!(find(&vec![window; count], from), Err(Refusal::BadDate));
    }
    assert_eq!(find(&[], from), Ok(None));
    assert_eq!(
        find(&[Window { end: 10, ..window }], from),
        Err(Refusal::BadDate)
    );
    assert_eq!(
        find(
            &[window],
            Moment {
                minute: 1440,
                ..from
            }
        ),
        Err(Refusal::BadDate)
    );
    assert_eq!(roll(Date::LAST), Ok(Date::LAST));
    assert_eq!(
        roll(Date {
            year: 2023,
            month: 2,
            day: 29
        }),
        Err(Refusal::BadDate)
    );
}

/// 576 KiB for a call and 64 for the thread itself are enough, and ends may move between threads.
#[test]
fn threads() {
    let run = |host: u8| {
        let run = move || {
            let mut end = member(host);
            (0..40)
                .map(|clock| out(end.send(clock, &DRAWS, &focus(1))))
                .collect::<Vec<_>>()
        };
        thread::Builder::new()
            .stack_size(640 << 10)
            .spawn(run)
            .unwrap()
    };
    let threads: Vec<_> = (0..8).map(run).collect();
    for (host, thread) in threads.into_iter().enumerate() {
        let messages = thread.join().unwrap();
        assert!(messages
            .iter()
            .all(|message| usize::from(message[1]) == host));
    }
}

/// The enums have the numbers of cuelink.h.
#[test]
fn numbers_of_the_header() {
    let header = include_str!("../../cuelink.h");
    let has = |word: &str, number: u64| {
        let values: Vec<u64> = header
            .lines()
            .filter_map(|line| {
                let mut words = line
                    .trim()
                    .trim_start_matches("#define ")
                    .split([' ', ',', '='])
                    .filter(|word| !word.is_empty());
                (words.next() == Some(word)).then(|| words.next()?.parse().ok())?
            })
            .collect();
        assert_eq!(values, [number], "{word}");
    };
    let refusals = "NO_ROOM BAD_DRAWS NOT_SOUND CLOCK_HIGH CLOCK_BACK BAD_CUE NO_NUMBERS BAD_LENGTH BAD_KIND BAD_RANGE BAD_HOSTS BAD_HOST \
                    BAD_PARAMS BAD_EXPRESS BAD_DATE";
    for (word, refusal) in refusals.split_whitespace().zip(Refusal::ALL) {
        has(&format!("CUELINK_{word}"), refusal.number().into());
    }
    let reasons = "CRASHED WRONG_STATUS OWN_MESSAGE NOT_OPEN BELOW_FIRST OWN_ABOVE_LAST ALREADY_HELD REPLY_WAITING REPLY_QUIET REQUEST_QUIET NO_FETCH";
    for (word, reason) in reasons.split_whitespace().zip(Reason::ALL) {
        has(&format!("CUELINK_{word}"), reason.number().into());
    }
    for (word, status) in "IDLE JOINING MEMBER LEAVING CRASHED"
        .split_whitespace()
        .zip(Status::ALL)
    {
        has(&format!("CUELINK_STATUS_{word}"), status.number().into());
    }
    has("CUELINK_SIZE", SIZE as u64);
    has("CUELINK_DISPLAY_SIZE", DISPLAY_SIZE as u64);
    has("CUELINK_RECEIVE", cuelink::RECEIVE as u64);
    has("CUELINK_TICK", cuelink::TICK.as_micros() as u64);
}
