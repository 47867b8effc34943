//! A trace played on the twin's ends, told as stories: docs/TRACES.md.

use super::story::{Did, Step, Story};
use crate::end::{Answer, End, Event, Params};
use crate::message;
use crate::replay::set;
use crate::trace::{row_of_draws, Brought, Does, Line, Verb, BUFFER, ENDS, MOST_DRAWS};
use crate::{Draw, DRAWS, HOSTS, OUTPUT_LEN};

/// The stories of a trace, and the number of the line that is bad, if one is.
pub fn play(trace: &[u8]) -> (Vec<Story>, Option<usize>) {
    let mut player = Player::default();
    let mut lines = trace.split(|byte| *byte == b'\n').enumerate().peekable();
    while let Some((place, line)) = lines.next() {
        // What stands after the last line feed is no line; it has to be empty.
        let is_last = lines.peek().is_none();
        if is_last && line.is_empty() {
            break;
        }
        if is_last || player.line(line).is_none() {
            return (player.stories, Some(place + 1));
        }
    }
    (player.stories, None)
}

struct Player {
    bench: Bench,
    stories: Vec<Story>,
    heading: String,
}

/// The ends and what surrounds a call.
struct Bench {
    ends: Vec<End>,
    /// Each end as it was left by what was last told of it.
    told: Vec<End>,
    draws: Vec<Draw>,
    draw_count: usize,
    room: usize,
    messages: Vec<Vec<u8>>,
    /// So many of the messages were put out before the present story.
    earlier: usize,
}

impl Default for Bench {
    fn default() -> Bench {
        let host = |place: u8| if place < HOSTS { place } else { 0 };
        let ends: Vec<End> = (0..ENDS)
            .map(|place| End::open(host(place), Params::STANDARD).1)
            .collect();
        Bench {
            told: ends.clone(),
            ends,
            draws: vec![0; usize::from(MOST_DRAWS)],
            draw_count: DRAWS,
            room: OUTPUT_LEN,
            messages: Vec::new(),
            earlier: 0,
        }
    }
}

impl Default for Player {
    fn default() -> Player {
        Player {
            bench: Bench::default(),
            stories: vec![Story::default()],
            heading: String::new(),
        }
    }
}

impl Player {
    /// Plays one line; none where it is bad.
    fn line(&mut self, line: &[u8]) -> Option<()> {
        match Line::parse(line)? {
            Line::Blank => {}
            Line::Heading(heading) => self.heading = heading.trim().to_string(),
            Line::Row(row) => self.row(&row.does)?,
        }
        Some(())
    }

    fn row(&mut self, does: &Does) -> Option<()> {
        let bench = &mut self.bench;
        match does {
            Does::Start => {
                *bench = Bench::default();
                self.turn_page();
            }
            Does::Draws { count, first, step } => {
                bench.set_draws(&row_of_draws(*count, *first, *step));
            }
            Does::Draw { place, value } => bench.draws[usize::from(*place)] = *value,
            Does::Each(values) => bench.set_draws(values),
            Does::Room(bytes) => bench.room = usize::from(*bytes),
            Does::Open { end, host, params } => self.open(usize::from(*end), *host, *params),
            Does::Call { end, clock, verb } => self.call(usize::from(*end), *clock, verb)?,
            Does::Copy { end, other } => {
                bench.ends[usize::from(*end)] = bench.ends[usize::from(*other)].clone();
            }
            Does::Set { end, field } => set(&mut bench.ends[usize::from(*end)], field),
            // These leave the ends as they are.
            Does::Why { verb, .. } => {
                bench.event_of(verb)?;
            }
            Does::Fill(_) | Does::Read(_) | Does::Write(_) | Does::WriteProbe | Does::Test(_) => {}
            Does::Ask { .. } | Does::AskOutput | Does::Show { .. } => {}
        }
        Some(())
    }

    fn open(&mut self, end: usize, host: u8, params: Params) {
        let (refused, opened) = End::open(host, params);
        self.bench.ends[end] = opened;
        let words = match refused {
            Some(number) => format!("open refused {number}"),
            None => "open".to_string(),
        };
        self.tell_change(end, words);
    }

    fn call(&mut self, end: usize, clock: u64, verb: &Verb) -> Option<()> {
        let (event, number) = self.bench.event_of(verb)?;
        if self.bench.ends[end] != self.bench.told[end] {
            self.tell_change(end, "set".to_string());
        }
        let bench = &mut self.bench;
        let mut buffer = [0; BUFFER as usize];
        let out = &mut buffer[..bench.room];
        let draws = &bench.draws[..bench.draw_count];
        let answer = bench.ends[end].event(&event, clock, draws, out);
        if let Answer::Out(length) = answer {
            bench.messages.push(out[..length].to_vec());
        }
        let did = Did::Event {
            event: &event,
            answer,
            out: &buffer,
            heard: number.and_then(|number| number.checked_sub(bench.earlier)),
        };
        self.tell(end, clock, did);
        Some(())
    }

    /// A change of an end's state that is no event. Time can go back by it; then a new
    /// story begins.
    fn tell_change(&mut self, end: usize, words: String) {
        let clock = self.bench.ends[end].clock;
        if clock < self.bench.told[end].clock {
            self.turn_page();
        }
        self.tell(end, clock, Did::Change(words));
    }

    fn tell(&mut self, end: usize, clock: u64, did: Did) {
        let bench = &mut self.bench;
        let step = Step {
            end,
            clock,
            before: &bench.told[end],
            after: &bench.ends[end],
            did,
        };
        if let Some(story) = self.stories.last_mut() {
            if story.calls.is_empty() {
                story.heading = std::mem::take(&mut self.heading);
            }
            story.tell(&step);
        }
        bench.told[end] = bench.ends[end].clone();
    }

    fn turn_page(&mut self) {
        self.bench.earlier = self.bench.messages.len();
        self.stories.push(Story::default());
    }
}

impl Bench {
    fn set_draws(&mut self, draws: &[Draw]) {
        self.draw_count = draws.len();
        self.draws[..draws.len()].copy_from_slice(draws);
    }

    /// The event, and the number of the message that it brings where it has one.
    fn event_of(&self, verb: &Verb) -> Option<(Event, Option<usize>)> {
        let event = match verb {
            Verb::Join => Event::Join,
            Verb::Joined => Event::Joined,
            Verb::Leave => Event::Leave,
            Verb::Left => Event::Left,
            Verb::Crash => Event::Crash,
            Verb::Fire => Event::Fire,
            Verb::Report => Event::Report,
            Verb::Announce => Event::Announce,
            Verb::Send(cue) => Event::Send(*cue),
            Verb::Fetch(source, number) => Event::Fetch {
                source: *source,
                number: *number,
            },
            Verb::Hear(Brought::Bytes(bytes)) => Event::Arrival(bytes.clone()),
            Verb::Hear(Brought::Composed(composed)) => {
                let mut out = [0; BUFFER as usize];
                let length = message::write(&composed.to_message(), &mut out).unwrap_or(0);
                Event::Arrival(out[..length].to_vec())
            }
            Verb::Hear(Brought::Number(number)) => {
                let place = usize::try_from(*number).ok()?;
                let bytes = self.messages.get(place).filter(|_| self.keeps(place))?;
                return Some((Event::Arrival(bytes.clone()), Some(place)));
            }
        };
        Some((event, None))
    }

    /// "the last 64 are kept".
    fn keeps(&self, message: usize) -> bool {
        message + KEPT >= self.messages.len()
    }
}

const KEPT: usize = 64;
