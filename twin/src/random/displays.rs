//! Random scripts of the program `foyer` (docs/DISPLAYS.md). A run plays what it draws on the twin's ends and display, so that it knows their
//! states, and holds the display's calls against the partition: "After any messages each number from the start to lead was handed out once,
//! is missing, or was reported lost once." (document 02, P11)

use std::fmt::Write;

use super::dice::Dice;
use super::messages::announcement;
use super::partition::Partition;
use super::seen::Seen;
use crate::cue::Cue;
use crate::end::{Answer, Status};
use crate::foyer::{Brought, Does, Field, Foyer, Verb};
use crate::message::{self, Message, Name, Report};
use crate::screen::{Screen, Window};
use crate::CLOCK_MAX;

/// What the scripts of some seeds are.
pub struct Scripts {
    pub text: String,
    pub seen: Seen,
}

/// The scripts of these seeds as one, each with so many calls of the display or a few more. The error says where the partition fails.
pub fn scripts(from: u64, to: u64, steps: u64) -> Result<Scripts, String> {
    let mut run = Run::new();
    for seed in from..=to {
        run.start(seed);
        while run.calls < steps {
            run.phase();
            if let Some(fault) = run.fault {
                return Err(format!("seed {seed}: {fault}"));
            }
        }
    }
    Ok(Scripts {
        text: run.text,
        seen: run.seen,
    })
}

struct Run {
    dice: Dice,
    foyer: Foyer,
    text: String,
    /// Calls of the display in this seed's run.
    calls: u64,
    /// The time of the ends, and of the display where it hears them.
    now: u64,
    partition: Partition,
    seen: Seen,
    fault: Option<String>,
}

/// Something that the display is called with in a phase by itself.
type Part = fn(&mut Run);

const PARTS: [(u64, Part); 9] = [
    (34, Run::cue),
    (16, Run::announced),
    (9, Run::other),
    (8, Run::damaged),
    (2, Run::probe),
    (14, Run::step),
    (3, Run::bad_clock),
    (2, Run::short_room),
    (8, Run::step_and_repair),
];

impl Run {
    fn new() -> Run {
        Run {
            dice: Dice::seeded(0),
            foyer: Foyer::open(),
            text: String::new(),
            calls: 0,
            now: 0,
            partition: Partition::off(),
            seen: Seen::default(),
            fault: None,
        }
    }

    fn start(&mut self, seed: u64) {
        self.dice = Dice::seeded(seed);
        self.calls = 0;
        let clocks = self.foyer.ends.iter().map(|end| end.clock);
        self.now = clocks.max().unwrap_or(0);
        let _ = writeln!(self.text, "# seed {seed}");
        self.does(Does::Open { own: 2, sender: 0 });
    }

    /// Mostly a display by itself, its messages invented; or one beside the ends; or one whose fields are set.
    fn phase(&mut self) {
        match self.dice.below(10) {
            0..=3 => self.alone(),
            4..=6 => self.beside_ends(),
            _ => self.set_up(),
        }
    }

    /// A line, played as it is written.
    fn does(&mut self, does: Does) {
        let before = self.foyer.screen;
        let bytes = self.brought(&does);
        let _ = writeln!(self.text, "{does}");
        if self.foyer.play(&does).is_none() {
            self.fault = Some(format!("{does} is bad"));
        }
        let after = self.foyer.screen;
        match does {
            Does::Open { own, sender } => {
                self.seen.open(own, sender);
                self.partition = Partition::of(&after);
            }
            Does::Set(_) => {
                self.partition = Partition::of(&after);
                self.does(Does::Show);
            }
            // What the last call left stays as it is.
            Does::Room(_)
            | Does::Event {
                verb: Verb::Announce,
                ..
            } => self.does(Does::Show),
            Does::Hear { .. } | Does::Step { .. } => {
                let Some((answer, losses)) = self.foyer.last else {
                    return;
                };
                self.calls += 1;
                self.seen
                    .call(&before, bytes.as_deref(), &after, answer, losses);
                if let Err(fault) = self.partition.call(&before, &after, answer, losses) {
                    let line = self.text.lines().count();
                    self.fault = Some(format!("line {line}, {does}: {fault}"));
                }
                self.does(Does::Show);
            }
            _ => {}
        }
    }

    /// The bytes that the display is to hear.
    fn brought(&self, does: &Does) -> Option<Vec<u8>> {
        match does {
            Does::Hear {
                brought: Brought::Bytes(bytes),
                ..
            } => Some(bytes.clone()),
            Does::Hear {
                brought: Brought::Number(number),
                ..
            } => self.foyer.message(*number).cloned(),
            _ => None,
        }
    }

    fn screen(&self) -> Screen {
        self.foyer.screen
    }

    /// The hosts that a message can bring: of an unsound display one in range.
    fn hosts(&self) -> (u8, u8) {
        let screen = self.screen();
        (screen.own % 8, screen.sender % 8)
    }

    fn hears(&mut self, bytes: Vec<u8>) {
        let clock = self.later();
        let brought = Brought::Bytes(bytes);
        self.does(Does::Hear { clock, brought });
    }

    fn hears_message(&mut self, message: &Message) {
        self.hears(message::put_together(message));
    }

    /// A good clock for the display, mostly its own or soon after it.
    fn later(&mut self) -> u64 {
        let own = self.screen().clock.min(CLOCK_MAX);
        let ticks = match self.dice.below(60) {
            0 => self.dice.below(1 << 32),
            1..=20 => self.dice.below(50),
            _ => 0,
        };
        CLOCK_MAX.min(own + ticks)
    }
}

/// A display by itself.
impl Run {
    fn alone(&mut self) {
        self.open();
        if self.dice.one_in(6) {
            self.before_start();
        }
        for _ in 0..10 + self.dice.below(50) {
            let part = self.dice.weighted(&PARTS);
            part(self);
            // No number comes after 65,535.
            let at_end = self.screen().window.is_some_and(|w| w.lead > 65_530);
            if at_end && self.dice.one_in(6) {
                return;
            }
        }
    }

    /// An opening: mostly good, now and then refused before it.
    fn open(&mut self) {
        if self.dice.one_in(4) {
            let same = self.dice.small(8);
            let (own, sender) = self.dice.pick(&[
                (same, same),
                (8, same),
                (same, 8),
                (255, same),
                (same, 255),
                (8, 8),
                (9, 9),
            ]);
            self.does(Does::Open { own, sender });
            self.does(Does::Show);
            if self.dice.one_in(2) {
                return;
            }
        }
        let sender = self.dice.small(8);
        let own = self.dice.host_but(&[sender]);
        self.does(Does::Open { own, sender });
        if self.dice.one_in(8) {
            // Early, late and the last clocks.
            let clock = self
                .dice
                .pick(&[CLOCK_MAX - 200, CLOCK_MAX - 1, CLOCK_MAX, 1 << 40, 1000]);
            self.does(Does::Step { clock });
        }
    }

    /// What leaves it unstarted.
    fn before_start(&mut self) {
        let sender = self.hosts().1;
        for _ in 0..3 {
            match self.dice.below(4) {
                0 => {
                    let number = self.any_number();
                    let repair = self.repair(number);
                    self.hears_message(&repair);
                }
                1 => {
                    let trail = self.any_number();
                    let message = announcement(sender, 0, trail, trail.saturating_add(9));
                    self.hears_message(&message);
                }
                2 => self.step(),
                _ => self.other(),
            }
        }
    }

    fn any_number(&mut self) -> u16 {
        let any = self.dice.number(65_536);
        let low = self.dice.number(130);
        self.dice.weighted(&[
            (3, low),
            (2, any),
            (1, 0),
            (1, 63),
            (1, 64),
            (1, 65_471),
            (1, 65_472),
            (1, 65_473),
            (1, 65_534),
            (1, 65_535),
        ])
    }

    /// A number about the edges of the window.
    fn near(&mut self) -> u16 {
        let Some(window) = self.screen().window else {
            return self.any_number();
        };
        let (trail, lead) = (i32::from(window.trail), i32::from(window.lead));
        let inside = trail + self.dice.below(64.min((lead - trail).max(0) as u64 + 1)) as i32;
        let soon = lead + 2 + self.dice.below(8) as i32;
        let edge = self.dice.pick(&[62, 63, 64, 65, 66]);
        let jump = self
            .dice
            .pick(&[100, 126, 127, 128, 129, 130, 1000, 30_000]);
        let any = i32::from(self.any_number());
        let number = self.dice.weighted(&[
            (3, trail - 1),
            (1, trail - 64),
            (4, trail),
            (3, trail + 1),
            (16, inside),
            (3, lead),
            (14, lead + 1),
            (10, soon),
            (6, trail + edge),
            (4, lead + edge),
            (2, lead + jump),
            (1, any),
        ]);
        number.clamp(0, 65_535) as u16
    }

    fn good_cue(&mut self) -> Cue {
        let focus = self.dice.below(4001) as i16 - 2000;
        let mut cue = Cue::with_focus(focus);
        if self.dice.one_in(4) {
            cue.0[10..].copy_from_slice(&self.dice.bytes(14));
        }
        cue
    }

    /// A DATA of this source.
    fn original(&mut self, source: u8, number: u16) -> Message {
        let cue = self.good_cue();
        self.about(message::DATA, source, (source, number, source), Some(cue))
    }

    /// A REPL of its sender's cue, from anyone, for anyone.
    fn repair(&mut self, number: u16) -> Message {
        let (own, source) = self.hosts();
        let other = self.dice.small(8);
        let sender = self.dice.pick(&[source, source, own, other, other]);
        self.repair_of(source, number, sender)
    }

    fn repair_of(&mut self, source: u8, number: u16, sender: u8) -> Message {
        let own = self.hosts().0;
        let other = self.dice.host_but(&[sender, source]);
        let for_own = own != sender && own != source && self.dice.one_in(2);
        let requester = if for_own { own } else { other };
        let cue = self.good_cue();
        let name = (source, number, requester);
        self.about(message::REPL, sender, name, Some(cue))
    }

    fn about(
        &mut self,
        kind: u8,
        sender: u8,
        (source, number, host): (u8, u16, u8),
        cue: Option<Cue>,
    ) -> Message {
        Message {
            kind,
            sender,
            stamp: self.dice.below(1000),
            names: vec![Name {
                source,
                number,
                host,
            }],
            cues: cue.into_iter().collect(),
            reports: vec![],
            echoes: vec![],
        }
    }

    /// A cue of its sender, as an original or a repair, now and then under an old kind.
    fn cue(&mut self) {
        let sender = self.hosts().1;
        let number = self.near();
        let message = match self.dice.below(5) {
            0 | 1 => self.repair(number),
            _ => self.original(sender, number),
        };
        if self.dice.one_in(12) {
            return self.hears(old(message));
        }
        self.hears_message(&message);
        if self.dice.one_in(6) {
            self.hears_message(&message);
        }
    }

    /// Kind 24 of its sender.
    fn announced(&mut self) {
        let sender = self.hosts().1;
        let trail = self.near();
        let any = self.dice.number(64);
        let above = self.dice.pick(&[0, 1, any, any, 62, 63, 63]);
        let mut lead = trail.saturating_add(above);
        if let Some(window) = self.screen().window {
            // Now and then the lead that it has, or one about it.
            let about = self.dice.pick(&[
                window.lead,
                window.lead.saturating_add(1),
                window.lead.saturating_sub(1),
            ]);
            let fits = trail <= about && about - trail <= 63;
            if fits && self.dice.one_in(2) {
                lead = about;
            }
        }
        self.hears_message(&announcement(sender, 0, trail, lead));
    }

    /// What is "all else": other kinds, and what is another's.
    fn other(&mut self) {
        let (own, sender) = self.hosts();
        let another = self.dice.host_but(&[sender]);
        let number = self.near();
        let message = match self.dice.below(10) {
            0 | 1 => self.original(another, number),
            2 | 3 => {
                let from = self.dice.pick(&[sender, own, another]);
                self.repair_of(another, number, from)
            }
            4 | 5 => announcement(another, 0, number, number.saturating_add(5)),
            6 => self.about(message::RQST, another, (sender, number, another), None),
            7 => {
                let kind = self.dice.pick(&[message::XPRS, message::FTCH]);
                self.about(kind, another, (sender, number, sender), None)
            }
            8 => {
                let cue = Some(self.good_cue());
                let host = self.dice.host_but(&[sender, another]);
                self.about(message::LATE, sender, (another, number, host), cue)
            }
            _ => {
                let report = Report {
                    source: sender,
                    last: number,
                };
                Message {
                    kind: message::SESS,
                    names: vec![],
                    reports: vec![report],
                    ..announcement(sender, 0, 0, 0)
                }
            }
        };
        if message.kind == message::LATE && self.dice.one_in(2) {
            // Kind 23 of its sender's cue.
            let cue = Some(self.good_cue());
            let host = self.dice.host_but(&[sender, another]);
            let late = self.about(message::LATE, another, (sender, number, host), cue);
            return self.hears_message(&late);
        }
        self.hears_message(&message);
    }

    /// A message that questions 8 to 11 turn down for one thing.
    fn damaged(&mut self) {
        let sender = self.hosts().1;
        let number = self.near();
        let good = match self.dice.below(3) {
            0 => self.original(sender, number),
            1 => self.repair(number),
            _ => announcement(sender, 0, number.min(65_000), number.min(65_000) + 5),
        };
        match self.dice.below(4) {
            0 => {
                let mut bytes = message::put_together(&good);
                self.damage_length(&mut bytes);
                self.hears(bytes);
            }
            1 => self.damage_kind(good),
            2 => self.damage_range(good),
            _ => self.damage_places(good),
        }
    }

    /// 8: "lengths 1 to 11 and counts that miss the length".
    fn damage_length(&mut self, bytes: &mut Vec<u8>) {
        match self.dice.below(5) {
            0 => bytes.truncate(self.dice.pick(&[1, 2, 11])),
            1 => bytes.push(0),
            2 => bytes.truncate(bytes.len() - 1),
            3 => bytes[8] = self.dice.pick(&[0, 3, 255]),
            _ => bytes.truncate(12 + self.dice.below(6) as usize),
        }
    }

    /// 9: the kind with its counts.
    fn damage_kind(&mut self, mut message: Message) {
        match self.dice.below(4) {
            0 => message.kind = self.dice.pick(&[0, 5, 16, 25, 255]),
            1 => message.names.push(message.names[0]),
            2 => message.names.clear(),
            _ => message.kind = message::RQST,
        }
        if message.kind == message::RQST && message.cues.is_empty() {
            message.kind = message::LATE;
        }
        self.hears_message(&message);
    }

    /// 10: hosts and cue fields in range.
    fn damage_range(&mut self, mut message: Message) {
        let host = self.dice.pick(&[8, 9, 255]);
        let place = self.dice.below(message.names.len() as u64) as usize;
        match (self.dice.below(4), message.cues.first_mut()) {
            (0, _) => message.sender = host,
            (1, _) => message.names[place].source = host,
            (3, Some(cue)) => {
                let (at, value) = self.dice.pick(&[(0, 2001), (6, 63_535), (8, 1001)]);
                let value: u16 = value;
                cue.0[at..at + 2].copy_from_slice(&value.to_be_bytes());
            }
            _ => message.names[place].host = host,
        }
        self.hears_message(&message);
    }

    /// 11: the table's last column, and "lead is from trail to trail+63".
    fn damage_places(&mut self, mut message: Message) {
        let sender = message.sender;
        let place = self.dice.below(message.names.len() as u64) as usize;
        let name = &mut message.names[place];
        match message.kind {
            message::REPL => name.host = self.dice.pick(&[sender, name.source]),
            message::DATA if self.dice.one_in(2) => message.sender ^= 1,
            message::DATA => name.host ^= 1,
            _ => match self.dice.below(4) {
                0 => name.source ^= 1,
                1 => name.host ^= 1,
                2 => message.names[1].number = message.names[0].number + self.dice.pick(&[64, 65]),
                _ => {
                    let trail = message.names[0].number.max(1);
                    message.names[0].number = trail;
                    message.names[1].number = trail - 1;
                }
            },
        }
        self.hears_message(&message);
    }

    fn probe(&mut self) {
        self.hears(vec![]);
    }

    fn step(&mut self) {
        let clock = self.later();
        self.does(Does::Step { clock });
    }

    /// A clock that question 4 or 5 refuses.
    fn bad_clock(&mut self) {
        let own = self.screen().clock;
        let clock = self
            .dice
            .pick(&[own.saturating_sub(1), own / 2, 1 << 48, u64::MAX]);
        if self.dice.one_in(2) {
            return self.does(Does::Step { clock });
        }
        let number = self.near();
        let sender = self.hosts().1;
        let message = self.original(sender, number);
        let brought = Brought::Bytes(message::put_together(&message));
        self.does(Does::Hear { clock, brought });
    }

    /// A few calls with another output.
    fn short_room(&mut self) {
        let room = self.dice.pick(&[0, 1, 127, 127, 129, 200]);
        self.does(Does::Room(room));
        for _ in 0..1 + self.dice.below(3) {
            match self.dice.below(3) {
                0 => self.step(),
                1 => self.announced(),
                _ => self.cue(),
            }
        }
        self.does(Does::Room(128));
    }

    /// The number that a step asks for comes as a repair.
    fn step_and_repair(&mut self) {
        self.step();
        let Some((Answer::Out(length), _)) = self.foyer.last else {
            return;
        };
        let read = message::read(&self.foyer.buffer[..length]);
        let asked = read.ok().and_then(|read| read.message());
        if let Some(name) = asked.and_then(|message| message.names.first().copied()) {
            let repair = self.repair(name.number);
            self.hears_message(&repair);
        }
    }
}

/// The message under the old kind that has its meaning, numbers as they are: those above 63 are cut to their low byte.
fn old(mut message: Message) -> Vec<u8> {
    message.kind -= 16;
    message::put_together_old(&message)
}

/// A display whose fields are set, sound or not.
impl Run {
    fn set_up(&mut self) {
        self.open();
        for _ in 0..2 + self.dice.below(6) {
            match self.dice.below(4) {
                0 => self.set_field(),
                1 => self.set_unsound(),
                _ => self.set_sound(),
            }
            for _ in 0..1 + self.dice.below(3) {
                let part = self.dice.weighted(&PARTS);
                part(self);
            }
        }
        if self.dice.one_in(3) {
            self.does(Does::Set(Field::Window(None)));
            self.cue();
        }
    }

    /// A sound window: full or not, its receptions none, all, some, or all but one.
    fn set_sound(&mut self) {
        if !self.screen().sound() {
            let sender = self.dice.small(8);
            let own = self.dice.host_but(&[sender]);
            self.does(Does::Set(Field::Own(own)));
            self.does(Does::Set(Field::Sender(sender)));
            self.does(Does::Set(Field::Clock(0)));
        }
        let trail = self.any_number();
        let any = self.dice.number(64);
        let above = self.dice.pick(&[0, 1, 62, 63, 63, any, any]);
        let lead = trail.saturating_add(above);
        let all = u64::MAX >> (63 - (lead - trail));
        let some = self.dice.below(u64::MAX) & self.dice.below(u64::MAX);
        let one = 1 << self.dice.below(64);
        let received = all
            & self
                .dice
                .pick(&[0, all, some, !some, one, !one, !1, all >> 1]);
        self.set_window(trail, lead, received);
    }

    fn set_window(&mut self, trail: u16, lead: u16, received: u64) {
        let window = Window {
            trail,
            lead,
            received,
        };
        self.does(Does::Set(Field::Window(Some(window))));
    }

    /// One field, at or past its edge.
    fn set_field(&mut self) {
        let Screen { own, sender, .. } = self.screen();
        let field = match self.dice.below(3) {
            0 => Field::Own(self.dice.pick(&[7, 8, 255, sender])),
            1 => Field::Sender(self.dice.pick(&[7, 8, 255, own])),
            _ => Field::Clock(self.dice.pick(&[CLOCK_MAX, CLOCK_MAX + 1, u64::MAX, 9])),
        };
        self.does(Does::Set(field));
    }

    /// A window just past what is sound.
    fn set_unsound(&mut self) {
        let trail = self.any_number();
        match self.dice.below(3) {
            0 => self.set_window(trail.max(1), trail.max(1) - 1, 0),
            1 => {
                let trail = trail.min(65_400);
                let above = self.dice.pick(&[64, 65, 128]);
                self.set_window(trail, trail + above, 0);
            }
            _ => {
                let above = self.dice.number(63).min(65_535 - trail);
                let beyond = self.dice.pick(&[above + 1, 63]);
                let within = self.dice.below(u64::MAX) & ((1 << (above + 1)) - 1);
                self.set_window(trail, trail + above, within | 1 << beyond);
            }
        }
    }
}

/// A display that hears the ends.
impl Run {
    fn end(&mut self, end: usize, verb: Verb) -> Option<u64> {
        let before = self.foyer.put_out;
        let clock = self.now;
        self.does(Does::Event { end, clock, verb });
        (self.foyer.put_out > before).then_some(before)
    }

    /// The end becomes a member; false where it has crashed.
    fn joins(&mut self, end: usize) -> bool {
        loop {
            let verb = match self.foyer.ends[end].status {
                Status::Member => return true,
                Status::Crashed => return false,
                Status::Idle => Verb::Join,
                Status::Joining => Verb::Joined,
                Status::Leaving => Verb::Left,
            };
            self.end(end, verb);
        }
    }

    /// Two ends are members, one of them is the display's sender. It sends and announces; messages to the display are lost, repeated and
    /// reordered; its requests are heard by the ends, and the repairs come back.
    fn beside_ends(&mut self) {
        let from = usize::from(self.dice.one_in(3));
        let other = 1 - from;
        if !self.joins(from) || !self.joins(other) || self.now > CLOCK_MAX - (1 << 24) {
            return self.alone();
        }
        let sender = from as u8;
        let own = self.dice.pick(&[2, 2, 5, 7, other as u8]);
        self.does(Does::Open { own, sender });
        let mut on_way: Vec<u64> = Vec::new();
        let loses = self.dice.pick(&[1, 2, 3, 8]);
        for _ in 0..10 + self.dice.below(30) {
            self.now += self.dice.pick(&[0, 1, 5, 30]);
            match self.dice.below(12) {
                0..=3 => self.sends(from, &mut on_way, loses),
                4 => {
                    let announced = self.end(from, Verb::Announce);
                    on_way.extend(announced);
                }
                5 | 6 => self.asks(from, &mut on_way),
                7 => self.elsewhere(other, &mut on_way),
                8 if self.dice.one_in(4) => self.moves(from, other),
                _ => {}
            }
            self.arrive(&mut on_way, loses);
        }
    }

    /// The sender sends one cue, or many.
    fn sends(&mut self, from: usize, on_way: &mut Vec<u64>, loses: u64) {
        let count = self.dice.weighted(&[(20, 1), (6, 3), (1, 20), (1, 66)]);
        for _ in 0..count {
            let focus = self.dice.below(4001) as i16 - 2000;
            let sent = self.end(from, Verb::Send(focus));
            if self.dice.one_in(loses) && count < 66 {
                continue;
            }
            if count < 66 || self.dice.one_in(12) {
                on_way.extend(sent);
            }
            // The other end hears most of them, so that it can repair.
            if let (Some(number), false) = (sent, self.dice.one_in(4)) {
                self.end(1 - from, Verb::Hear(number));
            }
        }
    }

    /// A step; where it puts out a request, an end or both hear it, and what they put out when it is due comes on its way.
    fn asks(&mut self, from: usize, on_way: &mut Vec<u64>) {
        let before = self.foyer.put_out;
        let clock = self.now.max(self.screen().clock.min(CLOCK_MAX));
        self.does(Does::Step { clock });
        if self.foyer.put_out == before {
            return;
        }
        let hearers = self.dice.weighted(&[
            (3, [true, false]),
            (2, [false, true]),
            (2, [true, true]),
            (1, [false, false]),
        ]);
        for (end, hears) in [from, 1 - from].into_iter().zip(hearers) {
            if hears {
                self.end(end, Verb::Hear(before));
                self.seen
                    .request(self.foyer.ends[end].first_due().is_some());
            }
        }
        self.now += 400;
        for (end, hears) in [from, 1 - from].into_iter().zip(hearers) {
            if hears {
                let fired = self.end(end, Verb::Fire);
                on_way.extend(fired);
            }
        }
    }

    /// The other end sends, announces, reports or asks, too; the display hears it and takes nothing of it.
    fn elsewhere(&mut self, other: usize, on_way: &mut Vec<u64>) {
        let verb = match self.dice.below(4) {
            0 => Verb::Send(3),
            1 => Verb::Announce,
            2 => Verb::Report,
            _ => Verb::Fire,
        };
        let put_out = self.end(other, verb);
        on_way.extend(put_out);
    }

    /// The sender leaves and joins again, so that its trail jumps; or the other end crashes, seldom.
    fn moves(&mut self, from: usize, other: usize) {
        if other == 1 && self.dice.one_in(40) {
            self.end(other, Verb::Crash);
            return;
        }
        self.end(from, Verb::Leave);
        if self.dice.one_in(2) {
            self.end(from, Verb::Announce);
        }
        self.joins(from);
        self.end(from, Verb::Announce);
    }

    /// Some of what is on its way arrives, in any order; one in a few is repeated.
    fn arrive(&mut self, on_way: &mut Vec<u64>, loses: u64) {
        for _ in 0..self.dice.below(4) {
            if on_way.is_empty() {
                return;
            }
            let first = on_way.len().saturating_sub(6);
            let at = match self.dice.one_in(2) {
                true => first + self.dice.below((on_way.len() - first) as u64) as usize,
                false => 0,
            };
            let number = match self.dice.one_in(6) {
                true => on_way[at],
                false => on_way.remove(at),
            };
            if self.foyer.message(number).is_none() || self.dice.one_in(loses * 4) {
                continue;
            }
            let clock = self.now.max(self.screen().clock.min(CLOCK_MAX));
            let brought = Brought::Number(number);
            self.does(Does::Hear { clock, brought });
        }
    }
}
