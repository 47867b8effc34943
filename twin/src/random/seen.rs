//! How often each answer, each refusal and each branch of document 02, P11's rules for displays came in random scripts, in the papers' words.

use std::fmt;

use crate::end::Answer;
use crate::message::{self, Datagram, Message};
use crate::screen::{Losses, Screen, Window};
use crate::{CLOCK_MAX, HOSTS};

/// All of them, in the order of the sentences.
const ALL: [&str; 86] = [
    "opened",
    "12: own host",
    "12: sender's host",
    "12: the same host",
    "hear: got",
    "hear: done",
    "hear: ignored",
    "hear: refused 1",
    "hear: refused 3",
    "hear: refused 4",
    "hear: refused 5",
    "hear: refused 8",
    "hear: refused 9",
    "hear: refused 10",
    "hear: refused 11",
    "step: out",
    "step: nothing",
    "step: refused 1",
    "step: refused 3",
    "step: refused 4",
    "step: refused 5",
    "sound: own host",
    "sound: sender's host",
    "sound: two different hosts",
    "sound: clock",
    "sound: lead is not below trail",
    "sound: lead is not above trail+63",
    "sound: receptions only up to lead",
    "sound at its edge: lead is trail+63, all received",
    "sound at its edge: the last clock",
    "start: at the sender's first DATA",
    "start: number below 63",
    "start: number 65535",
    "before the start: REPL",
    "before the start: kind 24",
    "before the start: another's DATA",
    "before the start: another kind or a probe",
    "DATA: below trail",
    "DATA: received already",
    "DATA: missing",
    "DATA: lead+1, trail stays",
    "DATA: above lead+1, trail stays",
    "DATA: above lead, trail rises",
    "REPL: below trail",
    "REPL: received already",
    "REPL: missing",
    "REPL: lead+1, trail stays",
    "REPL: above lead+1, trail stays",
    "REPL: above lead, trail rises",
    "REPL: sent by the sender",
    "REPL: sent by another",
    "REPL: sent by oneself",
    "REPL: for oneself",
    "REPL: for another",
    "REPL: of another source's cue",
    "DATA: another's",
    "a cue counts as trail 0: n below 63",
    "a cue is 65535",
    "an old kind: DATA",
    "an old kind: REPL",
    "kind 24: both values as heard",
    "kind 24: both lower",
    "kind 24: trail alone rises",
    "kind 24: trail alone rises, lead is lower",
    "kind 24: lead alone rises",
    "kind 24: lead alone rises, trail is lower",
    "kind 24: both rise",
    "kind 24: trail rises above the old lead",
    "kind 24: another's",
    "ignored: RQST",
    "ignored: SESS",
    "ignored: kind 21",
    "ignored: kind 22",
    "ignored: kind 23",
    "ignored: probe",
    "lost: none, trail passes received numbers alone",
    "lost: in the set alone",
    "lost: in the span alone",
    "lost: in both",
    "lost: all of the window passed, no span",
    "lost: 64 numbers in the set",
    "lost: a span of one number",
    "lost: a span of 1,000 numbers or more",
    "step: the lowest missing is trail",
    "step: the lowest missing is above trail",
    "an end hears the display's RQST and has a reply waiting",
];

#[derive(Clone)]
pub struct Seen([u64; ALL.len()]);

impl Default for Seen {
    fn default() -> Seen {
        Seen([0; ALL.len()])
    }
}

/// Each with how often it came.
impl fmt::Display for Seen {
    fn fmt(&self, f: &mut fmt::Formatter<'_>) -> fmt::Result {
        for (words, count) in ALL.iter().zip(self.0) {
            writeln!(f, "{count:8}  {words}")?;
        }
        Ok(())
    }
}

impl Seen {
    /// Those that never came.
    pub fn never(&self) -> impl Iterator<Item = &'static str> + '_ {
        let all = ALL.iter().zip(self.0);
        all.filter(|(_, count)| *count == 0)
            .map(|(words, _)| *words)
    }

    fn take(&mut self, words: &str) {
        let place = ALL.iter().position(|listed| *listed == words);
        self.0[place.unwrap_or_else(|| panic!("{words} is not listed"))] += 1;
    }

    fn when(&mut self, yes: bool, words: &str) {
        if yes {
            self.take(words);
        }
    }

    pub fn open(&mut self, own: u8, sender: u8) {
        self.take(match (own < HOSTS, sender < HOSTS) {
            (false, _) => "12: own host",
            (_, false) => "12: sender's host",
            _ if own == sender => "12: the same host",
            _ => "opened",
        });
    }

    /// An end heard the display's request.
    pub fn request(&mut self, waits: bool) {
        self.when(
            waits,
            "an end hears the display's RQST and has a reply waiting",
        );
    }

    /// One call of the display: with bytes `hear`, else `step`.
    pub fn call(
        &mut self,
        before: &Screen,
        bytes: Option<&[u8]>,
        after: &Screen,
        answer: Answer,
        losses: Losses,
    ) {
        let call = if bytes.is_some() { "hear" } else { "step" };
        let said = match answer {
            Answer::Refused(number) => format!("refused {number}"),
            Answer::Got { .. } => "got".to_string(),
            Answer::Done => "done".to_string(),
            Answer::Out(_) => "out".to_string(),
            Answer::Nothing => "nothing".to_string(),
            _ => "ignored".to_string(),
        };
        self.take(&format!("{call}: {said}"));
        match answer {
            Answer::Refused(3) => self.unsound(before),
            Answer::Refused(_) => {}
            _ => {
                self.edges(before);
                self.losses(before, after, losses);
                match bytes {
                    Some(bytes) => self.heard(before, bytes, after),
                    None => self.stepped(before, answer),
                }
            }
        }
    }

    /// Why a display is not sound, each by itself.
    fn unsound(&mut self, screen: &Screen) {
        self.when(screen.own >= HOSTS, "sound: own host");
        self.when(screen.sender >= HOSTS, "sound: sender's host");
        self.when(screen.own == screen.sender, "sound: two different hosts");
        self.when(screen.clock > CLOCK_MAX, "sound: clock");
        let Some(Window {
            trail,
            lead,
            received,
        }) = screen.window
        else {
            return;
        };
        match i32::from(lead) - i32::from(trail) {
            ..0 => self.take("sound: lead is not below trail"),
            64.. => self.take("sound: lead is not above trail+63"),
            63 => {}
            above => self.when(
                received >> (above + 1) != 0,
                "sound: receptions only up to lead",
            ),
        }
    }

    fn edges(&mut self, screen: &Screen) {
        self.when(
            screen.clock == CLOCK_MAX,
            "sound at its edge: the last clock",
        );
        let full = screen
            .window
            .is_some_and(|w| w.lead - w.trail == 63 && w.received == u64::MAX);
        self.when(full, "sound at its edge: lead is trail+63, all received");
    }

    fn losses(&mut self, before: &Screen, after: &Screen, losses: Losses) {
        let (Some(old), Some(new)) = (before.window, after.window) else {
            return;
        };
        let rose = new.trail > old.trail;
        match (losses.set, losses.span) {
            (0, None) => self.when(rose, "lost: none, trail passes received numbers alone"),
            (_, None) => self.take("lost: in the set alone"),
            (0, _) => self.take("lost: in the span alone"),
            _ => self.take("lost: in both"),
        }
        let passed = new.trail == old.lead.saturating_add(1) && old.lead - old.trail == 63;
        self.when(
            passed && losses.set != 0,
            "lost: all of the window passed, no span",
        );
        self.when(losses.set == u64::MAX, "lost: 64 numbers in the set");
        if let Some((from, to)) = losses.span {
            self.when(from == to, "lost: a span of one number");
            self.when(to - from >= 999, "lost: a span of 1,000 numbers or more");
        }
    }

    fn stepped(&mut self, before: &Screen, answer: Answer) {
        if let (Answer::Out(_), Some(window)) = (answer, before.window) {
            self.take(match window.received & 1 {
                0 => "step: the lowest missing is trail",
                _ => "step: the lowest missing is above trail",
            });
        }
    }

    /// What was heard, and how it stands to the window.
    fn heard(&mut self, before: &Screen, bytes: &[u8], after: &Screen) {
        let Ok(Datagram::Message(message)) = message::read(bytes) else {
            self.when(
                before.window.is_none(),
                "before the start: another kind or a probe",
            );
            return self.take("ignored: probe");
        };
        let named = message.names.first().map(|name| name.source);
        let its_own = named == Some(before.sender);
        match (message.kind, before.window) {
            (message::DATA | message::REPL, Some(window)) if its_own => {
                self.cue(before, &message, window, after);
            }
            (message::DATA, Some(_)) => self.take("DATA: another's"),
            (message::REPL, Some(_)) => self.take("REPL: of another source's cue"),
            (message::ANNC, Some(window)) if message.sender == before.sender => {
                self.announced(&message, window);
            }
            (message::ANNC, Some(_)) => self.take("kind 24: another's"),
            (message::DATA, None) if its_own => self.started(&message),
            (message::DATA, None) => self.take("before the start: another's DATA"),
            (message::REPL, None) => self.take("before the start: REPL"),
            (message::ANNC, None) => self.take("before the start: kind 24"),
            (_, None) => self.take("before the start: another kind or a probe"),
            _ => {}
        }
        match message.kind {
            message::RQST => self.take("ignored: RQST"),
            message::SESS => self.take("ignored: SESS"),
            message::XPRS => self.take("ignored: kind 21"),
            message::FTCH => self.take("ignored: kind 22"),
            message::LATE => self.take("ignored: kind 23"),
            message::DATA => self.when(message::is_old(bytes[0]), "an old kind: DATA"),
            message::REPL => self.when(message::is_old(bytes[0]), "an old kind: REPL"),
            _ => {}
        }
    }

    fn started(&mut self, message: &Message) {
        let number = message.names[0].number;
        self.take("start: at the sender's first DATA");
        self.when(number < 63, "start: number below 63");
        self.when(number == u16::MAX, "start: number 65535");
    }

    /// A cue of its sender, once started.
    fn cue(&mut self, before: &Screen, message: &Message, window: Window, after: &Screen) {
        let name = message.names[0];
        let number = name.number;
        let repair = message.kind == message::REPL;
        let rises = after.window.is_some_and(|new| new.trail > window.trail);
        let stands = if number < window.trail {
            "below trail"
        } else if number <= window.lead {
            match window.received >> (number - window.trail) & 1 {
                1 => "received already",
                _ => "missing",
            }
        } else if rises {
            "above lead, trail rises"
        } else if number - window.lead == 1 {
            "lead+1, trail stays"
        } else {
            "above lead+1, trail stays"
        };
        let kind = if repair { "REPL" } else { "DATA" };
        self.take(&format!("{kind}: {stands}"));
        self.when(
            number < 63 && number > window.lead,
            "a cue counts as trail 0: n below 63",
        );
        self.when(number == u16::MAX, "a cue is 65535");
        if repair {
            self.take(match message.sender {
                sender if sender == before.sender => "REPL: sent by the sender",
                sender if sender == before.own => "REPL: sent by oneself",
                _ => "REPL: sent by another",
            });
            self.take(if name.host == before.own {
                "REPL: for oneself"
            } else {
                "REPL: for another"
            });
        }
    }

    /// Kind 24 of its sender, once started.
    fn announced(&mut self, message: &Message, window: Window) {
        let (trail, lead) = (message.names[0].number, message.names[1].number);
        let (higher, wider) = (trail > window.trail, lead > window.lead);
        let (lower, narrower) = (trail < window.trail, lead < window.lead);
        self.when(
            (trail, lead) == (window.trail, window.lead),
            "kind 24: both values as heard",
        );
        self.when(lower && narrower, "kind 24: both lower");
        self.when(higher && !wider, "kind 24: trail alone rises");
        self.when(
            higher && narrower,
            "kind 24: trail alone rises, lead is lower",
        );
        self.when(wider && !higher, "kind 24: lead alone rises");
        self.when(wider && lower, "kind 24: lead alone rises, trail is lower");
        self.when(higher && wider, "kind 24: both rise");
        self.when(
            trail > window.lead,
            "kind 24: trail rises above the old lead",
        );
    }
}
