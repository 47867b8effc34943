//! A foyer display: document 02, P11. It sends no cues and follows one sender.

use crate::cue::Cue;
use crate::end::Answer;
use crate::message::{self, ask, Datagram, Message, Name};
use crate::{CLOCK_MAX, HOSTS, OUTPUT_LEN};

/// "lead is from trail to trail+63"; "a later cue n counts as trail n−63 and lead n".
const SPAN: u16 = 63;

/// What a display that has started has heard of its sender: trail and lead, and which of the numbers from trail to lead it
/// received, bit i for trail + i.
#[derive(Clone, Copy, Debug, PartialEq, Eq)]
pub struct Window {
    pub trail: u16,
    pub lead: u16,
    pub received: u64,
}

/// A display. Any value of any field can be written down, sound or not.
#[derive(Clone, Copy, Debug, PartialEq, Eq)]
pub struct Screen {
    pub own: u8,
    pub sender: u8,
    pub clock: u64,
    pub window: Option<Window>,
}

/// The numbers that a call reports as lost: "a 64-bit set up from the old trail, and a span for those above the old lead".
#[derive(Clone, Copy, Debug, Default, PartialEq, Eq)]
pub struct Losses {
    /// Bit i for the old trail + i.
    pub set: u64,
    /// The first and the last of those above the old lead.
    pub span: Option<(u16, u16)>,
}

impl Losses {
    pub const NONE: Losses = Losses { set: 0, span: None };

    /// The numbers of the set, which is up from this trail, rising.
    pub fn in_set(&self, trail: u16) -> impl Iterator<Item = u16> + '_ {
        let bits = (0..64u16).filter(|&i| self.set >> i & 1 == 1);
        bits.map(move |i| trail.saturating_add(i))
    }
}

impl Window {
    /// "It starts at its sender's first DATA, trail and lead both that number", which is received.
    fn start(number: u16) -> Window {
        Window {
            trail: number,
            lead: number,
            received: 1,
        }
    }

    /// Was this number received? It is from trail to lead.
    fn has(&self, number: u16) -> bool {
        self.received >> (number - self.trail) & 1 == 1
    }

    /// "lead as above, and receptions only between them": from trail to trail+63, and no bit above lead's.
    fn sound(&self) -> bool {
        let Some(above) = self.lead.checked_sub(self.trail) else {
            return false;
        };
        above <= SPAN && (above == SPAN || self.received >> (above + 1) == 0)
    }

    /// The lowest number from trail to lead that was not received.
    fn lowest_missing(&self) -> Option<u16> {
        (self.trail..=self.lead).find(|&number| !self.has(number))
    }

    /// Trail and lead are heard. "Values lower than it has heard [...] it passes over", each by itself. "A number becomes lost exactly when
    /// trail passes it before it is received".
    fn hear(&mut self, trail: u16, lead: u16) -> Losses {
        let old = *self;
        self.trail = old.trail.max(trail);
        self.lead = old.lead.max(lead);
        let mut losses = Losses::NONE;
        for number in old.trail..=old.lead {
            if number < self.trail && !old.has(number) {
                losses.set |= 1 << (number - old.trail);
            }
        }
        if self.trail > old.lead && self.trail - old.lead > 1 {
            losses.span = Some((old.lead + 1, self.trail - 1));
        }
        self.received = (self.trail..=old.lead)
            .filter(|&number| old.has(number))
            .fold(0, |set, number| set | 1 << (number - self.trail));
        losses
    }
}

impl Screen {
    /// "A display is opened at clock 0 for two different hosts below 8, its own and its sender's, else 12". Refused, it gives beside the
    /// number a fresh display of host 0 following host 1.
    pub fn open(own: u8, sender: u8) -> (Option<u8>, Screen) {
        let fresh = |own, sender| Screen {
            own,
            sender,
            clock: 0,
            window: None,
        };
        if two_hosts(own, sender) {
            (None, fresh(own, sender))
        } else {
            (Some(12), fresh(0, 1))
        }
    }

    /// "A sound one has neither trail nor lead, or lead as above, and receptions only between them."; fields are in range: "two different
    /// hosts below 8", a clock.
    pub fn sound(&self) -> bool {
        two_hosts(self.own, self.sender)
            && self.clock <= CLOCK_MAX
            && self.window.is_none_or(|window| window.sound())
    }

    /// "hear and step [...] ask questions 1 and 3 to 5".
    fn questions(&self, clock: u64, out: &[u8]) -> Result<(), u8> {
        ask(out.len() >= OUTPUT_LEN, 1)?;
        ask(self.sound(), 3)?;
        ask(clock <= CLOCK_MAX, 4)?;
        ask(clock >= self.clock, 5)
    }

    /// "hear and step set its clock and ask questions 1 and 3 to 5, hear 8 to 11 too."
    pub fn hear(&mut self, clock: u64, bytes: &[u8], out: &mut [u8]) -> (Answer, Losses) {
        let read = self.questions(clock, out);
        match read.and_then(|()| message::read(bytes)) {
            Err(number) => (Answer::Refused(number), Losses::NONE),
            Ok(datagram) => {
                self.clock = clock;
                self.unrefused(datagram, out)
            }
        }
    }

    /// "A newly received cue is Got, its sender's kind 24 once started Done, all else Ignored."
    fn unrefused(&mut self, datagram: Datagram, out: &mut [u8]) -> (Answer, Losses) {
        let ignored = (Answer::Ignored, Losses::NONE);
        let Datagram::Message(message) = datagram else {
            return ignored;
        };
        match (message.kind, &message.names[..], &message.cues[..]) {
            (message::DATA, [name], [cue]) if name.source == self.sender => {
                self.cue(name.number, cue, true, out)
            }
            // "once started it takes any REPL of the sender's cue as that cue".
            (message::REPL, [name], [cue]) if name.source == self.sender => {
                self.cue(name.number, cue, false, out)
            }
            (message::ANNC, [trail, lead], []) if message.sender == self.sender => {
                match &mut self.window {
                    Some(window) => (Answer::Done, window.hear(trail.number, lead.number)),
                    None => ignored,
                }
            }
            _ => ignored,
        }
    }

    /// A cue of its sender. "It starts at its sender's first DATA, trail and lead both that number; a later cue n counts as trail n−63 and
    /// lead n."; "cues below trail, it passes over".
    fn cue(&mut self, number: u16, cue: &Cue, original: bool, out: &mut [u8]) -> (Answer, Losses) {
        let losses = match &mut self.window {
            None if !original => return (Answer::Ignored, Losses::NONE),
            None => {
                self.window = Some(Window::start(number));
                Losses::NONE
            }
            Some(window) if number < window.trail => return (Answer::Ignored, Losses::NONE),
            Some(window) => {
                let losses = window.hear(number.saturating_sub(SPAN), number);
                if window.has(number) {
                    return (Answer::Ignored, losses);
                }
                window.received |= 1 << (number - window.trail);
                losses
            }
        };
        out[..cue.0.len()].copy_from_slice(&cue.0);
        let source = self.sender;
        (Answer::Got { source, number }, losses)
    }

    /// "A step puts out RQST of the lowest missing number, or gives Nothing".
    pub fn step(&mut self, clock: u64, out: &mut [u8]) -> Answer {
        if let Err(number) = self.questions(clock, out) {
            return Answer::Refused(number);
        }
        self.clock = clock;
        let missing = self.window.and_then(|window| window.lowest_missing());
        let Some(number) = missing else {
            return Answer::Nothing;
        };
        let request = self.request(number);
        message::write(&request, out).map_or_else(Answer::Refused, Answer::Out)
    }

    /// RQST: "the sender, not the source" as host, the own clock as stamp.
    fn request(&self, number: u16) -> Message {
        Message {
            kind: message::RQST,
            sender: self.own,
            stamp: self.clock,
            names: vec![Name {
                source: self.sender,
                number,
                host: self.own,
            }],
            cues: vec![],
            reports: vec![],
            echoes: vec![],
        }
    }
}

/// "two different hosts below 8".
fn two_hosts(own: u8, sender: u8) -> bool {
    own < HOSTS && sender < HOSTS && own != sender
}
