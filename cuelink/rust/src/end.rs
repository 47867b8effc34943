//! An end of the link.

use std::fmt;

use crate::declared::{self, Look, LookOf, Plain};
use crate::{opened, there, Answer, Cue, Name, Reason, Refusal, Status, ROOM};

/// The bytes of an end's state.
pub const SIZE: usize = 31_136;

/// What each event takes: 64 random numbers, new ones for each call.
pub type Draws = [u16; 64];

/// The parameters of a group's ends: six of 0 to 32 quarters, and E of 0 to 1000 ticks. Give all controllers the same.
#[derive(Clone, Copy, Debug, PartialEq, Eq)]
#[allow(missing_docs)]
pub struct Params {
    pub c1: u64,
    pub c2: u64,
    pub c3: u64,
    pub d1: u64,
    pub d2: u64,
    pub d3: u64,
    pub e: u64,
}

impl Params {
    /// House's: 9,8,4,4,4,8, and E = 0.
    pub const HOUSE: Params = Params {
        c1: 9,
        c2: 8,
        c3: 4,
        d1: 4,
        d2: 4,
        d3: 8,
        e: 0,
    };

    fn numbers(&self) -> [u64; 7] {
        let Params {
            c1,
            c2,
            c3,
            d1,
            d2,
            d3,
            e,
        } = *self;
        [c1, c2, c3, d1, d2, d3, e]
    }
}

/// An event as a value, for [`End::event`] and [`End::reason`]. Each has a method of its own.
#[derive(Clone, Copy, Debug, PartialEq, Eq)]
#[allow(missing_docs)]
pub enum Event<'a> {
    Join,
    Joined,
    Leave,
    Left,
    Crash,
    Send(&'a Cue),
    /// A datagram's bytes.
    Arrival(&'a [u8]),
    Fire,
    Report,
    Fetch(Name),
    Announce,
}

/// An end of the link, which is always a sound state. It changes in place with each call that is not refused.
///
/// It cannot be cloned: a call on an old state would forget what was done since, and after a [`send`](End::send) put two cues under one name.
///
/// ```compile_fail,E0599
/// let end = cuelink::End::open(0, &cuelink::Params::HOUSE).unwrap();
/// let older = end.clone();
/// ```
///
/// Every event takes the clock, in [ticks](crate::ticks) since any moment that the controller likes, at most 2^48-1 ([`Refusal::ClockHigh`]) and never
/// below that of the last call ([`Refusal::ClockBack`]), and 64 new random numbers.
pub struct End {
    bytes: Box<[u8; SIZE]>,
}

fn blank() -> Box<[u8; SIZE]> {
    let bytes = vec![0; SIZE].into_boxed_slice();
    bytes.try_into().expect("so many bytes")
}

/// Opening, storing and reading back.
impl End {
    /// Opens the end of a host that starts for the first time: idle, at clock 0, its next own number 0.
    ///
    /// Refused as [`BadHost`](Refusal::BadHost), [`BadParams`](Refusal::BadParams) or [`BadExpress`](Refusal::BadExpress).
    pub fn open(host: u8, params: &Params) -> Result<End, Refusal> {
        let mut bytes = blank();
        let params = params.numbers();
        // SAFETY: each pointer leads to so many elements, which nobody else writes or reads.
        opened(unsafe {
            declared::cuelink_open(
                host.into(),
                params.as_ptr(),
                params.len(),
                bytes.as_mut_ptr(),
                bytes.len(),
            )
        })?;
        Ok(End { bytes })
    }

    /// Opens the end of a host that was switched off: idle, as Leave and Left would have left it at that clock. `next` is the [`next`](End::next) own
    /// number that was stored before the last DATA left; `clock` is not below that of the end's last call: a clock that goes on while the host is
    /// off, or the stored [`clock`](End::clock) and more than the time since it was stored. Never do this with a crashed end.
    ///
    /// Refused as [`open`](End::open) is, then as [`ClockHigh`](Refusal::ClockHigh) or [`NoNumbers`](Refusal::NoNumbers), where next is above 65,536.
    ///
    /// ```
    /// use cuelink::{Answer, Cue, End, Params};
    /// let end = End::reopen(0, &Params::HOUSE, 7000, 12)?;
    /// assert_eq!((end.clock(), end.next()), (7000, 12));
    /// # Ok::<(), cuelink::Refusal>(())
    /// ```
    pub fn reopen(host: u8, params: &Params, clock: u64, next: u32) -> Result<End, Refusal> {
        let mut bytes = blank();
        let params = params.numbers();
        // SAFETY: as above.
        opened(unsafe {
            declared::cuelink_reopen(
                host.into(),
                params.as_ptr(),
                params.len(),
                clock,
                next.into(),
                bytes.as_mut_ptr(),
                bytes.len(),
            )
        })?;
        Ok(End { bytes })
    }

    /// The end of which these are the bytes, as [`as_bytes`](End::as_bytes) gave them, here or on another machine. They must be those that the last call
    /// left: nothing can tell an older state from the last.
    ///
    /// Refused as [`NotSound`](Refusal::NotSound) where they have not the form of a state, or the state is not sound.
    ///
    /// ```
    /// use cuelink::{End, Params, Refusal};
    /// let end = End::open(3, &Params::HOUSE)?;
    /// let mut stored = end.as_bytes().to_vec();
    /// assert_eq!(End::from_bytes(&stored)?.host(), 3);
    /// stored[67] = 9;
    /// assert_eq!(End::from_bytes(&stored).err(), Some(Refusal::NotSound));
    /// # Ok::<(), Refusal>(())
    /// ```
    pub fn from_bytes(bytes: &[u8]) -> Result<End, Refusal> {
        // Of all questions the first that the reason call asks is whether the bytes are a sound state.
        // SAFETY: as above; no bytes are given.
        let why = unsafe {
            let none: &[u8] = &[];
            declared::cuelink_reason(bytes.as_ptr(), bytes.len(), 0, 0, 0, 0, none.as_ptr(), 0)
        };
        if why == u64::from(Refusal::NotSound.number()) {
            return Err(Refusal::NotSound);
        }
        let mut own = blank();
        own.copy_from_slice(bytes);
        Ok(End { bytes: own })
    }

    /// The state's bytes, to be stored or sent.
    pub fn as_bytes(&self) -> &[u8; SIZE] {
        &self.bytes
    }

    /// The state's bytes, and no end any more.
    pub fn into_bytes(self) -> Box<[u8; SIZE]> {
        self.bytes
    }
}

/// The events.
impl End {
    /// Idle to joining: the controller asks the network for its group.
    pub fn join(&mut self, clock: u64, draws: &Draws) -> Result<Answer, Refusal> {
        self.event(clock, draws, Event::Join)
    }

    /// Joining to member: the network has the controller in the group.
    pub fn joined(&mut self, clock: u64, draws: &Draws) -> Result<Answer, Refusal> {
        self.event(clock, draws, Event::Joined)
    }

    /// Joining or member to leaving: the controller wants out. What is held and what waits is forgotten.
    pub fn leave(&mut self, clock: u64, draws: &Draws) -> Result<Answer, Refusal> {
        self.event(clock, draws, Event::Leave)
    }

    /// Leaving to idle: the network has the controller out of the group.
    pub fn left(&mut self, clock: u64, draws: &Draws) -> Result<Answer, Refusal> {
        self.event(clock, draws, Event::Left)
    }

    /// To crashed, for good. A host that stores what it needs for a restart stores this too.
    pub fn crash(&mut self, clock: u64, draws: &Draws) -> Result<Answer, Refusal> {
        self.event(clock, draws, Event::Crash)
    }

    /// Sends a cue under the next own number. **At [`Answer::Out`] store [`clock`](End::clock) and [`next`](End::next) before the message leaves.** At
    /// [`Answer::Ignored`] the cue was not taken: this controller is no member.
    ///
    /// Also refused as [`BadCue`](Refusal::BadCue) and, of a member, [`NoNumbers`](Refusal::NoNumbers).
    pub fn send(&mut self, clock: u64, draws: &Draws, cue: &Cue) -> Result<Answer, Refusal> {
        self.event(clock, draws, Event::Send(cue))
    }

    /// Takes a datagram, whatever is in it; an empty one is a probe. Receive into at least [`RECEIVE`](crate::RECEIVE) bytes, and hand over all that
    /// the buffer has where more came: a datagram that is too long is then refused, and not taken for its first part.
    ///
    /// At [`Answer::Out`] the message is to be sent, as after [`fire`](End::fire). Also refused as [`BadLength`](Refusal::BadLength),
    /// [`BadKind`](Refusal::BadKind), [`BadRange`](Refusal::BadRange) or [`BadHosts`](Refusal::BadHosts).
    pub fn arrival(&mut self, clock: u64, draws: &Draws, bytes: &[u8]) -> Result<Answer, Refusal> {
        self.event(clock, draws, Event::Arrival(bytes))
    }

    /// Sends a wait that is due, one with each call: again, until it is not [`Answer::Out`]. [`due`](End::due) says when there is something.
    pub fn fire(&mut self, clock: u64, draws: &Draws) -> Result<Answer, Refusal> {
        self.event(clock, draws, Event::Fire)
    }

    /// Makes the session message: soon after joining, then now and then.
    pub fn report(&mut self, clock: u64, draws: &Draws) -> Result<Answer, Refusal> {
        self.event(clock, draws, Event::Report)
    }

    /// Asks another controller for a cue from before one joined: one of the 64 numbers below [`origin`](End::origin) of its source.
    pub fn fetch(&mut self, clock: u64, draws: &Draws, name: Name) -> Result<Answer, Refusal> {
        self.event(clock, draws, Event::Fetch(name))
    }

    /// Tells foyer displays which of this controller's cues can still be had.
    pub fn announce(&mut self, clock: u64, draws: &Draws) -> Result<Answer, Refusal> {
        self.event(clock, draws, Event::Announce)
    }

    /// The one call of which the others are cases.
    pub fn event(
        &mut self,
        clock: u64,
        draws: &Draws,
        event: Event<'_>,
    ) -> Result<Answer, Refusal> {
        let mut out = [0; ROOM];
        let (state, len) = (self.bytes.as_mut_ptr(), self.bytes.len());
        let (d, dn, o, on) = (draws.as_ptr(), draws.len(), out.as_mut_ptr(), out.len());
        let plain = |call: Plain| {
            // SAFETY: each pointer leads to so many elements. State and output are borrowed for writing, so they overlap nothing, and nobody else
            // uses them.
            unsafe { call(state, len, clock, d, dn, o, on) }
        };
        let answer = match event {
            Event::Join => plain(declared::cuelink_join),
            Event::Joined => plain(declared::cuelink_joined),
            Event::Leave => plain(declared::cuelink_leave),
            Event::Left => plain(declared::cuelink_left),
            Event::Crash => plain(declared::cuelink_crash),
            Event::Fire => plain(declared::cuelink_fire),
            Event::Report => plain(declared::cuelink_report),
            Event::Announce => plain(declared::cuelink_announce),
            // SAFETY: as above; and the bytes are borrowed too.
            Event::Send(Cue(cue)) => unsafe {
                declared::cuelink_send(state, len, clock, d, dn, cue.as_ptr(), cue.len(), o, on)
            },
            Event::Arrival(bytes) => unsafe {
                declared::cuelink_arrival(
                    state,
                    len,
                    clock,
                    d,
                    dn,
                    bytes.as_ptr(),
                    bytes.len(),
                    o,
                    on,
                )
            },
            Event::Fetch(Name { source, number }) => unsafe {
                declared::cuelink_fetch(
                    state,
                    len,
                    clock,
                    d,
                    dn,
                    source.into(),
                    number.into(),
                    o,
                    on,
                )
            },
        };
        Answer::numbered(answer, &out)
    }

    /// Why an event, made now, would be ignored; `None` where it would be neither refused nor ignored. It changes nothing, so ask before the call.
    ///
    /// ```
    /// use cuelink::{Answer, End, Event, Params, Reason};
    /// let mut end = End::open(0, &Params::HOUSE)?;
    /// assert_eq!(end.reason(5, Event::Fire)?, Some(Reason::WrongStatus));
    /// assert_eq!(end.fire(5, &[0; 64])?, Answer::Ignored);
    /// assert_eq!(end.reason(5, Event::Join)?, None);
    /// # Ok::<(), cuelink::Refusal>(())
    /// ```
    pub fn reason(&self, clock: u64, event: Event<'_>) -> Result<Option<Reason>, Refusal> {
        let none = Name {
            source: 0,
            number: 0,
        };
        let (number, name, bytes): (u64, Name, &[u8]) = match event {
            Event::Join => (0, none, &[]),
            Event::Joined => (1, none, &[]),
            Event::Leave => (2, none, &[]),
            Event::Left => (3, none, &[]),
            Event::Crash => (4, none, &[]),
            Event::Send(cue) => (5, none, &cue.0),
            Event::Arrival(bytes) => (6, none, bytes),
            Event::Fire => (7, none, &[]),
            Event::Report => (8, none, &[]),
            Event::Fetch(name) => (9, name, &[]),
            Event::Announce => (10, none, &[]),
        };
        let (source, cue_number) = (name.source.into(), name.number.into());
        let (state, len) = (self.bytes.as_ptr(), self.bytes.len());
        // SAFETY: as above; all is only read.
        let why = unsafe {
            declared::cuelink_reason(
                state,
                len,
                clock,
                number,
                source,
                cue_number,
                bytes.as_ptr(),
                bytes.len(),
            )
        };
        match (why >> 32, why & 0xFFFF) {
            (0, refusal) => Err(Refusal::numbered(refusal)),
            (_, 0) => Ok(None),
            (_, reason) => Ok(Some(Reason::numbered(reason))),
        }
    }
}

/// Looks.
impl End {
    /// When the next [`fire`](End::fire) has something to send: a member's fire answers [`Answer::Nothing`] before that clock and [`Answer::Out`] from
    /// it on. `None` where nothing waits. A host sleeps until then, or until a datagram comes.
    pub fn due(&self) -> Option<u64> {
        self.look(declared::cuelink_due)
    }

    /// The own host number.
    pub fn host(&self) -> u8 {
        self.value(declared::cuelink_host) as u8
    }

    /// The clock of the last call that was not refused. One of the two numbers to store for a restart.
    pub fn clock(&self) -> u64 {
        self.value(declared::cuelink_clock)
    }

    /// The status of the membership.
    pub fn status(&self) -> Status {
        Status::numbered(self.value(declared::cuelink_status))
    }

    /// The next own cue number, 0 to 65,536. One of the two numbers to store for a restart.
    pub fn next(&self) -> u32 {
        self.value(declared::cuelink_next) as u32
    }

    /// The oldest number that is kept of a source.
    pub fn first(&self, source: u8) -> Option<u16> {
        self.look_of(declared::cuelink_first, source)
            .map(|n| n as u16)
    }

    /// The highest number known of a source.
    pub fn last(&self, source: u8) -> Option<u16> {
        self.look_of(declared::cuelink_last, source)
            .map(|n| n as u16)
    }

    /// How many numbers of a source were given up without their cue since joining; `None` of a source above 7.
    pub fn missed(&self, source: u8) -> Option<u32> {
        self.look_of(declared::cuelink_missed, source)
            .map(|n| n as u32)
    }

    /// The number of the first original had of a source since joining; the 64 below it may be fetched.
    pub fn origin(&self, source: u8) -> Option<u16> {
        self.look_of(declared::cuelink_origin, source)
            .map(|n| n as u16)
    }

    /// Half a round trip to a host, in milliseconds; `None` of a host above 7.
    pub fn distance(&self, host: u8) -> Option<u64> {
        self.look_of(declared::cuelink_distance, host)
    }

    fn look(&self, look: Look) -> Option<u64> {
        // SAFETY: the pointer leads to so many bytes, which are only read.
        there(unsafe { look(self.bytes.as_ptr(), self.bytes.len()) })
    }

    fn look_of(&self, look: LookOf, host: u8) -> Option<u64> {
        // SAFETY: as above.
        there(unsafe { look(self.bytes.as_ptr(), self.bytes.len(), host.into()) })
    }

    /// A value that every state has.
    fn value(&self, look: Look) -> u64 {
        self.look(look).expect("an end is a state")
    }
}

impl AsRef<[u8]> for End {
    fn as_ref(&self) -> &[u8] {
        &self.bytes[..]
    }
}

/// Two ends are the same where their bytes are: each has one form.
impl PartialEq for End {
    fn eq(&self, other: &End) -> bool {
        self.bytes == other.bytes
    }
}

impl Eq for End {}

impl fmt::Debug for End {
    fn fmt(&self, f: &mut fmt::Formatter<'_>) -> fmt::Result {
        let mut shown = f.debug_struct("End");
        shown
            .field("host", &self.host())
            .field("status", &self.status());
        shown
            .field("clock", &self.clock())
            .field("next", &self.next());
        shown.finish_non_exhaustive()
    }
}
