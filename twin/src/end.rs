//! One end: its state, the soundness test, the opening and the eleven events.

use crate::branches::{self, take, unless, when, Branch};
use crate::cue::Cue;
use crate::message::{self, Datagram, Echo, Message, Name, Report};
use crate::{Draw, CLOCK_MAX, DRAWS, HOSTS, NUMBERS, OUTPUT_LEN, PLACES};

/// "due and quiet times are below 2^48+2^32".
pub const TIME_LIMIT: u64 = (1 << 48) + (1 << 32);

/// "at first 40".
pub const FIRST_DISTANCE: u64 = 40;

/// "round 1..16", and "After 16 comes 16."
pub const LAST_ROUND: u8 = 16;

#[derive(Clone, Copy, Debug, PartialEq, Eq)]
pub enum Status {
    Idle,
    Joining,
    Member,
    Leaving,
    Crashed,
}

/// "Parameters C1, C2, C3, D1, D2, D3", in quarters, "so parameter times distance
/// is ticks": a quarter of a millisecond is a tick; and document 02, P8's E, in ticks.
#[derive(Clone, Copy, Debug, PartialEq, Eq)]
pub struct Params {
    pub c1: u8,
    pub c2: u8,
    pub c3: u8,
    pub d1: u8,
    pub d2: u8,
    pub d3: u8,
    pub e: u16,
}

/// A waiting request, perhaps with document 02, P8's express wait, of which only the due time is
/// kept: "An express wait goes with its request; a sound state has one only beside a request".
#[derive(Clone, Copy, Debug, PartialEq, Eq)]
pub struct Request {
    pub round: u8,
    pub due: u64,
    pub quiet_until: u64,
    pub express: Option<u64>,
}

/// Document 02, P8: "Per source an end keeps, until Leave or Crash, the requester and sender of
/// the latest REPL answered Got or Done that named a number at least as high as the kept one's":
/// with them "the kept one's" number.
#[derive(Clone, Copy, Debug, PartialEq, Eq)]
pub struct Pair {
    pub requester: u8,
    pub sender: u8,
    pub number: u16,
}

/// A waiting reply.
#[derive(Clone, Copy, Debug, PartialEq, Eq)]
pub struct Reply {
    pub due: u64,
    pub requester: u8,
}

/// "the held cue, or one waiting request"; the cue's bytes lie beside it.
#[derive(Clone, Copy, Debug, PartialEq, Eq)]
pub enum Body {
    Nothing,
    Held,
    Waiting(Request),
}

/// What an end keeps for one name. The cue bytes mean something only beside
/// `Held`; otherwise they are free and nothing looks at them. Number n stands at place n mod 64.
#[derive(Clone, Copy, Debug, PartialEq, Eq)]
pub struct Record {
    pub body: Body,
    pub cue: Cue,
    pub reply: Option<Reply>,
    pub reply_quiet: u64,
}

/// "the latest stamp heard from it and when"; by document 02, P9, the sources that its "last heard
/// session message since joining reported", bit h for source h: "heard reports only beside heard
/// stamps".
#[derive(Clone, Copy, Debug, PartialEq, Eq)]
pub struct Heard {
    pub stamp: u64,
    pub at: u64,
    pub sources: u8,
}

/// What was done to fetch a number (document 02, P9): the hosts "tried for that number since
/// joining", bit h for host h, and whether it was handed out as Late. Number n stands at place n
/// mod 64, as the 64 fetchable numbers have 64 places.
#[derive(Clone, Copy, Debug, PartialEq, Eq)]
pub struct Attempt {
    pub tried: u8,
    pub late: bool,
}

impl Attempt {
    pub const NONE: Attempt = Attempt {
        tried: 0,
        late: false,
    };

    fn has_tried(&self, host: u8) -> bool {
        has_bit(self.tried, host)
    }
}

/// Is a host among those of a set?
fn has_bit(set: u8, host: u8) -> bool {
    set & bit(host) != 0
}

/// The set of one host.
fn bit(host: u8) -> u8 {
    1 << host
}

/// "For each of the eight hosts an end keeps first and last (both or neither),
/// distance, the latest stamp heard from it and when", and its names; by document 02, P7, "the
/// latest 64 numbers of each source" and the count of "the numbers retired without a cue since
/// joining"; by P8, "Per source", the pair; by P9, of another's source, the number of "the first
/// original it had since joining" and what was done to fetch those below it.
#[derive(Clone, Copy, Debug, PartialEq, Eq)]
pub struct Source {
    pub first: Option<u16>,
    pub last: Option<u16>,
    pub missed: u32,
    pub pair: Option<Pair>,
    pub distance: u64,
    pub heard: Option<Heard>,
    pub names: [Record; PLACES as usize],
    pub origin: Option<u16>,
    pub attempts: [Attempt; PLACES as usize],
}

/// An end. Any value of any field can be written down, sound or not.
#[derive(Clone, Debug, PartialEq, Eq)]
pub struct End {
    pub host: u8,
    pub params: Params,
    pub clock: u64,
    pub status: Status,
    pub next: u32,
    pub sources: [Source; HOSTS as usize],
}

/// The nine events with their arguments, document 02, P9's Fetch and P11's Announce.
#[derive(Clone, Debug, PartialEq, Eq)]
pub enum Event {
    Join,
    Joined,
    Leave,
    Left,
    Crash,
    Send(Cue),
    Fire,
    Report,
    Arrival(Vec<u8>),
    /// The name to fetch; any numbers may stand there: "any other fetch [...] is Ignored".
    Fetch {
        source: u8,
        number: u16,
    },
    Announce,
}

#[derive(Clone, Copy, Debug, PartialEq, Eq)]
pub enum Answer {
    /// "A refusal gives only its number".
    Refused(u8),
    /// "Out (length, the message in the first output bytes)".
    Out(usize),
    /// "Got (name, and its cue in the first 24)".
    Got {
        source: u8,
        number: u16,
    },
    /// Document 02, P4: "a new answer, Clash, with the name".
    Clash {
        source: u8,
        number: u16,
    },
    /// Document 02, P9: "hands it out as Late, written as Got is".
    Late {
        source: u8,
        number: u16,
    },
    /// P9: ""exhausted" is answered exactly when no untried candidate is left."
    Exhausted,
    Done,
    Ignored,
    Nothing,
}

/// "A distance (half a round trip) is 1..1000 whole milliseconds".
const DISTANCE_MIN: u64 = 1;
const DISTANCE_MAX: u64 = 1000;

/// "to oneself it is 0".
const OWN_DISTANCE: u64 = 0;

/// "Parameters C1, C2, C3, D1, D2, D3 are 0..32 quarters".
const PARAM_MAX: u8 = 32;

/// Document 02, P8: "Opening with E above 1000 is refused as 14".
const EXPRESS_MAX: u16 = 1000;

/// "the next own cue number, 0..64", with P7's numbers 0..65536.
const NEXT_MAX: u32 = NUMBERS;

/// Document 02, P7: "A sound state has last − first at most 63".
const SPAN_MAX: u16 = 63;

/// Document 02, P9: "any of the 64 numbers just below the first original".
const FETCHABLE: u16 = 64;

/// P7: "An end keeps the latest 64 numbers of each source: when last rises to L, numbers below L−63 are retired".
pub fn window_start(last: u16) -> u16 {
    last.saturating_sub(SPAN_MAX)
}

/// The place of a number's record, and of its draw: "Cue number n uses draw n mod 64."
pub fn place_of(number: u16) -> usize {
    usize::from(number % u16::from(PLACES))
}

impl Status {
    /// "Join: idle to joining. Joined: joining to member. Leave: joining or member to
    /// leaving. Left: leaving to idle. Crash: to crashed."; "On a crashed end everything
    /// unrefused is Ignored".
    pub fn after(self, event: &Event) -> Option<Status> {
        match (event, self) {
            (Event::Join, Status::Idle) => Some(Status::Joining),
            (Event::Joined, Status::Joining) => Some(Status::Member),
            (Event::Leave, Status::Joining | Status::Member) => Some(Status::Leaving),
            (Event::Left, Status::Leaving) => Some(Status::Idle),
            (Event::Crash, Status::Crashed) => None,
            (Event::Crash, _) => Some(Status::Crashed),
            _ => None,
        }
    }
}

impl Params {
    /// "parameters 9,8,4,4,4,8".
    pub const STANDARD: Params = Params {
        c1: 9,
        c2: 8,
        c3: 4,
        d1: 4,
        d2: 4,
        d3: 8,
        // P8: "E is 0 in house and in a refused opening."
        e: 0,
    };

    /// "Parameters C1, C2, C3, D1, D2, D3 are 0..32 quarters".
    fn in_range(&self) -> bool {
        let all = [self.c1, self.c2, self.c3, self.d1, self.d2, self.d3];
        all.iter().all(|&parameter| parameter <= PARAM_MAX)
    }

    /// Document 02, P8: "Opening with E above 1000 is refused".
    fn express_in_range(&self) -> bool {
        self.e <= EXPRESS_MAX
    }

    /// "C3 < C1, D1+D2+8 < 2×C1, D1+D2+D3 < 2×C1."
    fn constrained(&self) -> bool {
        let twice_c1 = 2 * u16::from(self.c1);
        let d1_d2 = u16::from(self.d1) + u16::from(self.d2);
        unless(self.c3 < self.c1, Branch::ParamC3)
            && unless(d1_d2 + 8 < twice_c1, Branch::ParamEight)
            && unless(d1_d2 + u16::from(self.d3) < twice_c1, Branch::ParamD3)
    }
}

impl Request {
    /// "round 1..16"; "due and quiet times are below 2^48+2^32".
    fn in_range(&self) -> bool {
        unless((1..=LAST_ROUND).contains(&self.round), Branch::SoundRound)
            && unless(self.due < TIME_LIMIT, Branch::SoundDue)
            && unless(self.quiet_until < TIME_LIMIT, Branch::SoundQuiet)
            && self
                .express
                .is_none_or(|due| unless(due < TIME_LIMIT, Branch::SoundExpressDue))
    }

    /// "After 16 comes 16."
    fn next_round(&self) -> u8 {
        LAST_ROUND.min(self.round + 1)
    }
}

/// What waits at a name; the order is Fire's: "request before reply", and document 02, P8's:
/// "Express waits come before requests in ties."
#[derive(Clone, Copy, Debug, PartialEq, Eq, PartialOrd, Ord)]
enum Wait {
    Express,
    Request,
    Reply,
}

impl Record {
    /// Nothing held or waiting, and "a reply-quiet time, at first 0".
    pub const EMPTY: Record = Record {
        body: Body::Nothing,
        cue: Cue::ZERO,
        reply: None,
        reply_quiet: 0,
    };

    fn is_held(&self) -> bool {
        self.body == Body::Held
    }

    /// Hold the cue in place of a request, if there is one: "hold it, drop its request".
    fn hold(&mut self, cue: Cue) {
        self.body = Body::Held;
        self.cue = cue;
    }

    /// "names outside first..last hold nothing and have reply-quiet 0".
    fn is_empty(&self) -> bool {
        let holds_nothing = self.body == Body::Nothing && self.reply.is_none();
        unless(holds_nothing, Branch::SoundOutside)
            && unless(self.reply_quiet == 0, Branch::SoundOutsideQuiet)
    }

    /// What waits here, and when it is due. In a sound state it is one wait at most, or a request
    /// and its express wait: a request stands in the place of a held cue, a reply only "with a
    /// held cue".
    fn waits(&self) -> impl Iterator<Item = (u64, Wait)> {
        let (express, other) = match (self.body, self.reply) {
            (Body::Waiting(request), _) => (request.express, Some((request.due, Wait::Request))),
            (_, Some(reply)) => (None, Some((reply.due, Wait::Reply))),
            _ => (None, None),
        };
        let express = express.map(|due| (due, Wait::Express));
        express.into_iter().chain(other)
    }

    /// The express wait here, if any.
    fn express(&self) -> Option<u64> {
        match self.body {
            Body::Waiting(request) => request.express,
            _ => None,
        }
    }
}

impl Source {
    /// A source at its start: no first, no heard stamp, every name empty.
    fn fresh(distance: u64) -> Source {
        Source {
            first: None,
            last: None,
            missed: 0,
            pair: None,
            distance,
            heard: None,
            names: [Record::EMPTY; PLACES as usize],
            origin: None,
            attempts: [Attempt::NONE; PLACES as usize],
        }
    }

    /// "first and last (both or neither)"; "first ≤ last"; document 02, P7: "A sound state has
    /// last − first at most 63, and that count at most first, 0 without one."
    fn span_sound(&self) -> bool {
        match (self.first, self.last) {
            (None, None) => unless(self.missed == 0, Branch::SoundMissedClosed),
            (Some(first), Some(last)) => {
                unless(first <= last, Branch::SoundFirst)
                    && unless(last - first <= SPAN_MAX, Branch::SoundSpan)
                    && unless(self.missed <= u32::from(first), Branch::SoundMissed)
            }
            _ => false,
        }
    }

    /// The numbers first..last, if any.
    pub fn numbers(&self) -> impl Iterator<Item = u16> {
        let span = self.first.zip(self.last);
        span.into_iter().flat_map(|(first, last)| first..=last)
    }

    /// What is kept of a number: its record, where it is inside first..last.
    pub fn kept(&self, number: u16) -> Option<&Record> {
        let (first, last) = self.first.zip(self.last)?;
        let inside = (first..=last).contains(&number);
        inside.then(|| &self.names[place_of(number)])
    }

    /// Has a number of first..last this place? It is so many numbers after first.
    fn serves(&self, place: usize) -> bool {
        let places = usize::from(PLACES);
        self.first.zip(self.last).is_some_and(|(first, last)| {
            let after = (place + places - place_of(first)) % places;
            usize::from(first) + after <= usize::from(last)
        })
    }

    /// Is there a first, and the number below it?
    fn is_below_first(&self, number: u16) -> bool {
        self.first.is_some_and(|first| number < first)
    }

    /// Is there a last, and the number above it?
    fn is_above_last(&self, number: u16) -> bool {
        self.last.is_some_and(|last| number > last)
    }

    /// Is there a last, and a number between it and this one?
    fn has_gap_before(&self, number: u16) -> bool {
        self.last
            .is_some_and(|last| number > last && number - last > 1)
    }

    /// The window is full: first is L−63, and not for being the least number.
    fn is_full(&self) -> bool {
        let span = self.first.zip(self.last);
        span.is_some_and(|(first, last)| last - first == SPAN_MAX)
    }
}

/// Fetching: document 02, P9.
impl Source {
    /// What was done to fetch a number, where it is one of "the 64 numbers just below the first
    /// original".
    pub fn attempt(&self, number: u16) -> Option<&Attempt> {
        let below = self.origin?.checked_sub(number)?;
        let fetchable = (1..=FETCHABLE).contains(&below);
        fetchable.then(|| &self.attempts[place_of(number)])
    }

    /// The fetchable number that has this place, if any.
    fn fetchable_at(&self, place: usize) -> Option<u16> {
        let lowest = self.origin?.saturating_sub(FETCHABLE);
        let places = usize::from(PLACES);
        let after = (place + places - place_of(lowest)) % places;
        let number = lowest.checked_add(after as u16)?;
        self.attempt(number).map(|_| number)
    }

    /// "tries only of other hosts at fetchable numbers, Late marks only beside a try".
    fn attempt_sound(&self, place: usize, own_host: u8) -> bool {
        let attempt = self.attempts[place];
        let fetchable = attempt.tried == 0 || self.fetchable_at(place).is_some();
        unless(!attempt.has_tried(own_host), Branch::SoundTriedOneself)
            && unless(fetchable, Branch::SoundTriedFar)
            && unless(attempt.tried != 0 || !attempt.late, Branch::SoundLate)
    }
}

/// Last rises: document 02, P7.
impl Source {
    /// "when last rises to L, numbers below L−63 are retired with their waits, first becomes the
    /// greater of itself and L−63, and the freed places serve the new numbers." The source is
    /// open, and L above its last. The branch is taken where a number is retired.
    fn rise(&mut self, to: u16, retires: Branch) {
        let Some((first, last)) = self.first.zip(self.last) else {
            return;
        };
        let start = window_start(to);
        when(first >= start, Branch::RiseKeeps);
        if when(first < start, retires) {
            take(if last < start {
                Branch::RiseAll
            } else {
                Branch::RiseSome
            });
            self.retire(first, last, start);
        }
        self.first = Some(first.max(start));
        self.last = Some(to);
        // "the freed places serve the new numbers": nothing was kept of a new number, so its
        // record starts blank, free cue bytes too.
        for number in (last + 1).max(start)..=to {
            self.names[place_of(number)] = Record::EMPTY;
        }
    }

    /// "Per source the end counts the numbers retired without a cue since joining, those passed
    /// over in one rise included": of the numbers first..last those below the window that are
    /// not held, and of the numbers above last all that are below the window.
    fn retire(&mut self, first: u16, last: u16, start: u16) {
        for number in (first..=last).filter(|&number| number < start) {
            let record = self.names[place_of(number)];
            when(record.reply.is_some(), Branch::RetiredReply);
            when(record.reply_quiet > 0, Branch::RetiredQuiet);
            when(record.express().is_some(), Branch::RetiredExpress);
            if unless(!record.is_held(), Branch::RetiredHeld) {
                take(Branch::RetiredMissing);
                self.missed += 1;
            }
        }
        let passed_over = u32::from(start.saturating_sub(last.saturating_add(1)));
        take(if passed_over > 0 {
            Branch::PassedOver
        } else {
            Branch::PassedNone
        });
        self.missed += passed_over;
    }
}

/// Sources at their start: a distance is "at first 40; to oneself it is 0".
fn fresh_sources(host: u8) -> [Source; HOSTS as usize] {
    std::array::from_fn(|source| {
        let own = source == usize::from(host);
        Source::fresh(if own { OWN_DISTANCE } else { FIRST_DISTANCE })
    })
}

/// Document 02, P1: "the wait's share is floor(.. × u/65535)", "Requests and replies both":
/// floor(F×C2×d×u/65535) and floor(D2×d×u/65535).
fn share(longest: u64, draw: Draw, [none, part, whole]: [Branch; 3]) -> u64 {
    take(match draw {
        0 => none,
        Draw::MAX => whole,
        _ => part,
    });
    longest * u64::from(draw) / u64::from(Draw::MAX)
}

/// Document 02, P2: "The distance is now the least whole number of milliseconds that is at
/// least e/8, then brought into 1..1000."
fn half_trip(e: u64) -> u64 {
    let whole = e / 8;
    let at_least = if whole * 8 < e { whole + 1 } else { whole };
    take(match at_least {
        ..DISTANCE_MIN => Branch::SessEchoOne,
        DISTANCE_MAX if whole < DISTANCE_MAX => Branch::SessEchoUpToThousand,
        ..=DISTANCE_MAX if at_least > whole => Branch::SessEchoUp,
        ..=DISTANCE_MAX => Branch::SessEchoWhole,
        _ => Branch::SessEchoThousand,
    });
    at_least.clamp(DISTANCE_MIN, DISTANCE_MAX)
}

/// The opening.
impl End {
    /// "Opening: is the host below 8? 12. Are parameters in range and constrained as
    /// above? 13. It gives an idle end at clock 0 with next number 0; refused, it gives
    /// beside the number host 0's crashed end with parameters 9,8,4,4,4,8, otherwise
    /// fresh." P8: "E is 0 [...] in a refused opening."
    pub fn open(host: u8, params: Params) -> (Option<u8>, End) {
        match opening_questions(host, &params) {
            Ok(()) => (None, End::fresh(host, params, Status::Idle)),
            Err(number) => (
                Some(number),
                End::fresh(0, Params::STANDARD, Status::Crashed),
            ),
        }
    }

    /// An end "at clock 0 with next number 0".
    fn fresh(host: u8, params: Params, status: Status) -> End {
        End {
            host,
            params,
            clock: 0,
            status,
            next: 0,
            sources: fresh_sources(host),
        }
    }
}

/// "Any event: Has the output at least 128 bytes? 1. Are there 64 draws [...]? 2."
fn questions_of_surroundings(draws: &[Draw], out: &[u8]) -> Result<(), u8> {
    message::ask(out.len() >= OUTPUT_LEN, 1)?;
    let enough = unless(draws.len() >= DRAWS, Branch::FewDraws);
    message::ask(enough && unless(draws.len() <= DRAWS, Branch::ManyDraws), 2)
}

/// "is the host below 8? 12. Are parameters in range and constrained as above? 13." P8: "Opening
/// with E above 1000 is refused as 14, checked after 13."
fn opening_questions(host: u8, params: &Params) -> Result<(), u8> {
    message::ask(host < HOSTS, 12)?;
    let in_range = unless(params.in_range(), Branch::ParamRange);
    message::ask(in_range && params.constrained(), 13)?;
    message::ask(params.express_in_range(), 14)
}

/// Question 3.
impl End {
    /// "A state is sound if: fields are in range; own last, if any, is next−1; first ≤
    /// last; names outside first..last hold nothing and have reply-quiet 0; those inside
    /// have a cue or a request, own ones a cue; a requester is neither oneself nor the
    /// source; due and quiet times are below 2^48+2^32; heard times are at most the
    /// clock; no stamp is heard from oneself; a non-member has no first, request, reply
    /// or heard stamp, and distances to others at 40."
    pub fn sound(&self) -> bool {
        self.own_fields_in_range()
            && self.own_last_sound()
            && (0..HOSTS).all(|source| self.source_sound(source))
            && (self.status == Status::Member || self.non_member_sound())
    }

    /// "fields are in range": host, parameters, clock and next number.
    fn own_fields_in_range(&self) -> bool {
        unless(self.host < HOSTS, Branch::SoundHost)
            && unless(self.params.in_range(), Branch::SoundParams)
            && unless(self.params.express_in_range(), Branch::SoundExpress)
            && unless(self.clock <= CLOCK_MAX, Branch::SoundClock)
            && unless(self.next <= NEXT_MAX, Branch::SoundNext)
    }

    /// "own last, if any, is next−1".
    fn own_last_sound(&self) -> bool {
        let last = self.source(self.host).last;
        let sound = last.is_none_or(|last| self.next.checked_sub(1) == Some(last.into()));
        unless(sound, Branch::SoundOwnLast)
    }

    fn source_sound(&self, source: u8) -> bool {
        let kept = self.source(source);
        kept.span_sound()
            && self.pair_sound(source)
            && self.distance_sound(source)
            && self.heard_sound(source)
            && self.origin_sound(source)
            && (0..PLACES).all(|place| kept.attempt_sound(place.into(), self.host))
            && (0..PLACES).all(|place| self.record_sound(source, place))
    }

    /// Document 02, P8: "a kept pair's sender is always another"; "fields are in range". The
    /// requester may be oneself: "is that requester".
    fn pair_sound(&self, source: u8) -> bool {
        self.source(source).pair.is_none_or(|pair| {
            unless(pair.requester < HOSTS, Branch::SoundPairRequester)
                && unless(pair.sender < HOSTS, Branch::SoundPairSender)
                && unless(pair.sender != self.host, Branch::SoundPairOneself)
        })
    }

    /// "A distance (half a round trip) is 1..1000 whole milliseconds, at first 40; to
    /// oneself it is 0."
    fn distance_sound(&self, source: u8) -> bool {
        let distance = self.source(source).distance;
        if source == self.host {
            unless(distance == OWN_DISTANCE, Branch::SoundOwnDistance)
        } else {
            let in_range = (DISTANCE_MIN..=DISTANCE_MAX).contains(&distance);
            unless(in_range, Branch::SoundDistance)
        }
    }

    /// "heard times are at most the clock; no stamp is heard from oneself"; a stamp is
    /// "the sender's clock" and "Clocks are 0..2^48−1 ticks."
    fn heard_sound(&self, source: u8) -> bool {
        self.source(source).heard.is_none_or(|heard| {
            unless(source != self.host, Branch::SoundHeardOneself)
                && unless(heard.stamp <= CLOCK_MAX, Branch::SoundStamp)
                && unless(heard.at <= self.clock, Branch::SoundHeardTime)
        })
    }

    /// Document 02, P9: "A sound state keeps that first original's number, at most first, exactly
    /// beside another's first". So an own source has none, and a non-member none: it has no first.
    fn origin_sound(&self, source: u8) -> bool {
        let kept = self.source(source);
        if source == self.host {
            return unless(kept.origin.is_none(), Branch::SoundOriginOwn);
        }
        match (kept.first, kept.origin) {
            (Some(first), Some(origin)) => unless(origin <= first, Branch::SoundOrigin),
            (Some(_), None) => unless(false, Branch::SoundOriginNone),
            (None, Some(_)) => unless(false, Branch::SoundOriginClosed),
            (None, None) => true,
        }
    }

    /// "names outside first..last hold nothing and have reply-quiet 0; those inside have
    /// a cue or a request, own ones a cue"; "due and quiet times are below 2^48+2^32".
    /// A place that no number of first..last has is a name's outside.
    fn record_sound(&self, source: u8, place: u8) -> bool {
        let place = usize::from(place);
        let kept = self.source(source);
        let record = &kept.names[place];
        if !kept.serves(place) {
            return record.is_empty();
        }
        self.body_sound(source, record)
            && self.reply_sound(source, record)
            && unless(record.reply_quiet < TIME_LIMIT, Branch::SoundReplyQuiet)
    }

    /// "those inside have a cue or a request, own ones a cue"; "fields are in range".
    fn body_sound(&self, source: u8, record: &Record) -> bool {
        match record.body {
            Body::Nothing => unless(false, Branch::SoundInside),
            Body::Held => unless(record.cue.in_range(), Branch::SoundCue),
            Body::Waiting(request) => {
                unless(source != self.host, Branch::SoundOwn)
                    && request.in_range()
                    && self.express_sound(source, &request)
            }
        }
    }

    /// P8: "a sound state has one only beside a request and with a kept pair".
    fn express_sound(&self, source: u8, request: &Request) -> bool {
        let paired = request.express.is_none() || self.source(source).pair.is_some();
        unless(paired, Branch::SoundExpressPair)
    }

    /// "with a held cue perhaps one waiting reply (due, requester)"; "a requester is
    /// neither oneself nor the source; due and quiet times are below 2^48+2^32".
    fn reply_sound(&self, source: u8, record: &Record) -> bool {
        record.reply.is_none_or(|reply| {
            record.is_held()
                && unless(reply.requester < HOSTS, Branch::SoundRequester)
                && unless(reply.requester != self.host, Branch::SoundNotOneself)
                && unless(reply.requester != source, Branch::SoundNotSource)
                && unless(reply.due < TIME_LIMIT, Branch::SoundReplyDue)
        })
    }

    /// "a non-member has no first, request, reply or heard stamp, and distances to
    /// others at 40": with no first every name is outside, so without request and reply. P8:
    /// "non-members keep none", no pair. P9: "non-members keep none": without firsts and heard
    /// stamps there is no first original, no report, no fetchable number and so no try.
    fn non_member_sound(&self) -> bool {
        (0..HOSTS).all(|source| {
            let kept = self.source(source);
            let at_forty = source == self.host || kept.distance == FIRST_DISTANCE;
            unless(kept.first.is_none(), Branch::SoundNoFirst)
                && unless(kept.pair.is_none(), Branch::SoundNoPair)
                && unless(kept.heard.is_none(), Branch::SoundNoHeard)
                && unless(at_forty, Branch::SoundForty)
        })
    }
}

/// The events.
impl End {
    /// "Each call stops at its first no. A refusal gives only its number; state, clock
    /// and buffers keep every byte."
    pub fn event(&mut self, event: &Event, clock: u64, draws: &[Draw], out: &mut [u8]) -> Answer {
        match self.questions(event, clock, draws, out) {
            Err(number) => Answer::Refused(number),
            Ok(arrived) => self.unrefused(event, arrived, clock, draws, out),
        }
    }

    /// The questions in their order; the datagram that an Arrival brings comes with the yes.
    fn questions(
        &self,
        event: &Event,
        clock: u64,
        draws: &[Draw],
        out: &[u8],
    ) -> Result<Option<Datagram>, u8> {
        questions_of_surroundings(draws, out)?;
        self.questions_of_state(event, clock)
    }

    /// Questions 3 to 11, which a state, a clock and an event alone decide.
    pub(crate) fn questions_of_state(
        &self,
        event: &Event,
        clock: u64,
    ) -> Result<Option<Datagram>, u8> {
        self.questions_of_any(clock)?;
        match event {
            Event::Send(cue) => self.questions_of_send(cue).map(|()| None),
            Event::Arrival(bytes) => message::read(bytes).map(Some),
            _ => Ok(None),
        }
    }

    /// "Is the state sound? 3. Is the clock at most 2^48−1? 4. Is it at least the state's?
    /// 5."
    fn questions_of_any(&self, clock: u64) -> Result<(), u8> {
        message::ask(self.sound(), 3)?;
        message::ask(clock <= CLOCK_MAX, 4)?;
        message::ask(clock >= self.clock, 5)
    }

    /// "Send: are offsets and lamp in range? 6. For a member, is the next number below
    /// 64? 7." Document 02, P7: "Number 7 comes only at 65,536".
    fn questions_of_send(&self, cue: &Cue) -> Result<(), u8> {
        message::ask(cue.in_range(), 6)?;
        if self.next < NUMBERS {
            when(self.next == NUMBERS - 1, Branch::NextBelowEnd);
            return Ok(());
        }
        let asked = unless(self.status == Status::Member, Branch::NextNotAsked);
        message::ask(!when(asked, Branch::NextAtEnd), 7)
    }

    /// "An unrefused event sets the clock. On a crashed end everything unrefused is
    /// Ignored and nothing changes, clock included."; "These give Done, from any other
    /// status Ignored."; "Send, Fire, Report, Arrival outside membership [...]: Ignored."
    /// Document 02, P5: "A message of no bytes is now taken by a member as a Report event at
    /// that clock, and by any other status as Ignored."
    fn unrefused(
        &mut self,
        event: &Event,
        arrived: Option<Datagram>,
        clock: u64,
        draws: &[Draw],
        out: &mut [u8],
    ) -> Answer {
        if arrived == Some(Datagram::Probe) {
            branches::take_nth(Branch::ProbeIdle, self.status as usize);
        }
        if when(self.status == Status::Crashed, Branch::CrashedIgnored) {
            return Answer::Ignored;
        }
        self.clock = clock;
        branches::take_move(event, self.status);
        if let Some(status) = self.status.after(event) {
            return self.move_to(status);
        }
        if self.status != Status::Member {
            branches::take_outside(event);
            return Answer::Ignored;
        }
        match (event, arrived) {
            (Event::Send(cue), _) => self.send(*cue, out),
            (Event::Fire, _) => self.fire(draws, out),
            (Event::Report, _) => self.report(out),
            (Event::Fetch { source, number }, _) => self.fetch(*source, *number, out),
            (Event::Announce, _) => self.announce(out),
            (Event::Arrival(_), Some(Datagram::Probe)) => self.report(out),
            (Event::Arrival(_), Some(Datagram::Message(message))) => {
                self.arrival(&message, draws, out)
            }
            _ => Answer::Ignored,
        }
    }

    /// "These give Done"; "Leave and Crash clear firsts, names and heard stamps and set
    /// distances to others to 40. The next own number stays." The count is one "since joining",
    /// and "0 without" a first. P8: a pair is kept "until Leave or Crash", and "An express wait
    /// goes with its request".
    fn move_to(&mut self, status: Status) -> Answer {
        self.status = status;
        if matches!(status, Status::Leaving | Status::Crashed) {
            let missed = self.sources.iter().any(|kept| kept.missed > 0);
            when(missed, Branch::LeaveMissed);
            self.take_leave();
            self.sources = fresh_sources(self.host);
        }
        Answer::Done
    }

    /// "Send: hold the cue under the next number; it becomes last, and first if none;
    /// Out DATA." Last rises as under an arrival. Question 7 leaves next numbers to 65,535.
    fn send(&mut self, cue: Cue, out: &mut [u8]) -> Answer {
        let (host, number) = (self.host, self.next as u16);
        self.next += 1;
        let own = self.source_mut(host);
        if own.first.is_none() {
            take(Branch::SendFirst);
            (own.first, own.last) = (Some(number), Some(number));
        } else {
            take(Branch::SendLast);
            own.rise(number, Branch::RiseRetiresSend);
        }
        self.record_mut(host, number).hold(cue);
        let name = Name {
            source: host,
            number,
            host,
        };
        self.put_out(self.about(message::DATA, name, Some(cue)), out)
    }

    /// "Report: Out SESS with all firsts' sources and all heard stamps."
    fn report(&self, out: &mut [u8]) -> Answer {
        let mut message = self.message(message::SESS);
        for (host, kept) in (0..HOSTS).zip(&self.sources) {
            if let Some(last) = kept.last {
                message.reports.push(Report { source: host, last });
            }
            if let Some(Heard { stamp, at, .. }) = kept.heard {
                message.echoes.push(Echo {
                    host,
                    stamp,
                    held: self.clock - at,
                });
            }
        }
        match (message.reports.len(), message.echoes.len()) {
            (0, 0) => take(Branch::ReportBare),
            (8, 7) => take(Branch::ReportFull),
            _ => {}
        }
        when(!message.reports.is_empty(), Branch::ReportFirsts);
        when(!message.echoes.is_empty(), Branch::ReportHeard);
        self.put_out(message, out)
    }

    /// Document 02, P11: "A new event Announce has a member put out its own first and last as trail and
    /// lead in kind 24, two names laid out as kind 18's with the sender as source and host; without a
    /// first it gives Nothing".
    fn announce(&self, out: &mut [u8]) -> Answer {
        let own = self.source(self.host);
        let Some((trail, lead)) = own.first.zip(own.last) else {
            take(Branch::AnnounceNoFirst);
            return Answer::Nothing;
        };
        take(match lead - trail {
            0 => Branch::AnnounceOne,
            SPAN_MAX => Branch::AnnounceFull,
            _ => Branch::AnnounceSome,
        });
        let host = self.host;
        let names = [trail, lead].map(|number| Name {
            source: host,
            number,
            host,
        });
        let message = Message {
            names: names.to_vec(),
            ..self.message(message::ANNC)
        };
        self.put_out(message, out)
    }

    /// "Fire: of all waits with due ≤ clock the earliest [...]. None due: Nothing."
    fn fire(&mut self, draws: &[Draw], out: &mut [u8]) -> Answer {
        match self.earliest_wait() {
            Some(earliest @ (due, wait, source, number)) if due <= self.clock => {
                self.take_others_due(earliest);
                match wait {
                    Wait::Express => self.fire_express(source, number, out),
                    Wait::Request => self.fire_request(source, number, draws, out),
                    Wait::Reply => self.fire_reply(source, number, out),
                }
            }
            Some(_) => {
                take(Branch::FireNotDue);
                Answer::Nothing
            }
            None => {
                take(Branch::FireNoWait);
                Answer::Nothing
            }
        }
    }

    /// "the earliest; ties: request before reply, then lower source, lower number".
    fn earliest_wait(&self) -> Option<(u64, Wait, u8, u16)> {
        self.waits().min()
    }

    /// When the first of all waits is due.
    pub fn first_due(&self) -> Option<u64> {
        self.waits().map(|(due, ..)| due).min()
    }

    /// All waits.
    fn waits(&self) -> impl Iterator<Item = (u64, Wait, u8, u16)> + '_ {
        let names = (0..HOSTS).flat_map(|source| {
            let numbers = self.source(source).numbers();
            numbers.map(move |number| (source, number))
        });
        names.flat_map(|(source, number)| {
            let waits = self.record(source, number).waits();
            waits.map(move |(due, wait)| (due, wait, source, number))
        })
    }

    /// What set the fired wait before each other one that is due.
    fn take_others_due(&self, fired: (u64, Wait, u8, u16)) {
        if !branches::counting() {
            return;
        }
        let (due, wait, source, number) = fired;
        let others = self.waits().filter(|&other| other != fired);
        for other in others.filter(|other| other.0 <= self.clock) {
            take(if other.0 != due {
                Branch::FireEarliest
            } else if wait == Wait::Express && (other.2, other.3) == (source, number) {
                Branch::FireExpressOwnRequest
            } else if wait == Wait::Express && other.1 != wait {
                if (other.2, other.3) < (source, number) {
                    Branch::FireExpressLaterName
                } else {
                    Branch::FireExpressKind
                }
            } else if other.1 != wait {
                Branch::FireKind
            } else if other.2 != source {
                Branch::FireSource
            } else if place_of(other.3) < place_of(fired.3) {
                Branch::FireNumberNotPlace
            } else {
                Branch::FireNumber
            });
        }
    }

    /// Document 02, P8: "Fired, it is dropped and goes out as kind 21, laid out as kind 18, with
    /// the sender then kept as host".
    fn fire_express(&mut self, source: u8, number: u16, out: &mut [u8]) -> Answer {
        let Some(Pair { sender, .. }) = self.source(source).pair else {
            return Answer::Nothing;
        };
        take(if sender == source {
            Branch::FireExpressToSource
        } else {
            Branch::FireExpressToOther
        });
        self.set_express(source, number, None);
        let name = Name {
            source,
            number,
            host: sender,
        };
        self.put_out(self.about(message::XPRS, name, None), out)
    }

    /// "A request goes out as RQST and its next round is set."
    fn fire_request(&mut self, source: u8, number: u16, draws: &[Draw], out: &mut [u8]) -> Answer {
        if let Body::Waiting(request) = self.record(source, number).body {
            take(Branch::FireRequest);
            when(request.round == LAST_ROUND, Branch::FireSixteen);
            when(request.express.is_some(), Branch::FireRequestExpressStays);
            self.set_next_round(source, number, request, draws);
        }
        let name = Name {
            source,
            number,
            host: self.host,
        };
        self.put_out(self.about(message::RQST, name, None), out)
    }

    /// "A reply goes out as REPL, is dropped, and reply-quiet is set as above."
    fn fire_reply(&mut self, source: u8, number: u16, out: &mut [u8]) -> Answer {
        let Record {
            cue,
            reply: Some(Reply { requester, .. }),
            ..
        } = *self.record(source, number)
        else {
            return Answer::Nothing;
        };
        take(Branch::FireReply);
        self.repair(source, number, cue, requester, out)
    }

    /// "goes out as REPL, is dropped, and reply-quiet is set as above."
    fn repair(
        &mut self,
        source: u8,
        number: u16,
        cue: Cue,
        requester: u8,
        out: &mut [u8],
    ) -> Answer {
        self.quiet_reply(source, number, requester);
        let name = Name {
            source,
            number,
            host: requester,
        };
        self.put_out(self.about(message::REPL, name, Some(cue)), out)
    }
}

/// Arrivals.
impl End {
    /// "an arrival whose sender is oneself: Ignored."
    fn arrival(&mut self, message: &Message, draws: &[Draw], out: &mut [u8]) -> Answer {
        if when(message.sender == self.host, Branch::OwnMessage) {
            self.take_own_clash(message);
            return Answer::Ignored;
        }
        match (message.kind, &message.names[..], &message.cues[..]) {
            (message::DATA, [name], [cue]) => self.data(name, *cue, draws, out),
            (message::RQST, [name], []) => self.rqst(name, draws),
            (message::XPRS, [name], []) => self.xprs(name, message.sender, draws, out),
            (message::REPL, [name], [cue]) => self.repl(name, *cue, message.sender, draws, out),
            (message::FTCH, [name], []) => self.ftch(name, message.sender, out),
            (message::LATE, [name], [cue]) => self.late(name, *cue, message.sender, out),
            (message::ANNC, [_, lead], []) => self.annc(lead),
            _ => self.sess(message, draws),
        }
    }

    /// "DATA: no first: first = last = the number, Got. Below first or held: Ignored.
    /// Otherwise hold it, drop its request, Got"; held with other bytes, P4's Clash.
    fn data(&mut self, name: &Name, cue: Cue, draws: &[Draw], out: &mut [u8]) -> Answer {
        const TAKES: [Branch; 3] = [Branch::DataWaiting, Branch::DataNext, Branch::DataGap];
        let kept = self.source_mut(name.source);
        if when(kept.first.is_none(), Branch::DataNoFirst) {
            kept.first = Some(name.number);
            kept.last = Some(name.number);
            // P9: "the first original it had since joining".
            kept.origin = Some(name.number);
        } else if when(kept.is_below_first(name.number), Branch::DataBelow) {
            when(kept.is_full(), Branch::DataBelowFull);
            return Answer::Ignored;
        } else if when(self.clashes(name, cue), Branch::DataClash) {
            return self.clash(name, cue);
        } else if when(self.is_held(name), Branch::DataHeld) {
            return Answer::Ignored;
        } else {
            self.take_rise(name, TAKES);
        }
        let express = self.express_of_gap(name);
        self.hand_out(name, cue, draws, out, Branch::RiseRetiresData, express)
    }

    /// Document 02, P8: "A member that sets round 1 by a gap before a DATA, not a REPL, and is that
    /// requester also sets an express wait, due E ticks on."
    fn express_of_gap(&self, name: &Name) -> Option<u64> {
        let kept = self.source(name.source);
        let pair = kept.pair.filter(|_| kept.has_gap_before(name.number))?;
        if when(pair.requester != self.host, Branch::DataGapOtherRequester) {
            return None;
        }
        take(if self.params.e == 0 {
            Branch::DataGapExpressAtOnce
        } else {
            Branch::DataGapExpress
        });
        Some(self.clock + u64::from(self.params.e))
    }

    /// Document 02, P4: "DATA and REPL messages counted as the same cue when their names
    /// agreed; now all 24 cue bytes must agree too. Such a message from another end that
    /// names a held cue with other bytes": is this cue held with other bytes?
    fn clashes(&self, name: &Name, cue: Cue) -> bool {
        self.kept(name)
            .is_some_and(|record| record.is_held() && record.cue.0 != cue.0)
    }

    /// "gets a new answer, Clash, with the name; apart from the clock nothing changes,
    /// reply waits included."
    fn clash(&self, name: &Name, cue: Cue) -> Answer {
        let record = self.record(name.source, name.number);
        when(record.cue.0[..10] == cue.0[..10], Branch::ClashFree);
        when(record.reply.is_some(), Branch::ClashReplyStays);
        Answer::Clash {
            source: name.source,
            number: name.number,
        }
    }

    /// An own message that would clash, were it another's.
    fn take_own_clash(&self, message: &Message) {
        if let ([name], [cue]) = (&message.names[..], &message.cues[..]) {
            when(self.clashes(name, *cue), Branch::OwnMessageOther);
        }
    }

    /// "Otherwise hold it, drop its request, Got; if it is above last, each number
    /// between gets round 1 and last rises."; "Got (name, and its cue in the first 24)".
    fn hand_out(
        &mut self,
        name: &Name,
        cue: Cue,
        draws: &[Draw],
        out: &mut [u8],
        retires: Branch,
        express: Option<u64>,
    ) -> Answer {
        self.raise_last(name.source, name.number, draws, retires, express);
        let record = self.record_mut(name.source, name.number);
        when(record.express().is_some(), Branch::HeldExpress);
        record.hold(cue);
        out[..cue.0.len()].copy_from_slice(&cue.0);
        Answer::Got {
            source: name.source,
            number: name.number,
        }
    }

    /// "RQST: no first, below first, or own above last: Ignored."
    fn out_of_reach(&self, name: &Name, branches: [Branch; 4]) -> bool {
        let [no_first, below, below_full, own_above] = branches;
        let kept = self.source(name.source);
        let own = name.source == self.host;
        let is_below = kept.is_below_first(name.number);
        when(is_below && kept.is_full(), below_full);
        when(kept.first.is_none(), no_first)
            || when(is_below, below)
            || when(own && kept.is_above_last(name.number), own_above)
    }

    /// "RQST: no first, below first, or own above last: Ignored. Held: [...] Not held
    /// and above last: [...] Not held up to last: [...]".
    fn rqst(&mut self, name: &Name, draws: &[Draw]) -> Answer {
        const IGNORED: [Branch; 4] = [
            Branch::RqstNoFirst,
            Branch::RqstBelow,
            Branch::RqstBelowFull,
            Branch::RqstOwnAbove,
        ];
        if self.out_of_reach(name, IGNORED) {
            return Answer::Ignored;
        }
        match self.kept(name).map(|record| record.body) {
            Some(Body::Held) => self.rqst_held(name, draws),
            Some(Body::Waiting(request)) => self.rqst_waiting(name, request, draws),
            _ => self.rqst_above(name, draws),
        }
    }

    /// "Held: with no reply waiting and clock ≥ reply-quiet, set a reply due at
    /// t + D1×d + floor(D2×d×u/255), d to the requester, Done; otherwise Ignored." The
    /// share is P1's.
    fn rqst_held(&mut self, name: &Name, draws: &[Draw]) -> Answer {
        const SHARES: [Branch; 3] = [
            Branch::ReplyNoShare,
            Branch::ReplyShare,
            Branch::ReplyWholeShare,
        ];
        let record = self.record(name.source, name.number);
        if when(record.reply.is_some(), Branch::RqstReplyWaits)
            || when(self.clock < record.reply_quiet, Branch::RqstReplyQuiet)
        {
            return Answer::Ignored;
        }
        take(if name.source == self.host {
            Branch::RqstReplyOwn
        } else {
            Branch::RqstReplyOther
        });
        let d = self.distance(name.host);
        let longest = u64::from(self.params.d2) * d;
        let share = share(longest, draws[place_of(name.number)], SHARES);
        let reply = Reply {
            due: self.clock + u64::from(self.params.d1) * d + share,
            requester: name.host,
        };
        self.record_mut(name.source, name.number).reply = Some(reply);
        Answer::Done
    }

    /// "Not held and above last: numbers between get round 1, this one round 2, last
    /// rises, Done." In a sound state a name in reach with nothing kept is one above last.
    fn rqst_above(&mut self, name: &Name, draws: &[Draw]) -> Answer {
        // The name is above last, so the first of the three is never taken.
        self.take_rise(name, [Branch::RqstNext, Branch::RqstNext, Branch::RqstGap]);
        when(self.gap_of_requester(name), Branch::RqstGapNoExpress);
        self.raise_last(
            name.source,
            name.number,
            draws,
            Branch::RiseRetiresRqst,
            None,
        );
        self.set_round(name.source, name.number, 2, draws);
        Answer::Done
    }

    /// "Not held up to last: clock above quiet-until (lemma 4.24 is strict) sets the next
    /// round, Done; otherwise Ignored."
    fn rqst_waiting(&mut self, name: &Name, request: Request, draws: &[Draw]) -> Answer {
        if when(self.clock < request.quiet_until, Branch::RqstQuiet)
            || when(self.clock == request.quiet_until, Branch::RqstAtQuiet)
        {
            return Answer::Ignored;
        }
        take(Branch::RqstLater);
        when(request.round == LAST_ROUND, Branch::RqstSixteen);
        when(request.express.is_some(), Branch::RqstExpressStays);
        self.set_next_round(name.source, name.number, request, draws);
        Answer::Done
    }

    /// "REPL: Ignored as RQST's first line has it; a repair never opens a source. Not
    /// held: as DATA, Got; held: Done. Either way its waiting reply goes and reply-quiet
    /// = t + D3×d, d to the requester."; held with other bytes, P4's Clash. By P8 the pair of one
    /// "answered Got or Done" is kept.
    fn repl(
        &mut self,
        name: &Name,
        cue: Cue,
        sender: u8,
        draws: &[Draw],
        out: &mut [u8],
    ) -> Answer {
        const IGNORED: [Branch; 4] = [
            Branch::ReplNoFirst,
            Branch::ReplBelow,
            Branch::ReplBelowFull,
            Branch::ReplOwnAbove,
        ];
        if self.out_of_reach(name, IGNORED) {
            when(self.pair_would_move(name, sender), Branch::PairNotOfIgnored);
            return Answer::Ignored;
        }
        if self.clashes(name, cue) {
            when(self.pair_would_move(name, sender), Branch::PairNotOfClash);
            take(if name.source == self.host {
                Branch::ReplClashOwn
            } else {
                Branch::ReplClashOther
            });
            return self.clash(name, cue);
        }
        let answer = if self.is_held(name) {
            take(if name.source == self.host {
                Branch::ReplHeldOwn
            } else {
                Branch::ReplHeldOther
            });
            Answer::Done
        } else {
            const TAKES: [Branch; 3] = [Branch::ReplWaiting, Branch::ReplNext, Branch::ReplGap];
            self.take_rise(name, TAKES);
            when(self.gap_of_requester(name), Branch::ReplGapNoExpress);
            self.hand_out(name, cue, draws, out, Branch::RiseRetiresRepl, None)
        };
        let record = self.record(name.source, name.number);
        when(record.reply.is_some(), Branch::ReplDropsReply);
        when(name.host == self.host, Branch::ReplForOneself);
        self.quiet_reply(name.source, name.number, name.host);
        self.keep_pair(name, sender);
        answer
    }

    /// Document 02, P8: "the requester and sender of the latest REPL answered Got or Done that
    /// named a number at least as high as the kept one's."
    fn keep_pair(&mut self, name: &Name, sender: u8) {
        let own = name.source == self.host;
        let kept = &mut self.source_mut(name.source).pair;
        let branch = match *kept {
            Some(pair) if name.number < pair.number => return take(Branch::PairLower),
            Some(pair) if name.number == pair.number => Branch::PairEqual,
            Some(_) => Branch::PairHigher,
            None => Branch::PairFirst,
        };
        take(branch);
        when(own, Branch::PairOwn);
        *kept = Some(Pair {
            requester: name.host,
            sender,
            number: name.number,
        });
    }

    /// Would keeping this REPL's pair change what is kept?
    fn pair_would_move(&self, name: &Name, sender: u8) -> bool {
        self.source(name.source).pair.is_none_or(|pair| {
            name.number >= pair.number
                && (pair.requester, pair.sender, pair.number) != (name.host, sender, name.number)
        })
    }

    /// Document 02, P8: "The named sender, if it holds the cue and clock ≥ reply-quiet, drops its
    /// waiting reply, sets reply-quiet as Fire does and answers Out REPL in that call, with kind
    /// 21's sender as requester. Otherwise it, like every other end, treats kind 21 as RQST from
    /// its sender."
    fn xprs(&mut self, name: &Name, sender: u8, draws: &[Draw], out: &mut [u8]) -> Answer {
        let as_rqst = Name {
            host: sender,
            ..*name
        };
        if when(name.host != self.host, Branch::XprsToAnother) {
            when(self.is_held(name), Branch::XprsToAnotherHeld);
            return self.rqst(&as_rqst, draws);
        }
        let held = self.kept(name).copied().filter(Record::is_held);
        let Some(record) = held else {
            take(Branch::XprsNotHeld);
            return self.rqst(&as_rqst, draws);
        };
        if when(self.clock < record.reply_quiet, Branch::XprsReplyQuiet) {
            return self.rqst(&as_rqst, draws);
        }
        take(match record.reply {
            Some(_) => Branch::XprsDropsReply,
            None => Branch::XprsAtOnce,
        });
        when(self.clock == record.reply_quiet, Branch::XprsAtQuiet);
        self.repair(name.source, name.number, record.cue, sender, out)
    }

    /// Document 02, P11: "Members answer kind 24 Done." Nothing else is said, so nothing but the clock changes: its
    /// lead raises no last, and its stamp is not heard.
    fn annc(&self, lead: &Name) -> Answer {
        let kept = self.source(lead.source);
        take(match kept.last {
            None => Branch::AnncNotOpen,
            Some(last) if lead.number > last => Branch::AnncAbove,
            Some(_) => Branch::AnncAtMost,
        });
        Answer::Done
    }

    /// "SESS: Done. For each report [...]. After that, an echo of oneself [...]. The
    /// sender's stamp is kept as heard now."
    fn sess(&mut self, message: &Message, draws: &[Draw]) -> Answer {
        for report in &message.reports {
            self.hear_report(report, draws);
        }
        for echo in &message.echoes {
            self.hear_echo(message.sender, echo);
        }
        let heard = Heard {
            stamp: message.stamp,
            at: self.clock,
            sources: reported(&message.reports),
        };
        take(Branch::SessHeard);
        when(heard.sources != 0, Branch::SessReported);
        let before = self.source_mut(message.sender).heard.replace(heard);
        when(before.is_some(), Branch::SessHeardAgain);
        let lost = before.map_or(0, |before| before.sources & !heard.sources);
        when(lost != 0, Branch::SessReportedLess);
        Answer::Done
    }

    /// "For each report of another, opened source above its last, the new numbers get
    /// round 1 and last rises."
    fn hear_report(&mut self, report: &Report, draws: &[Draw]) {
        if when(report.source == self.host, Branch::SessOwn) {
            return;
        }
        let kept = self.source(report.source);
        let above = kept.is_above_last(report.last);
        if when(kept.first.is_none(), Branch::SessNoFirst) || when(!above, Branch::SessAtMost) {
            return;
        }
        take(Branch::SessRises);
        let requester = kept.pair.map(|pair| pair.requester);
        when(requester == Some(self.host), Branch::SessRisesNoExpress);
        self.raise_last(
            report.source,
            report.last,
            draws,
            Branch::RiseRetiresSess,
            None,
        );
        self.set_round(report.source, report.last, 1, draws);
    }

    /// "an echo of oneself, by that echo's stamp and held ticks, with e = clock − stamp −
    /// held ≥ 0 sets the distance to the sender"; what it is set to is P2's.
    fn hear_echo(&mut self, sender: u8, echo: &Echo) {
        if when(echo.host != self.host, Branch::SessEchoOther) {
            return;
        }
        let since_stamp = self.clock.checked_sub(echo.stamp);
        let Some(e) = since_stamp.and_then(|ticks| ticks.checked_sub(echo.held)) else {
            return take(Branch::SessEchoAhead);
        };
        self.source_mut(sender).distance = half_trip(e);
    }
}

/// Document 02, P9: the sources that a session message "reported".
fn reported(reports: &[Report]) -> u8 {
    reports
        .iter()
        .fold(0, |sources, report| sources | bit(report.source))
}

/// Fetching what came before: document 02, P9.
impl End {
    /// "A member may fetch any of the 64 numbers just below the first original it had since joining
    /// from another host; any other fetch, or one already handed out, is Ignored."; "Each call tries
    /// the one with the least distance, ties to the lower host, among those not yet tried for that
    /// number since joining; to a fetch that isn't Ignored, "exhausted" is answered exactly when no
    /// untried candidate is left."
    fn fetch(&mut self, source: u8, number: u16, out: &mut [u8]) -> Answer {
        self.take_fetch(source, number);
        let Some(attempt) = self.attempt(source, number).filter(|done| !done.late) else {
            return Answer::Ignored;
        };
        let Some(host) = self.untried(source, attempt) else {
            take(if attempt.tried == 0 {
                Branch::FetchNoCandidate
            } else {
                Branch::FetchAllTried
            });
            return Answer::Exhausted;
        };
        self.take_tried(source, attempt, host);
        self.source_mut(source).attempts[place_of(number)].tried |= bit(host);
        let name = Name {
            source,
            number,
            host,
        };
        self.put_out(self.about(message::FTCH, name, None), out)
    }

    /// What was done to fetch a name that may be fetched. One's own source has no original "from
    /// another host", so its state keeps none.
    pub(crate) fn attempt(&self, source: u8, number: u16) -> Option<Attempt> {
        let kept = self.sources.get(usize::from(source))?;
        kept.attempt(number).copied()
    }

    /// "the one with the least distance, ties to the lower host, among those not yet tried".
    fn untried(&self, source: u8, attempt: Attempt) -> Option<u8> {
        self.candidates(source)
            .filter(|&host| !attempt.has_tried(host))
            .min_by_key(|&host| (self.distance(host), host))
    }

    /// "Candidates are the other hosts whose last heard session message since joining reported that
    /// source."
    fn candidates(&self, source: u8) -> impl Iterator<Item = u8> + '_ {
        (0..HOSTS).filter(move |&host| {
            let heard = self.source(host).heard;
            host != self.host && heard.is_some_and(|heard| has_bit(heard.sources, source))
        })
    }

    /// "The tried host answers with kind 23 in that call if it holds the cue."; "All else is
    /// Ignored".
    fn ftch(&mut self, name: &Name, sender: u8, out: &mut [u8]) -> Answer {
        let held = self.kept(name).copied().filter(Record::is_held);
        if when(name.host != self.host, Branch::FtchToAnother) {
            when(held.is_some(), Branch::FtchToAnotherHeld);
            return Answer::Ignored;
        }
        let Some(record) = held else {
            self.take_not_held(name);
            return Answer::Ignored;
        };
        take(if name.source == self.host {
            Branch::FtchOwn
        } else {
            Branch::FtchOther
        });
        when(self.clock < record.reply_quiet, Branch::FtchQuiet);
        when(record.reply.is_some(), Branch::FtchReply);
        let name = Name {
            host: sender,
            ..*name
        };
        self.put_out(self.about(message::LATE, name, Some(record.cue)), out)
    }

    /// "Its requester hands it out as Late, written as Got is, if it has tried that sender for the
    /// number since joining, at most once since joining [...]. All else is Ignored"; "first doesn't
    /// move".
    fn late(&mut self, name: &Name, cue: Cue, sender: u8, out: &mut [u8]) -> Answer {
        let attempt = self.attempt(name.source, name.number);
        let tried = attempt.is_some_and(|attempt| attempt.has_tried(sender));
        if when(name.host != self.host, Branch::LateToAnother) {
            when(tried, Branch::LateToAnotherTried);
            return Answer::Ignored;
        }
        let Some(attempt) = attempt.filter(|_| tried) else {
            self.take_untried(name, sender);
            return Answer::Ignored;
        };
        if when(attempt.late, Branch::LateTwice) {
            return Answer::Ignored;
        }
        take(Branch::LateFirst);
        when(attempt.tried != bit(sender), Branch::LateOfAny);
        self.source_mut(name.source).attempts[place_of(name.number)].late = true;
        out[..cue.0.len()].copy_from_slice(&cue.0);
        Answer::Late {
            source: name.source,
            number: name.number,
        }
    }
}

/// What is counted of fetches.
impl End {
    /// Where a fetch's name stands.
    fn take_fetch(&self, source: u8, number: u16) {
        let Some(kept) = self.sources.get(usize::from(source)) else {
            return take(Branch::FetchNoHost);
        };
        let Some(origin) = kept.origin else {
            return take(if source == self.host {
                Branch::FetchOwn
            } else {
                Branch::FetchNoOriginal
            });
        };
        when(kept.first > kept.origin, Branch::FetchRisen);
        match i32::from(origin) - i32::from(number) {
            0 => take(Branch::FetchFirst),
            ..0 => take(Branch::FetchAbove),
            1 => take(Branch::FetchJustBelow),
            64 => take(Branch::FetchSixtyFour),
            65 => take(Branch::FetchSixtyFive),
            66.. => take(Branch::FetchFar),
            _ => {}
        }
        if let Some(attempt) = kept.attempt(number).filter(|attempt| attempt.late) {
            take(Branch::FetchHandedOut);
            let left = self.untried(source, *attempt).is_some();
            when(left, Branch::FetchHandedOutLeft);
        }
    }

    /// What the host tried was chosen before.
    fn take_tried(&self, source: u8, attempt: Attempt, host: u8) {
        if !branches::counting() {
            return;
        }
        take(if host == source {
            Branch::FetchSource
        } else {
            Branch::FetchHost
        });
        when(attempt.tried != 0, Branch::FetchPassedOver);
        let mut attempts = self.source(source).attempts.iter();
        let elsewhere = attempts.any(|other| other.has_tried(host));
        when(elsewhere, Branch::FetchOtherNumber);
        let distance = self.distance(host);
        for other in (0..HOSTS).filter(|&other| other != host && other != self.host) {
            let nearer = (self.distance(other), other) < (distance, host);
            let reports = self.source(other).heard.map(|heard| heard.sources);
            match reports.map(|sources| has_bit(sources, source)) {
                None if nearer => take(Branch::FetchUnheard),
                Some(false) if nearer => take(Branch::FetchUnreported),
                Some(true) if attempt.has_tried(other) => {}
                Some(true) if self.distance(other) == distance => take(Branch::FetchTie),
                Some(true) if other < host => take(Branch::FetchLeastHigher),
                Some(true) => take(Branch::FetchLeast),
                _ => {}
            }
        }
    }

    /// Why the tried host does not hold the cue.
    fn take_not_held(&self, name: &Name) {
        let kept = self.source(name.source);
        take(match kept.first {
            None => Branch::FtchNotOpen,
            Some(first) if name.number < first => Branch::FtchBelow,
            Some(_) if kept.is_above_last(name.number) => Branch::FtchAbove,
            Some(_) => Branch::FtchWaiting,
        });
        let late = kept.attempt(name.number).is_some_and(|done| done.late);
        when(late, Branch::FtchLate);
    }

    /// Why a kind 23 of an own request is not handed out.
    fn take_untried(&self, name: &Name, sender: u8) {
        let kept = self.source(name.source);
        match kept.attempt(name.number) {
            Some(attempt) => {
                take(Branch::LateUntried);
                when(attempt.tried != 0, Branch::LateUntriedOther);
            }
            None => {
                take(Branch::LateNotFetchable);
                let tried = kept.attempts[place_of(name.number)].has_tried(sender);
                when(tried, Branch::LateSixtyFour);
            }
        }
    }
}

/// What the events share.
impl End {
    /// "each number between gets round 1 and last rises", where the source is opened and
    /// the number is above its last; else nothing. The new last's own record is the
    /// caller's to fill: with an arrived cue, a request's round 2 or a report's round 1. The
    /// numbers between get P8's express wait too, where one is given.
    fn raise_last(
        &mut self,
        source: u8,
        to: u16,
        draws: &[Draw],
        retires: Branch,
        express: Option<u64>,
    ) {
        let Some(last) = self.source(source).last.filter(|&last| last < to) else {
            return;
        };
        self.source_mut(source).rise(to, retires);
        for number in (last + 1).max(window_start(to))..to {
            self.set_round(source, number, 1, draws);
            self.set_express(source, number, express);
        }
    }

    /// The express wait beside a number's request, or none.
    fn set_express(&mut self, source: u8, number: u16, express: Option<u64>) {
        if let Body::Waiting(request) = &mut self.record_mut(source, number).body {
            request.express = express;
        }
    }

    /// The round after the one that waits.
    fn set_next_round(&mut self, source: u8, number: u16, request: Request, draws: &[Draw]) {
        take(match request.next_round() {
            LAST_ROUND if request.round == LAST_ROUND => Branch::RoundStays,
            LAST_ROUND => Branch::RoundSixteen,
            _ => Branch::RoundNext,
        });
        self.set_round(source, number, request.next_round(), draws);
    }

    /// "Setting round k at clock t, F = 2^(k−1), d the distance to the source, u the draw
    /// at the cue number: due = t + F×C1×d + floor(F×C2×d×u/255); quiet-until = t +
    /// F×C3×d (001, lemma 4.24: for every round)." The share is P1's; by P7 "Cue number n uses
    /// draw n mod 64." P8: "An express wait goes with its request", so it stays while one waits.
    fn set_round(&mut self, source: u8, number: u16, round: u8, draws: &[Draw]) {
        const SHARES: [Branch; 3] = [
            Branch::RoundNoShare,
            Branch::RoundShare,
            Branch::RoundWholeShare,
        ];
        let fd = (1 << (round - 1)) * self.distance(source);
        let longest = fd * u64::from(self.params.c2);
        when(number >= u16::from(PLACES), Branch::DrawAgain);
        let share = share(longest, draws[place_of(number)], SHARES);
        let request = Request {
            round,
            due: self.clock + fd * u64::from(self.params.c1) + share,
            quiet_until: self.clock + fd * u64::from(self.params.c3),
            express: self.record(source, number).express(),
        };
        self.record_mut(source, number).body = Body::Waiting(request);
    }

    /// "its waiting reply goes and reply-quiet = t + D3×d, d to the requester."
    fn quiet_reply(&mut self, source: u8, number: u16, requester: u8) {
        let quiet = self.clock + u64::from(self.params.d3) * self.distance(requester);
        let record = self.record_mut(source, number);
        record.reply = None;
        record.reply_quiet = quiet;
    }

    /// A message of this end with empty sections: "stamp (6, the sender's clock)".
    fn message(&self, kind: u8) -> Message {
        Message {
            kind,
            sender: self.host,
            stamp: self.clock,
            names: Vec::new(),
            cues: Vec::new(),
            reports: Vec::new(),
            echoes: Vec::new(),
        }
    }

    /// A message of this end with one name and perhaps its cue.
    fn about(&self, kind: u8, name: Name, cue: Option<Cue>) -> Message {
        Message {
            names: vec![name],
            cues: cue.into_iter().collect(),
            ..self.message(kind)
        }
    }

    /// "Out (length, the message in the first output bytes)"; "Other output bytes are
    /// untouched." A sound end's messages pass the writer's questions.
    fn put_out(&self, message: Message, out: &mut [u8]) -> Answer {
        message::write(&message, out).map_or_else(Answer::Refused, Answer::Out)
    }

    /// Is there a gap before this name, and oneself the kept requester?
    fn gap_of_requester(&self, name: &Name) -> bool {
        let kept = self.source(name.source);
        let requester = kept.pair.map(|pair| pair.requester);
        kept.has_gap_before(name.number) && requester == Some(self.host)
    }

    /// What Leave and Crash clear of P8's and P9's.
    fn take_leave(&self) {
        let mut attempts = self.sources.iter().flat_map(|kept| kept.attempts);
        when(attempts.any(|done| done.tried != 0), Branch::LeaveTries);
        let mut attempts = self.sources.iter().flat_map(|kept| kept.attempts);
        when(attempts.any(|done| done.late), Branch::LeaveLate);
        let paired = self.sources.iter().any(|kept| kept.pair.is_some());
        when(paired, Branch::LeavePair);
        let mut waits = self.waits();
        when(
            waits.any(|(_, wait, _, _)| wait == Wait::Express),
            Branch::LeaveExpress,
        );
    }

    /// How a name that is not held stands to its source's last: at most last, next after
    /// it, or above it with numbers between.
    fn take_rise(&self, name: &Name, [within, next, gap]: [Branch; 3]) {
        take(match self.source(name.source).last {
            Some(last) if name.number > last && name.number - last > 1 => gap,
            Some(last) if name.number > last => next,
            _ => within,
        });
    }

    fn is_held(&self, name: &Name) -> bool {
        self.kept(name).is_some_and(Record::is_held)
    }

    /// What is kept of a name, where it is inside its source's first..last.
    fn kept(&self, name: &Name) -> Option<&Record> {
        self.source(name.source).kept(name.number)
    }

    fn distance(&self, host: u8) -> u64 {
        self.source(host).distance
    }

    fn source(&self, source: u8) -> &Source {
        &self.sources[usize::from(source)]
    }

    fn source_mut(&mut self, source: u8) -> &mut Source {
        &mut self.sources[usize::from(source)]
    }

    /// The record of a number inside first..last.
    fn record(&self, source: u8, number: u16) -> &Record {
        &self.source(source).names[place_of(number)]
    }

    fn record_mut(&mut self, source: u8, number: u16) -> &mut Record {
        &mut self.source_mut(source).names[place_of(number)]
    }
}
