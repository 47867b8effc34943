//! How often each sentence of document 01, and of document 02's requests, decided
//! something. The list below is in document 01's order and mostly in the papers' words; a rule says which of its branches was
//! taken by one call of `take`, `when` or `unless`. Nothing is counted before `count`.

use std::cell::{Cell, RefCell};

use crate::end::{Answer, Event, Status};
use crate::message;

macro_rules! branches {
    ($($branch:ident $words:literal,)*) => {
        #[derive(Clone, Copy, Debug, PartialEq, Eq)]
        pub enum Branch { $($branch),* }

        /// Every branch with its words, in the list's order.
        pub const BRANCHES: &[(Branch, &str)] = &[$((Branch::$branch, $words)),*];
    };
}

branches! {
    // Answers
    Opened "opened",
    OutData "out DATA",
    OutRqst "out RQST",
    OutRepl "out REPL",
    OutSess "out SESS",
    OutXprs "out XPRS",
    OutFtch "out kind 22",
    OutLate "out kind 23",
    OutAnnc "out kind 24",
    Got "got",
    Late "late",
    Exhausted "exhausted",
    Clash "clash",
    Done "done",
    Ignored "ignored",
    Nothing "nothing",
    Accepted "reader: accepted",
    ReaderProbe "reader: probe",
    Written "writer: written",
    WriterProbe "writer: probe written",
    InRange "cue test: in range",
    OutOfRange "cue test: out of range",

    // Refusals
    Refused1 "refused 1",
    Refused2 "refused 2",
    Refused3 "refused 3",
    Refused4 "refused 4",
    Refused5 "refused 5",
    Refused6 "refused 6",
    Refused7 "refused 7",
    Refused8 "refused 8",
    Refused9 "refused 9",
    Refused10 "refused 10",
    Refused11 "refused 11",
    Refused12 "refused 12",
    Refused13 "refused 13",
    Refused14 "refused 14",
    Reader8 "reader: refused 8",
    Reader9 "reader: refused 9",
    Reader10 "reader: refused 10",
    Reader11 "reader: refused 11",
    Writer1 "writer: refused 1",
    WriterProbe1 "writer: probe, refused 1",
    Writer9 "writer: refused 9",
    Writer10 "writer: refused 10",
    Writer11 "writer: refused 11",

    // Parameters: question 13
    ParamRange "13: 0..32 quarters",
    ParamC3 "13: C3 < C1",
    ParamEight "13: D1+D2+8 < 2×C1",
    ParamD3 "13: D1+D2+D3 < 2×C1",

    // A cue: questions 6 and 10, soundness, the cue test
    CueFocus "cue: focus from −2000 to 2000",
    CueZoom "cue: zoom from −2000 to 2000",
    CueSideways "cue: sideways from −2000 to 2000",
    CueUpright "cue: upright from −2000 to 2000",
    CueLamp "cue: lamp power 0..1000",

    // A state is sound if: question 3
    SoundHost "sound: fields are in range: own host",
    SoundParams "sound: fields are in range: parameters",
    SoundExpress "sound: fields are in range: E",
    SoundClock "sound: fields are in range: clock",
    SoundNext "sound: fields are in range: next own cue number",
    SoundOwnDistance "sound: fields are in range: distance to oneself",
    SoundDistance "sound: fields are in range: distance to another",
    SoundStamp "sound: fields are in range: heard stamp",
    SoundCue "sound: fields are in range: held cue",
    SoundRound "sound: fields are in range: round",
    SoundRequester "sound: fields are in range: requester",
    SoundPairRequester "sound: fields are in range: a kept pair's requester",
    SoundPairSender "sound: fields are in range: a kept pair's sender",
    SoundOwnLast "sound: own last, if any, is next−1",
    SoundFirst "sound: first ≤ last",
    SoundSpan "sound: last − first at most 63",
    SoundMissed "sound: the count is at most first",
    SoundMissedClosed "sound: the count is 0 without a first",
    SoundOutside "sound: names outside first..last hold nothing",
    SoundOutsideQuiet "sound: names outside first..last have reply-quiet 0",
    SoundInside "sound: those inside have a cue or a request",
    SoundOwn "sound: own ones a cue",
    SoundNotOneself "sound: a requester is not oneself",
    SoundNotSource "sound: a requester is not the source",
    SoundDue "sound: due times are below 2^48+2^32: request",
    SoundReplyDue "sound: due times are below 2^48+2^32: reply",
    SoundExpressDue "sound: due times are below 2^48+2^32: express wait",
    SoundQuiet "sound: quiet times are below 2^48+2^32: request",
    SoundReplyQuiet "sound: quiet times are below 2^48+2^32: reply",
    SoundHeardTime "sound: heard times are at most the clock",
    SoundHeardOneself "sound: no stamp is heard from oneself",
    SoundNoFirst "sound: a non-member has no first",
    SoundNoHeard "sound: a non-member has no heard stamp",
    SoundPairOneself "sound: a kept pair's sender is always another",
    SoundExpressPair "sound: an express wait only with a kept pair",
    SoundNoPair "sound: non-members keep no pair",
    SoundForty "sound: a non-member has distances to others at 40",
    SoundOrigin "sound: the first original's number is at most first",
    SoundOriginNone "sound: the first original's number exactly beside another's first: none there",
    SoundOriginClosed "sound: the first original's number exactly beside another's first: no first",
    SoundOriginOwn "sound: the first original's number exactly beside another's first: one's own",
    SoundTriedOneself "sound: tries only of other hosts",
    SoundTriedFar "sound: tries only at fetchable numbers",
    SoundLate "sound: Late marks only beside a try",

    // Questions 2, 7
    FewDraws "2: fewer than 64 draws",
    ManyDraws "2: more than 64 draws",
    NextAtEnd "7: for a member, only at 65,536",
    NextNotAsked "7: not asked of a non-member with next number 65,536",
    NextBelowEnd "7: 65,535 is below",

    // Messages: question 8
    ShortMessage "8: lengths 1 to 11",
    CountsPastLength "8: counts past the length",
    LengthPastCounts "8: length past the counts",
    OldSizes "8: kinds 1 to 4 are counted by the old sizes",
    OldSizesMissed "8: kinds 1 to 4 in the new sizes: refused",
    NewSizes "8: every other kind byte by the new",
    NewSizesMissed "8: every other kind byte in the old sizes: refused",

    // Question 9
    KindUnknown "9: kind 17 to 24, or 1 to 4",
    OldNotWritten "9: kinds 1 to 4 are no longer written",
    CountsOfData "9: DATA has 1,1,0,0",
    CountsOfRqst "9: RQST has 1,0,0,0",
    CountsOfRepl "9: REPL has 1,1,0,0",
    CountsOfSess "9: SESS has 0,0,0..8,0..7",
    CountsOfXprs "9: kind 21 is laid out as kind 18",
    CountsOfFtch "9: kind 22 is shaped as kind 21",
    CountsOfLate "9: kind 23 is shaped as REPL",
    CountsOfAnnc "9: kind 24 has two names",

    // Question 10
    SenderRange "10: sender",
    StampRange "10: stamp",
    NameSourceRange "10: name's source",
    NameNumberRange "10: kinds 1 to 4: name's cue number to 63",
    NameHostRange "10: name's host",
    CueRange "10: cue fields",
    ReportSourceRange "10: report's source",
    ReportLastRange "10: kinds 1 to 4: report's last to 63",
    EchoHostRange "10: echo's host",
    EchoStampRange "10: echo's stamp",
    EchoHeldRange "10: echo's held ticks",

    // Question 11
    DataSource "11: DATA: host is the source",
    DataSender "11: DATA: also the sender",
    RqstSender "11: RQST: host is the sender",
    RqstSource "11: RQST: not the source",
    ReplSender "11: REPL: not the sender",
    ReplSource "11: REPL: nor the source",
    XprsHost "11: kind 21: host differs from its own sender",
    XprsSource "11: kind 21: source differs from its own sender",
    FtchHost "11: kind 22: host differs from its own sender",
    FtchSource "11: kind 22: source differs from its own sender",
    LateSender "11: kind 23: host is not the sender",
    LateSource "11: kind 23: nor the source",
    AnncSource "11: kind 24: the sender as source",
    AnncHost "11: kind 24: the sender as host",
    AnncLeadBelow "11: kind 24: lead is not below trail",
    AnncLeadAbove "11: kind 24: lead is not above trail+63",
    ReportsRise "11: reports rise strictly by source",
    EchoesRise "11: echoes by host",
    EchoOfSender "11: no echo names the sender",

    // The old kinds: document 02, P7
    OldData "kind 1 is read as DATA",
    OldRqst "kind 2 is read as RQST",
    OldRepl "kind 3 is read as REPL",
    OldSess "kind 4 is read as SESS",

    // Events by status
    CrashedIgnored "on a crashed end everything unrefused is Ignored",
    JoinIdle "Join: idle to joining",
    JoinJoining "Join: joining, Ignored",
    JoinMember "Join: member, Ignored",
    JoinLeaving "Join: leaving, Ignored",
    JoinedIdle "Joined: idle, Ignored",
    JoinedJoining "Joined: joining to member",
    JoinedMember "Joined: member, Ignored",
    JoinedLeaving "Joined: leaving, Ignored",
    LeaveIdle "Leave: idle, Ignored",
    LeaveJoining "Leave: joining to leaving",
    LeaveMember "Leave: member to leaving",
    LeaveLeaving "Leave: leaving, Ignored",
    LeftIdle "Left: idle, Ignored",
    LeftJoining "Left: joining, Ignored",
    LeftMember "Left: member, Ignored",
    LeftLeaving "Left: leaving to idle",
    CrashIdle "Crash: idle to crashed",
    CrashJoining "Crash: joining to crashed",
    CrashMember "Crash: member to crashed",
    CrashLeaving "Crash: leaving to crashed",
    SendOutside "Send outside membership: Ignored",
    FireOutside "Fire outside membership: Ignored",
    ReportOutside "Report outside membership: Ignored",
    FetchOutside "Fetch outside membership: Ignored",
    AnnounceOutside "Announce outside membership: Ignored",
    ArrivalOutside "Arrival outside membership: Ignored",
    OwnMessage "an arrival whose sender is oneself: Ignored",
    OwnMessageOther "an arrival whose sender is oneself, of a held cue with other bytes: Ignored",

    // A message of no bytes: document 02, P5
    ProbeIdle "probe: idle: Ignored",
    ProbeJoining "probe: joining: Ignored",
    ProbeMember "probe: member: as Report",
    ProbeLeaving "probe: leaving: Ignored",
    ProbeCrashed "probe: crashed: Ignored",

    // Send
    SendFirst "Send: it becomes last, and first if none",
    SendLast "Send: it becomes last",

    // When last rises: document 02, P7
    RiseKeeps "rise: first stays at least L−63, nothing retired",
    RiseRetiresSend "rise by Send: retired",
    RiseRetiresData "rise by DATA: retired",
    RiseRetiresRqst "rise by RQST: retired",
    RiseRetiresRepl "rise by REPL: retired",
    RiseRetiresSess "rise by SESS: retired",
    RetiredHeld "rise: a number retired with its cue",
    RetiredMissing "rise: a number retired without a cue is counted, with its wait",
    RetiredReply "rise: a freed place had a waiting reply",
    RetiredQuiet "rise: a freed place had a reply-quiet time",
    RetiredExpress "rise: a freed place had an express wait: it goes with its request",
    PassedOver "rise: numbers passed over in one rise are counted",
    PassedNone "rise: retired, none passed over",
    RiseAll "rise: all of first..last are retired",
    RiseSome "rise: some of first..last are retired",
    LeaveMissed "Leave or Crash clears the count",
    LeavePair "Leave or Crash: a pair is kept until then",
    LeaveExpress "Leave or Crash: an express wait goes with its request",
    LeaveTries "Leave or Crash: tries are since joining",
    LeaveLate "Leave or Crash: Late marks are since joining",
    DrawAgain "draw n mod 64: of a number above 63",

    // Setting the next round
    RoundNext "next round: 2..15",
    RoundSixteen "next round: 16 after 15",
    RoundStays "next round: after 16 comes 16",

    // The wait's share: document 02, P1
    RoundNoShare "a round's share: draw 0",
    RoundShare "a round's share: draw 1..65534",
    RoundWholeShare "a round's share: draw 65535",
    ReplyNoShare "a reply's share: draw 0",
    ReplyShare "a reply's share: draw 1..65534",
    ReplyWholeShare "a reply's share: draw 65535",

    // DATA
    DataNoFirst "DATA: no first: first = last = the number, Got",
    DataBelow "DATA: below first: Ignored",
    DataBelowFull "DATA: below first, which is L−63: Ignored",
    DataHeld "DATA: held with the same bytes: Ignored",
    DataClash "DATA: held with other bytes: Clash",
    DataWaiting "DATA: otherwise hold it, drop its request, Got",
    DataNext "DATA: above last, none between",
    DataGap "DATA: above last, each number between gets round 1",
    DataGapExpress "DATA: gap, the kept requester: also an express wait, due E ticks on",
    DataGapExpressAtOnce "DATA: gap, the kept requester: also an express wait, E is 0",
    DataGapOtherRequester "DATA: gap, another is the kept requester: no express wait",
    HeldExpress "DATA or REPL: hold it: its express wait goes with its request",

    // RQST
    RqstNoFirst "RQST: no first: Ignored",
    RqstBelow "RQST: below first: Ignored",
    RqstBelowFull "RQST: below first, which is L−63: Ignored",
    RqstOwnAbove "RQST: own above last: Ignored",
    RqstReplyWaits "RQST: held, a reply waits: Ignored",
    RqstReplyQuiet "RQST: held, clock below reply-quiet: Ignored",
    RqstReplyOwn "RQST: held, set a reply: own cue",
    RqstReplyOther "RQST: held, set a reply: another's cue",
    RqstNext "RQST: not held and above last, none between",
    RqstGap "RQST: not held and above last, numbers between get round 1",
    RqstLater "RQST: clock above quiet-until sets the next round",
    RqstSixteen "RQST: clock above quiet-until sets round 16 again",
    RqstGapNoExpress "RQST: numbers between get round 1, the kept requester: no express wait",
    RqstExpressStays "RQST: sets the next round: the express wait stays",
    RqstQuiet "RQST: clock below quiet-until: Ignored",
    RqstAtQuiet "RQST: clock at quiet-until: Ignored",

    // REPL
    ReplNoFirst "REPL: a repair never opens a source: Ignored",
    ReplBelow "REPL: below first: Ignored",
    ReplBelowFull "REPL: below first, which is L−63: Ignored",
    ReplOwnAbove "REPL: own above last: Ignored",
    ReplWaiting "REPL: not held: as DATA, Got",
    ReplNext "REPL: not held, above last, none between",
    ReplGap "REPL: not held, above last, numbers between get round 1",
    ReplHeldOwn "REPL: held with the same bytes: Done: own cue",
    ReplHeldOther "REPL: held with the same bytes: Done: another's cue",
    ReplClashOwn "REPL: held with other bytes: Clash: own cue",
    ReplClashOther "REPL: held with other bytes: Clash: another's cue",
    ClashFree "Clash: offsets and lamp agree",
    ClashReplyStays "Clash: its waiting reply stays",
    ReplDropsReply "REPL: its waiting reply goes",
    ReplForOneself "REPL: requester is oneself",
    ReplGapNoExpress "REPL: numbers between get round 1, the kept requester: no express wait",

    // The kept pair: document 02, P8
    PairFirst "pair: none kept: this REPL's is kept",
    PairEqual "pair: the kept one's number: this REPL's is kept",
    PairHigher "pair: above the kept one's number: this REPL's is kept",
    PairLower "pair: below the kept one's number: the kept one stays",
    PairOwn "pair: of a REPL of an own cue",
    PairNotOfIgnored "pair: a REPL that is Ignored leaves it",
    PairNotOfClash "pair: a REPL that clashes leaves it",

    // Kind 21
    XprsAtOnce "kind 21: the named sender holds the cue: Out REPL in that call",
    XprsDropsReply "kind 21: the named sender holds the cue: drops its waiting reply, Out REPL",
    XprsAtQuiet "kind 21: the named sender, at reply-quiet: Out REPL",
    XprsReplyQuiet "kind 21: the named sender, clock below reply-quiet: as RQST",
    XprsNotHeld "kind 21: the named sender does not hold the cue: as RQST",
    XprsToAnother "kind 21: another is named: as RQST",
    XprsToAnotherHeld "kind 21: another is named, the cue is held: as RQST",

    // Fetch: document 02, P9
    FetchNoHost "Fetch: a source above 7: Ignored",
    FetchOwn "Fetch: the own source: Ignored",
    FetchNoOriginal "Fetch: no original since joining: Ignored",
    FetchFirst "Fetch: the first original itself: Ignored",
    FetchAbove "Fetch: above the first original: Ignored",
    FetchJustBelow "Fetch: the number just below the first original",
    FetchSixtyFour "Fetch: the 64th number below the first original",
    FetchSixtyFive "Fetch: the 65th number below the first original: Ignored",
    FetchFar "Fetch: further below: Ignored",
    FetchRisen "Fetch: first has risen, the first original's number stays",
    FetchHandedOut "Fetch: already handed out: Ignored",
    FetchHandedOutLeft "Fetch: already handed out, an untried candidate is left: Ignored",
    FetchLeast "Fetch: the candidate with the least distance is tried",
    FetchLeastHigher "Fetch: the candidate with the least distance is tried, a lower host is further",
    FetchTie "Fetch: ties to the lower host",
    FetchPassedOver "Fetch: one tried for that number is passed over",
    FetchOtherNumber "Fetch: one tried for another number alone is tried",
    FetchSource "Fetch: the source itself is tried",
    FetchHost "Fetch: another host than the source is tried",
    FetchUnheard "Fetch: no session message of a nearer host was heard: no candidate",
    FetchUnreported "Fetch: a nearer host's last heard session message did not report that source: no candidate",
    FetchNoCandidate "Fetch: exhausted: there is no candidate",
    FetchAllTried "Fetch: exhausted: all candidates were tried",

    // Kind 22
    FtchOwn "kind 22: the tried host holds the cue, its own: Out kind 23 in that call",
    FtchOther "kind 22: the tried host holds the cue, another's: Out kind 23 in that call",
    FtchQuiet "kind 22: Out kind 23 below reply-quiet too",
    FtchReply "kind 22: Out kind 23 beside a waiting reply, which stays",
    FtchNotOpen "kind 22: the tried host has not opened the source: Ignored",
    FtchBelow "kind 22: below the tried host's first: Ignored",
    FtchWaiting "kind 22: the tried host waits for the cue: Ignored",
    FtchAbove "kind 22: above the tried host's last, which stays: Ignored",
    FtchLate "kind 22: a Late cue is not held: Ignored",
    FtchToAnother "kind 22: another is the tried host: Ignored",
    FtchToAnotherHeld "kind 22: another is the tried host, the cue is held: Ignored",

    // Kind 23
    LateFirst "kind 23: its requester has tried its sender: Late",
    LateOfAny "kind 23: others were tried for that number too: Late",
    LateTwice "kind 23: already handed out: Ignored",
    LateUntried "kind 23: its sender was not tried for that number: Ignored",
    LateUntriedOther "kind 23: another than its sender was tried for that number: Ignored",
    LateSixtyFour "kind 23: a number at the place of one tried, 64 or more away: Ignored",
    LateNotFetchable "kind 23: no fetchable number: Ignored",
    LateToAnother "kind 23: another is its requester: Ignored",
    LateToAnotherTried "kind 23: another is its requester, its sender was tried: Ignored",

    // SESS
    SessReported "SESS: the sources that it reported are kept",
    SessReportedLess "SESS: a source that the one before reported is gone",
    SessOwn "SESS: report of oneself",
    SessNoFirst "SESS: report of another source, not opened",
    SessAtMost "SESS: report at most last",
    SessRises "SESS: report above last: new numbers get round 1",
    SessRisesNoExpress "SESS: report above last, the kept requester: no express wait",
    SessEchoOther "SESS: echo of another",
    SessEchoAhead "SESS: echo of oneself with e < 0",
    SessEchoOne "SESS: distance brought up to 1",
    SessEchoWhole "SESS: distance e/8, a whole number",
    SessEchoUp "SESS: distance above e/8, the least whole number",
    SessEchoUpToThousand "SESS: distance above e/8, the least whole number: 1000",
    SessEchoThousand "SESS: distance brought down to 1000",
    SessHeard "SESS: the sender's stamp is kept as heard now",
    SessHeardAgain "SESS: in place of the one heard before",

    // Report
    ReportBare "Report: no first, no heard stamp",
    ReportFirsts "Report: with firsts' sources",
    ReportHeard "Report: with heard stamps",
    ReportFull "Report: with 8 sources and 7 heard stamps",

    // Announce and kind 24: document 02, P11
    AnnounceNoFirst "Announce: without a first: Nothing",
    AnnounceOne "Announce: first is last",
    AnnounceSome "Announce: first below last",
    AnnounceFull "Announce: last is first+63",
    AnncNotOpen "kind 24: Done: its source is not open, and stays so",
    AnncAtMost "kind 24: Done: lead at most last",
    AnncAbove "kind 24: Done: lead above last, which does not rise",

    // Fire
    FireRequest "Fire: a request goes out, its next round is set",
    FireSixteen "Fire: a request of round 16 goes out",
    FireExpressToSource "Fire: an express wait goes out, to the source",
    FireExpressToOther "Fire: an express wait goes out, to another than the source",
    FireRequestExpressStays "Fire: a request goes out, its express wait stays",
    FireReply "Fire: a reply goes out, is dropped, reply-quiet is set",
    FireNoWait "Fire: nothing waits: Nothing",
    FireNotDue "Fire: none due: Nothing",
    FireEarliest "Fire: another is due too: the earliest",
    FireExpressOwnRequest "Fire: ties: express wait before its own request",
    FireExpressKind "Fire: ties: express wait before a later name's request or reply",
    FireExpressLaterName "Fire: ties: express wait before an earlier name's request or reply",
    FireKind "Fire: ties: request before reply",
    FireSource "Fire: ties: then lower source",
    FireNumber "Fire: ties: lower number",
    FireNumberNotPlace "Fire: ties: lower number, at the higher place",

    // The reason behind Ignored: document 02, P3
    WhyNone "reason: none",
    Why3 "reason: refused 3",
    Why4 "reason: refused 4",
    Why5 "reason: refused 5",
    Why6 "reason: refused 6",
    Why7 "reason: refused 7",
    Why8 "reason: refused 8",
    Why9 "reason: refused 9",
    Why10 "reason: refused 10",
    Why11 "reason: refused 11",
    WhyCrashed "reason: crashed",
    WhyStatus "reason: wrong status",
    WhyOwnMessage "reason: own message",
    WhyNotOpen "reason: source not open",
    WhyBelow "reason: below first",
    WhyOwnAbove "reason: own number above last",
    WhyHeld "reason: already held",
    WhyReplyWaits "reason: reply waiting",
    WhyReplyQuiet "reason: reply-quiet",
    WhyQuiet "reason: request quiet",
    WhyNoFetch "reason: no fetch",
    WhyMore "reason: the first of two or more that hold",
}

thread_local! {
    static COUNTING: Cell<bool> = const { Cell::new(false) };
    static COUNTS: RefCell<Vec<u64>> = const { RefCell::new(Vec::new()) };
}

/// Counts from here on, from 0.
pub fn count() {
    COUNTS.set(vec![0; BRANCHES.len()]);
    COUNTING.set(true);
}

/// Is anything counted?
pub fn counting() -> bool {
    COUNTING.get()
}

/// Every branch with its words and how often it was taken, in the list's order.
pub fn counts() -> Vec<(&'static str, u64)> {
    let counts = COUNTS.with_borrow(Vec::clone);
    let words = BRANCHES.iter().map(|&(_, words)| words);
    words.zip(counts).collect()
}

/// The branch was taken.
#[inline]
pub fn take(branch: Branch) {
    if counting() {
        COUNTS.with_borrow_mut(|counts| counts[branch as usize] += 1);
    }
}

/// The test itself; the branch was taken where it holds.
#[inline]
pub fn when(yes: bool, branch: Branch) -> bool {
    if yes {
        take(branch);
    }
    yes
}

/// The test itself; the branch was taken where it does not hold.
#[inline]
pub fn unless(yes: bool, branch: Branch) -> bool {
    if !yes {
        take(branch);
    }
    yes
}

/// An event's answer; the kind of an Out is its first byte.
pub fn take_answer(answer: Answer, out: &[u8]) {
    match answer {
        Answer::Refused(number) => take_refusal(Branch::Refused1, 1, number),
        Answer::Out(_) => {
            take_nth(Branch::OutData, usize::from(out[0] - message::DATA));
        }
        Answer::Got { .. } => take(Branch::Got),
        Answer::Late { .. } => take(Branch::Late),
        Answer::Exhausted => take(Branch::Exhausted),
        Answer::Clash { .. } => take(Branch::Clash),
        Answer::Done => take(Branch::Done),
        Answer::Ignored => take(Branch::Ignored),
        Answer::Nothing => take(Branch::Nothing),
    }
}

/// A refusal, in a row of branches that starts with the refusal `from`.
pub fn take_refusal(row: Branch, from: u8, number: u8) {
    take_nth(row, usize::from(number - from));
}

/// The branch so many places after the first of a row.
pub fn take_nth(row: Branch, place: usize) {
    take(BRANCHES[row as usize + place].0);
}

/// Does something without counting it.
pub fn uncounted<T>(does: impl FnOnce() -> T) -> T {
    let counting = COUNTING.replace(false);
    let done = does();
    COUNTING.set(counting);
    done
}

/// An event outside membership that is no move.
pub fn take_outside(event: &Event) {
    match event {
        Event::Send(_) => take(Branch::SendOutside),
        Event::Fire => take(Branch::FireOutside),
        Event::Report => take(Branch::ReportOutside),
        Event::Fetch { .. } => take(Branch::FetchOutside),
        Event::Announce => take(Branch::AnnounceOutside),
        Event::Arrival(_) => take(Branch::ArrivalOutside),
        _ => {}
    }
}

/// A move, by the status that it finds.
pub fn take_move(event: &Event, status: Status) {
    let row = match event {
        Event::Join => Branch::JoinIdle,
        Event::Joined => Branch::JoinedIdle,
        Event::Leave => Branch::LeaveIdle,
        Event::Left => Branch::LeftIdle,
        Event::Crash => Branch::CrashIdle,
        _ => return,
    };
    let place = match status {
        Status::Idle => 0,
        Status::Joining => 1,
        Status::Member => 2,
        Status::Leaving => 3,
        Status::Crashed => return,
    };
    take(BRANCHES[row as usize + place].0);
}
