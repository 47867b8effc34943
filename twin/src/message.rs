//! The reader and the writer of messages, with their refusal numbers.

use crate::branches::{self, unless, Branch};
use crate::cue::{Cue, CUE_LEN};
use crate::{CLOCK_MAX, HOSTS, OUTPUT_LEN};

/// Document 02, P7: "under kinds 17 to 20 for 1 to 4".
pub const DATA: u8 = 17;
pub const RQST: u8 = 18;
pub const REPL: u8 = 19;
pub const SESS: u8 = 20;

/// Document 02, P8: "goes out as kind 21, laid out as kind 18".
pub const XPRS: u8 = 21;

/// Document 02, P9: "Fetch, kind 22, is shaped as kind 21 with the host tried as host; its cue, kind 23, as REPL."
pub const FTCH: u8 = 22;
pub const LATE: u8 = 23;

/// Document 02, P11: "trail and lead in kind 24, two names laid out as kind 18's with the sender as source and host".
pub const ANNC: u8 = 24;

/// P11: "lead is from trail to trail+63, else 11".
pub const ANNC_SPAN: u16 = 63;

/// "the old kinds are still read, numbers to 63, as the same meanings and no longer written".
pub const OLD_DATA: u8 = 1;
const OLD_SESS: u8 = 4;

/// "the old kinds are still read, numbers to 63".
const OLD_NUMBER_MAX: u16 = 63;

/// A name with the host of the table's last column.
#[derive(Clone, Copy, Debug, PartialEq, Eq)]
pub struct Name {
    pub source: u8,
    pub number: u16,
    pub host: u8,
}

#[derive(Clone, Copy, Debug, PartialEq, Eq)]
pub struct Report {
    pub source: u8,
    pub last: u16,
}

#[derive(Clone, Copy, Debug, PartialEq, Eq)]
pub struct Echo {
    pub host: u8,
    pub stamp: u64,
    pub held: u64,
}

/// A message of any kind, well-formed or not. The counts on the wire are the
/// lengths of the four sections, so that the writer can be asked about any.
#[derive(Clone, Debug, PartialEq, Eq)]
pub struct Message {
    pub kind: u8,
    pub sender: u8,
    pub stamp: u64,
    pub names: Vec<Name>,
    pub cues: Vec<Cue>,
    pub reports: Vec<Report>,
    pub echoes: Vec<Echo>,
}

/// What a datagram brings: a message, or, document 02, P5, "A message of no bytes".
#[derive(Clone, Debug, PartialEq, Eq)]
pub enum Datagram {
    Probe,
    Message(Message),
}

impl Datagram {
    pub fn message(self) -> Option<Message> {
        match self {
            Datagram::Probe => None,
            Datagram::Message(message) => Some(message),
        }
    }
}

/// "Kind (1 byte), sender (1), stamp (6, the sender's clock)".
const HEAD_LEN: usize = 8;

/// "Are there 12 bytes or more".
const LEAST_LEN: usize = 12;

/// "echoes (host, stamp, held ticks: 1+6+6)".
const ECHO_LEN: usize = 13;

/// How many bytes a cue number has in a name and a report: "names (source, cue number, host: 3 bytes)" and "reports (source, last:
/// 2)" have one; by document 02, P7, "Cue numbers become 0..65535, two bytes in names and reports".
#[derive(Clone, Copy)]
struct Sizes {
    number: usize,
}

impl Sizes {
    const OLD: Sizes = Sizes { number: 1 };
    const NEW: Sizes = Sizes { number: 2 };

    /// P7: "Question 8 counts kinds 1 to 4 by the old sizes and every other kind byte by the new."
    fn of(kind: u8) -> Sizes {
        if is_old(kind) {
            Sizes::OLD
        } else {
            Sizes::NEW
        }
    }

    /// Source, cue number, host.
    fn name(self) -> usize {
        2 + self.number
    }

    /// Source, last.
    fn report(self) -> usize {
        1 + self.number
    }
}

/// One of the kinds 1 to 4.
pub fn is_old(kind: u8) -> bool {
    (OLD_DATA..=OLD_SESS).contains(&kind)
}

/// "kinds 17 to 20 for 1 to 4": the kind that has the meaning of this one; another kind stays.
fn meaning(kind: u8) -> u8 {
    if is_old(kind) {
        DATA + (kind - OLD_DATA)
    } else {
        kind
    }
}

/// The reader: "Arrival, and the reader alone" have questions 8, 9, 10 and 11; "Each
/// call stops at its first no." Document 02, P5: "The reader alone answers "probe" for"
/// a message of no bytes. P7: "the old kinds are still read [...] as the same meanings": the
/// message that is read has a new kind.
pub fn read(bytes: &[u8]) -> Result<Datagram, u8> {
    if bytes.is_empty() {
        return Ok(Datagram::Probe);
    }
    let raw = take_apart(bytes)?;
    let message = Message {
        kind: meaning(raw.kind),
        ..raw
    };
    ask(counts_fit(&message), 9)?;
    ask(numbers_fit(bytes[0], &message) && in_range(&message), 10)?;
    ask(places_fit(&message), 11)?;
    if is_old(bytes[0]) {
        branches::take_nth(Branch::OldData, usize::from(bytes[0] - OLD_DATA));
    }
    Ok(Datagram::Message(message))
}

/// "The writer has questions 1, 9, 10, 11."; "A refusal gives only its number; state,
/// clock and buffers keep every byte."; "Other output bytes are untouched." Document 02, P7:
/// the old kinds are "no longer written".
pub fn write(message: &Message, out: &mut [u8]) -> Result<usize, u8> {
    ask(out.len() >= OUTPUT_LEN, 1)?;
    ask(unless(!is_old(message.kind), Branch::OldNotWritten), 9)?;
    ask(counts_fit(message), 9)?;
    ask(in_range(message), 10)?;
    ask(places_fit(message), 11)?;
    let bytes = put_together(message);
    out[..bytes.len()].copy_from_slice(&bytes);
    Ok(bytes.len())
}

/// Document 02, P5: "the writer writes it for "probe"". It has nothing that questions 9, 10
/// and 11 ask about, so only question 1 is asked; no byte is written.
pub fn write_probe(out: &mut [u8]) -> Result<usize, u8> {
    ask(out.len() >= OUTPUT_LEN, 1)?;
    Ok(0)
}

/// One question: the number is given at a no.
pub(crate) fn ask(yes: bool, number: u8) -> Result<(), u8> {
    if yes {
        Ok(())
    } else {
        Err(number)
    }
}

/// "Are there 12 bytes or more, and do the counts account for the length exactly? 8."; by
/// P5, "Number 8 is from then on for lengths 1 to 11 and counts that miss the length".
fn take_apart(bytes: &[u8]) -> Result<Message, u8> {
    ask(unless(bytes.len() >= LEAST_LEN, Branch::ShortMessage), 8)?;
    let sizes = Sizes::of(bytes[0]);
    let parts = sections(bytes, sizes);
    take_sizes(bytes, parts.is_ok());
    let [names, cues, reports, echoes] = parts?;
    let head = &bytes[..HEAD_LEN];
    Ok(Message {
        kind: head[0],
        sender: head[1],
        stamp: number(&head[2..]),
        names: names.chunks_exact(sizes.name()).map(read_name).collect(),
        cues: cues.chunks_exact(CUE_LEN).map(read_cue).collect(),
        reports: reports
            .chunks_exact(sizes.report())
            .map(read_report)
            .collect(),
        echoes: echoes.chunks_exact(ECHO_LEN).map(read_echo).collect(),
    })
}

/// The four sections, where "the counts account for the length exactly".
fn sections(bytes: &[u8], sizes: Sizes) -> Result<[&[u8]; 4], u8> {
    let rest = &bytes[HEAD_LEN..];
    let (names, rest) = section(rest, sizes.name())?;
    let (cues, rest) = section(rest, CUE_LEN)?;
    let (reports, rest) = section(rest, sizes.report())?;
    let (echoes, rest) = section(rest, ECHO_LEN)?;
    ask(unless(rest.is_empty(), Branch::LengthPastCounts), 8)?;
    Ok([names, cues, reports, echoes])
}

/// Counts where the one layout accounts for the length and the other would not.
fn take_sizes(bytes: &[u8], fits: bool) {
    if !branches::counting() {
        return;
    }
    let old = is_old(bytes[0]);
    let other = if old { Sizes::NEW } else { Sizes::OLD };
    let fits_other = branches::uncounted(|| sections(bytes, other).is_ok());
    match (fits, fits_other, old) {
        (true, false, true) => branches::take(Branch::OldSizes),
        (false, true, true) => branches::take(Branch::OldSizesMissed),
        (true, false, false) => branches::take(Branch::NewSizes),
        (false, true, false) => branches::take(Branch::NewSizesMissed),
        _ => {}
    }
}

/// "then four sections, each after its one-byte count": one section and what follows it.
fn section(bytes: &[u8], size: usize) -> Result<(&[u8], &[u8]), u8> {
    let parts = bytes.split_first().and_then(|(&count, rest)| {
        let len = usize::from(count) * size;
        rest.split_at_checked(len)
    });
    ask(unless(parts.is_some(), Branch::CountsPastLength), 8)?;
    parts.ok_or(8)
}

/// "Numbers are big-endian."
fn number(bytes: &[u8]) -> u64 {
    bytes
        .iter()
        .fold(0, |value, &byte| value << 8 | u64::from(byte))
}

/// "names (source, cue number, host: 3 bytes)", the cue number "two bytes" under a new kind: it is what lies between the hosts.
fn read_name(bytes: &[u8]) -> Name {
    let end = bytes.len() - 1;
    Name {
        source: bytes[0],
        number: number(&bytes[1..end]) as u16,
        host: bytes[end],
    }
}

/// "cues (24)".
fn read_cue(bytes: &[u8]) -> Cue {
    let mut cue = Cue::ZERO;
    cue.0.copy_from_slice(bytes);
    cue
}

/// "reports (source, last: 2)", the last "two bytes" under a new kind.
fn read_report(bytes: &[u8]) -> Report {
    Report {
        source: bytes[0],
        last: number(&bytes[1..]) as u16,
    }
}

/// "echoes (host, stamp, held ticks: 1+6+6)".
fn read_echo(bytes: &[u8]) -> Echo {
    Echo {
        host: bytes[0],
        stamp: number(&bytes[1..7]),
        held: number(&bytes[7..13]),
    }
}

/// "Is the kind 1..4 with its counts? 9.": the table's column "counts", asked of the kind that has an old one's meaning.
fn counts_fit(message: &Message) -> bool {
    let counts = (
        message.names.len(),
        message.cues.len(),
        message.reports.len(),
        message.echoes.len(),
    );
    match message.kind {
        DATA => unless(counts == (1, 1, 0, 0), Branch::CountsOfData),
        RQST => unless(counts == (1, 0, 0, 0), Branch::CountsOfRqst),
        REPL => unless(counts == (1, 1, 0, 0), Branch::CountsOfRepl),
        XPRS => unless(counts == (1, 0, 0, 0), Branch::CountsOfXprs),
        FTCH => unless(counts == (1, 0, 0, 0), Branch::CountsOfFtch),
        LATE => unless(counts == (1, 1, 0, 0), Branch::CountsOfLate),
        ANNC => unless(counts == (2, 0, 0, 0), Branch::CountsOfAnnc),
        SESS => unless(matches!(counts, (0, 0, 0..=8, 0..=7)), Branch::CountsOfSess),
        _ => unless(false, Branch::KindUnknown),
    }
}

/// "Are hosts, cue numbers and cue fields in range, stamps and held ticks below 2^48? 10."
fn in_range(message: &Message) -> bool {
    unless(message.sender < HOSTS, Branch::SenderRange)
        && unless(message.stamp <= CLOCK_MAX, Branch::StampRange)
        && message.names.iter().all(name_in_range)
        && unless(message.cues.iter().all(Cue::in_range), Branch::CueRange)
        && message.reports.iter().all(report_in_range)
        && message.echoes.iter().all(echo_in_range)
}

/// Document 02, P7: "Cue numbers become 0..65535", so two bytes are always in range; "the old kinds are still read, numbers to 63".
fn numbers_fit(kind: u8, message: &Message) -> bool {
    let mut names = message.names.iter();
    let mut reports = message.reports.iter();
    !is_old(kind)
        || unless(
            names.all(|name| name.number <= OLD_NUMBER_MAX),
            Branch::NameNumberRange,
        ) && unless(
            reports.all(|report| report.last <= OLD_NUMBER_MAX),
            Branch::ReportLastRange,
        )
}

/// "Hosts are 0..7".
fn name_in_range(name: &Name) -> bool {
    unless(name.source < HOSTS, Branch::NameSourceRange)
        && unless(name.host < HOSTS, Branch::NameHostRange)
}

/// "Hosts are 0..7".
fn report_in_range(report: &Report) -> bool {
    unless(report.source < HOSTS, Branch::ReportSourceRange)
}

/// "stamps and held ticks below 2^48".
fn echo_in_range(echo: &Echo) -> bool {
    unless(echo.host < HOSTS, Branch::EchoHostRange)
        && unless(echo.stamp <= CLOCK_MAX, Branch::EchoStampRange)
        && unless(echo.held <= CLOCK_MAX, Branch::EchoHeldRange)
}

/// "Do the table's last column and the line under the table hold? 11."
fn places_fit(message: &Message) -> bool {
    hosts_fit(message) && lead_fits(message) && order_fits(message)
}

/// "Do the table's last column [...] hold? 11.": the column "host in the name".
fn hosts_fit(message: &Message) -> bool {
    let sender = message.sender;
    message.names.iter().all(|name| match message.kind {
        DATA => {
            unless(name.host == name.source, Branch::DataSource)
                && unless(name.host == sender, Branch::DataSender)
        }
        RQST => {
            unless(name.host == sender, Branch::RqstSender)
                && unless(name.host != name.source, Branch::RqstSource)
        }
        REPL => {
            unless(name.host != sender, Branch::ReplSender)
                && unless(name.host != name.source, Branch::ReplSource)
        }
        // Document 02, P8: "host and source differ from its own sender, else 11".
        XPRS => {
            unless(name.host != sender, Branch::XprsHost)
                && unless(name.source != sender, Branch::XprsSource)
        }
        // Document 02, P9: kind 22 "is shaped as kind 21"; "its cue, kind 23, as REPL".
        FTCH => {
            unless(name.host != sender, Branch::FtchHost)
                && unless(name.source != sender, Branch::FtchSource)
        }
        LATE => {
            unless(name.host != sender, Branch::LateSender)
                && unless(name.host != name.source, Branch::LateSource)
        }
        // Document 02, P11: "with the sender as source and host".
        ANNC => {
            unless(name.source == sender, Branch::AnncSource)
                && unless(name.host == sender, Branch::AnncHost)
        }
        _ => false,
    })
}

/// Document 02, P11: "lead is from trail to trail+63, else 11". The other kinds have no such pair.
fn lead_fits(message: &Message) -> bool {
    let (ANNC, [trail, lead]) = (message.kind, &message.names[..]) else {
        return true;
    };
    let below = lead.number < trail.number;
    unless(!below, Branch::AnncLeadBelow)
        && unless(
            lead.number - trail.number <= ANNC_SPAN,
            Branch::AnncLeadAbove,
        )
}

/// "Reports rise strictly by source, echoes by host; no echo names the sender."
fn order_fits(message: &Message) -> bool {
    let mut reports = message.reports.windows(2);
    let mut echoes = message.echoes.windows(2);
    let reports_rise = reports.all(|pair| pair[0].source < pair[1].source);
    let echoes_rise = echoes.all(|pair| pair[0].host < pair[1].host);
    let names_sender = message.echoes.iter().any(|e| e.host == message.sender);
    unless(reports_rise, Branch::ReportsRise)
        && unless(echoes_rise, Branch::EchoesRise)
        && unless(!names_sender, Branch::EchoOfSender)
}

/// "Kind (1 byte), sender (1), stamp (6, the sender's clock), then four sections, each
/// after its one-byte count: names (source, cue number, host: 3 bytes), cues (24),
/// reports (source, last: 2), echoes (host, stamp, held ticks: 1+6+6)." By document 02, P7,
/// cue numbers have "two bytes in names and reports". The writer asks it only of messages with
/// counts that fit.
pub fn put_together(message: &Message) -> Vec<u8> {
    laid_out(message, Sizes::NEW)
}

/// The bytes of an old kind, by the old sizes: a cue number's low byte stands for it. The writer gives none such.
pub fn put_together_old(message: &Message) -> Vec<u8> {
    laid_out(message, Sizes::OLD)
}

fn laid_out(message: &Message, sizes: Sizes) -> Vec<u8> {
    let mut bytes = vec![message.kind, message.sender];
    bytes.extend(six_bytes(message.stamp));
    bytes.push(message.names.len() as u8);
    for name in &message.names {
        bytes.push(name.source);
        bytes.extend(number_bytes(name.number, sizes));
        bytes.push(name.host);
    }
    bytes.push(message.cues.len() as u8);
    for cue in &message.cues {
        bytes.extend(cue.0);
    }
    bytes.push(message.reports.len() as u8);
    for report in &message.reports {
        bytes.push(report.source);
        bytes.extend(number_bytes(report.last, sizes));
    }
    bytes.push(message.echoes.len() as u8);
    for echo in &message.echoes {
        bytes.push(echo.host);
        bytes.extend(six_bytes(echo.stamp));
        bytes.extend(six_bytes(echo.held));
    }
    bytes
}

/// "Numbers are big-endian."
fn number_bytes(number: u16, sizes: Sizes) -> Vec<u8> {
    number.to_be_bytes()[2 - sizes.number..].to_vec()
}

/// "Numbers are big-endian."; "stamp (6, the sender's clock)".
fn six_bytes(value: u64) -> [u8; 6] {
    let [_, _, six @ ..] = value.to_be_bytes();
    six
}
