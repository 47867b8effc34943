//! The functions of cuelink.h. Nothing checks these lines against the library but the tests, which hold their names against the header's.

/// An event without further arguments.
pub type Plain =
    unsafe extern "C" fn(*mut u8, usize, u64, *const u16, usize, *mut u8, usize) -> u64;

/// A look, and one at a source.
pub type Look = unsafe extern "C" fn(*const u8, usize) -> u64;
pub type LookOf = unsafe extern "C" fn(*const u8, usize, u64) -> u64;

macro_rules! declare {
    ($($name:ident($($argument:ident: $type:ty),*);)*) => {
        // The two sizes are asked for by the tests alone.
        #[allow(dead_code)]
        extern "C" {
            $(pub fn $name($($argument: $type),*) -> u64;)*
        }

        /// The names above, for the tests.
        #[cfg(test)]
        pub const NAMES: &[&str] = &[$(stringify!($name)),*];
    };
}

declare! {
    cuelink_size();
    cuelink_open(host: u64, params: *const u64, params_len: usize, state: *mut u8, state_len: usize);
    cuelink_reopen(host: u64, params: *const u64, params_len: usize, clock: u64, next: u64, state: *mut u8, state_len: usize);
    cuelink_join(state: *mut u8, state_len: usize, clock: u64, draws: *const u16, draws_len: usize, out: *mut u8, out_len: usize);
    cuelink_joined(state: *mut u8, state_len: usize, clock: u64, draws: *const u16, draws_len: usize, out: *mut u8, out_len: usize);
    cuelink_leave(state: *mut u8, state_len: usize, clock: u64, draws: *const u16, draws_len: usize, out: *mut u8, out_len: usize);
    cuelink_left(state: *mut u8, state_len: usize, clock: u64, draws: *const u16, draws_len: usize, out: *mut u8, out_len: usize);
    cuelink_crash(state: *mut u8, state_len: usize, clock: u64, draws: *const u16, draws_len: usize, out: *mut u8, out_len: usize);
    cuelink_fire(state: *mut u8, state_len: usize, clock: u64, draws: *const u16, draws_len: usize, out: *mut u8, out_len: usize);
    cuelink_report(state: *mut u8, state_len: usize, clock: u64, draws: *const u16, draws_len: usize, out: *mut u8, out_len: usize);
    cuelink_announce(state: *mut u8, state_len: usize, clock: u64, draws: *const u16, draws_len: usize, out: *mut u8, out_len: usize);
    cuelink_send(state: *mut u8, state_len: usize, clock: u64, draws: *const u16, draws_len: usize, cue: *const u8, cue_len: usize,
        out: *mut u8, out_len: usize);
    cuelink_arrival(state: *mut u8, state_len: usize, clock: u64, draws: *const u16, draws_len: usize, bytes: *const u8, bytes_len: usize,
        out: *mut u8, out_len: usize);
    cuelink_fetch(state: *mut u8, state_len: usize, clock: u64, draws: *const u16, draws_len: usize, source: u64, number: u64,
        out: *mut u8, out_len: usize);
    cuelink_reason(state: *const u8, state_len: usize, clock: u64, event: u64, source: u64, number: u64, bytes: *const u8, bytes_len: usize);
    cuelink_due(state: *const u8, state_len: usize);
    cuelink_host(state: *const u8, state_len: usize);
    cuelink_clock(state: *const u8, state_len: usize);
    cuelink_status(state: *const u8, state_len: usize);
    cuelink_next(state: *const u8, state_len: usize);
    cuelink_first(state: *const u8, state_len: usize, source: u64);
    cuelink_last(state: *const u8, state_len: usize, source: u64);
    cuelink_missed(state: *const u8, state_len: usize, source: u64);
    cuelink_origin(state: *const u8, state_len: usize, source: u64);
    cuelink_distance(state: *const u8, state_len: usize, host: u64);
    cuelink_display_size();
    cuelink_display_open(own: u64, sender: u64, display: *mut u8, display_len: usize);
    cuelink_display_hear(display: *mut u8, display_len: usize, clock: u64, bytes: *const u8, bytes_len: usize, lost: *mut u64, lost_len: usize,
        out: *mut u8, out_len: usize);
    cuelink_display_step(display: *mut u8, display_len: usize, clock: u64, out: *mut u8, out_len: usize);
    cuelink_display_own(display: *const u8, display_len: usize);
    cuelink_display_sender(display: *const u8, display_len: usize);
    cuelink_display_clock(display: *const u8, display_len: usize);
    cuelink_display_trail(display: *const u8, display_len: usize);
    cuelink_display_lead(display: *const u8, display_len: usize);
    cuelink_windows_find(windows: *const u64, windows_len: usize, year: u64, month: u64, day: u64, minute: u64);
    cuelink_date_roll(year: u64, month: u64, day: u64);
}

#[cfg(test)]
mod tests {
    use std::collections::BTreeSet;

    const HEADER: &str = include_str!("../../cuelink.h");

    /// A declaration of the header without its spaces and its words before the arguments, such as `uint8_t*state`.
    fn arguments_of(name: &str) -> Vec<String> {
        let at = HEADER.find(&format!("uint64_t {name}(")).expect(name);
        let rest = &HEADER[at..];
        let inside = &rest[rest.find('(').unwrap() + 1..rest.find(')').unwrap()];
        let plain = |word: &str| word.split_whitespace().collect::<Vec<_>>().join(" ");
        inside.split(',').map(plain).collect()
    }

    /// The same of a line above.
    fn declared_of(name: &str) -> Vec<String> {
        let source = include_str!("declared.rs");
        let at = source.find(&format!("    {name}(")).expect(name);
        let rest = &source[at..];
        let inside = &rest[rest.find('(').unwrap() + 1..rest.find(')').unwrap()];
        let c = |argument: &str| {
            let (name, kind) = argument.trim().split_once(": ").unwrap();
            let kind = match kind {
                "u64" => "uint64_t ",
                "usize" => "size_t ",
                "*mut u8" => "uint8_t *",
                "*const u8" => "const uint8_t *",
                "*const u16" => "const uint16_t *",
                "*const u64" => "const uint64_t *",
                "*mut u64" => "uint64_t *",
                other => panic!("{other}"),
            };
            format!("{kind}{name}")
        };
        match inside.trim() {
            "" => vec!["void".to_string()],
            _ => inside.split(',').map(c).collect(),
        }
    }

    #[test]
    fn the_sizes_are_the_librarys() {
        // SAFETY: no arguments.
        let sizes = unsafe { (super::cuelink_size(), super::cuelink_display_size()) };
        assert_eq!(sizes, (crate::SIZE as u64, crate::DISPLAY_SIZE as u64));
    }

    #[test]
    fn each_call_is_declared_as_in_the_header() {
        let header: BTreeSet<&str> = HEADER
            .lines()
            .filter_map(|line| line.strip_prefix("uint64_t "))
            .map(|line| line.split('(').next().unwrap())
            .collect();
        let here: BTreeSet<&str> = super::NAMES.iter().copied().collect();
        assert_eq!(header, here);
        for name in here {
            assert_eq!(arguments_of(name), declared_of(name), "{name}");
        }
    }
}
