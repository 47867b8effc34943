//! "After any messages each number from the start to lead was handed out once, is missing, or was reported lost once." (document 02, P11)

use crate::end::Answer;
use crate::screen::{Losses, Screen};

#[derive(Clone, Copy, PartialEq, Eq)]
enum Fate {
    Unsaid,
    HandedOut,
    Lost,
}

/// What became of each number of the sender since the display was opened, or its state was set. Where that state is not sound nothing is
/// followed: every call is refused.
pub struct Partition {
    follows: bool,
    start: Option<u16>,
    fates: Vec<Fate>,
}

impl Partition {
    pub fn off() -> Partition {
        Partition {
            follows: false,
            start: None,
            fates: Vec::new(),
        }
    }

    /// From a state on: what it has received counts as handed out, and the numbers from its trail on are followed.
    pub fn of(screen: &Screen) -> Partition {
        if !screen.sound() {
            return Partition::off();
        }
        let mut fates = vec![Fate::Unsaid; 65_536];
        let window = screen.window;
        if let Some(window) = window {
            for number in window.trail..=window.lead {
                if window.received >> (number - window.trail) & 1 == 1 {
                    fates[usize::from(number)] = Fate::HandedOut;
                }
            }
        }
        Partition {
            follows: true,
            start: window.map(|window| window.trail),
            fates,
        }
    }

    /// One call, by the display before and after it.
    pub fn call(
        &mut self,
        before: &Screen,
        after: &Screen,
        answer: Answer,
        losses: Losses,
    ) -> Result<(), String> {
        if let Answer::Refused(_) = answer {
            let kept = before == after && losses == Losses::NONE;
            return kept
                .then_some(())
                .ok_or("a refusal changes something".into());
        }
        if !self.follows || !after.sound() {
            return Err("an unsound display is called".into());
        }
        let trail = before.window.map_or(0, |window| window.trail);
        let lost: Vec<u16> = losses.in_set(trail).collect();
        let above = losses.span.into_iter().flat_map(|(from, to)| from..=to);
        for number in lost.into_iter().chain(above) {
            self.says(number, Fate::Lost)?;
        }
        if let Answer::Got { number, .. } = answer {
            if before.window.is_none() {
                self.start = Some(number);
            }
            self.says(number, Fate::HandedOut)?;
        }
        if before.window == after.window {
            return Ok(());
        }
        self.check(after)
    }

    fn says(&mut self, number: u16, fate: Fate) -> Result<(), String> {
        let kept = &mut self.fates[usize::from(number)];
        if *kept != Fate::Unsaid {
            return Err(format!("{number} is handed out or lost a second time"));
        }
        *kept = fate;
        Ok(())
    }

    /// A number from the start to lead is missing exactly where nothing was said of it, and trail has not passed it.
    fn check(&self, after: &Screen) -> Result<(), String> {
        let (Some(start), Some(window)) = (self.start, after.window) else {
            return Err("it starts without a cue".into());
        };
        if window.trail < start {
            return Err("trail is below the start".into());
        }
        for number in start..=window.lead {
            let received = number
                .checked_sub(window.trail)
                .map(|above| window.received >> above & 1 == 1);
            let fits = match (self.fates[usize::from(number)], received) {
                (Fate::Unsaid, Some(received)) => !received,
                (Fate::HandedOut, Some(received)) => received,
                (Fate::HandedOut | Fate::Lost, None) => true,
                _ => false,
            };
            if !fits {
                return Err(format!("{number} is in no part, or in two"));
            }
        }
        Ok(())
    }
}
