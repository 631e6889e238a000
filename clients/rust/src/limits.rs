//! How much scripts may hold.

use crate::Error;
use std::fmt;

/// As a limit: none.
const MOST: u64 = i64::MAX as u64;

/// The most that there may be; `None` is no limit. README.md, one folder up, says what those of `default` hold.
#[derive(Clone, Copy, Debug, PartialEq, Eq)]
pub struct Limits {
    /// Events that a reply lists, with one for the end of each object that is alive.
    pub events: Option<u64>,
    /// Slots of objects of scripts' classes: one for each object, and one for each field.
    pub slots: Option<u64>,
    /// Objects of the host, that scripts hold.
    pub objects: Option<u64>,
}

impl Default for Limits {
    fn default() -> Limits {
        Limits { events: Some(10_000), slots: Some(100_000), objects: Some(1_000) }
    }
}

impl Limits {
    /// No limits.
    pub const NONE: Limits = Limits { events: None, slots: None, objects: None };

    fn all(&self) -> [(&'static str, Option<u64>); 3] {
        [("events", self.events), ("slots", self.slots), ("objects", self.objects)]
    }

    /// The lines that set them.
    pub(crate) fn lines(&self) -> [String; 3] {
        self.all().map(|(name, most)| format!("limit {name} {}", most.unwrap_or(MOST)))
    }

    /// Whether they can be said, and leave room for a host call beside the ends of all objects.
    pub(crate) fn check(&self, alive: usize) -> Result<(), Error> {
        for (name, most) in self.all() {
            let most = most.unwrap_or(MOST);
            if most > MOST {
                return Err(Error::Limits(format!("the limit on {name}, {most}, is not from 0 to {MOST}")));
            }
        }
        let ends = self.objects.map_or(u64::MAX, |objects| objects.max(alive as u64));
        let Some(events) = self.events.filter(|events| *events <= ends) else { return Ok(()) };
        let ends = self.objects.map_or("all".to_owned(), |_| ends.to_string());
        Err(Error::Limits(format!(
            "a limit of {events} events is taken up by the ends of {ends} objects: it has to be above the limit on \
             objects, and above how many are alive"
        )))
    }
}

/// What scripts hold: the slots of objects of their classes, and how many objects of the host; and the ticks that the last
/// build or call took.
#[derive(Clone, Copy, Debug, PartialEq, Eq)]
pub struct Used {
    pub slots: u64,
    pub objects: u64,
    pub ticks: u64,
}

impl Used {
    /// What the lines of a reply to `used` tell.
    pub(crate) fn told(lines: &[String]) -> Option<Used> {
        let told = |key: &str| lines.iter().find_map(|line| line.strip_prefix(key)?.parse().ok());
        Some(Used { slots: told("slots ")?, objects: told("objects ")?, ticks: told("ticks ")? })
    }
}

/// What there was once a call had ended with the fault `Memory`, and the limits. What only variables of the call held is
/// given up by then, and not counted.
#[derive(Clone, Copy, Debug, PartialEq, Eq)]
pub struct Held {
    /// The events of the reply, and one for the end of each object that is alive.
    pub events: u64,
    pub used: Used,
    pub limits: Limits,
}

impl fmt::Display for Held {
    fn fmt(&self, f: &mut fmt::Formatter<'_>) -> fmt::Result {
        let held = [self.events, self.used.slots, self.used.objects];
        for (number, (name, most)) in held.into_iter().zip(self.limits.all()) {
            let comma = if name == "events" { "" } else { ", " };
            match most {
                Some(most) => write!(f, "{comma}{number} of {most} {name}")?,
                None => write!(f, "{comma}{number} {name}")?,
            }
        }
        Ok(())
    }
}
