//! What an engine and its host say to one another, wherever the engine runs.

use crate::profile::Profile;
use crate::values::{Answer, AskKind, Objects, Value};
use std::io::{self, ErrorKind};
use std::panic::{catch_unwind, AssertUnwindSafe};
use std::time::{Duration, Instant};

/// An engine, wherever it runs. It ends where this is dropped.
pub(crate) trait Talk {
    /// Does a command. An empty text is the engine's start.
    fn tell(&mut self, text: &str, deadline: Instant, host: &mut Host) -> io::Result<Said>;
    /// The number of the engine's process, where it is not this one.
    fn pid(&self) -> Option<u32>;
}

/// Whether a command was done, or the engine has ended: with which status, or, below 0, by which signal.
pub(crate) enum Said {
    Done,
    Ended(i32),
}

/// The host's side, while a command is done.
pub(crate) struct Host<'a> {
    pub(crate) profile: &'a mut Profile,
    pub(crate) objects: &'a mut Objects,
    pub(crate) heard: &'a mut dyn FnMut(String, &Profile, &mut Objects),
}

impl Host<'_> {
    /// Takes a line of the reply.
    pub(crate) fn hear(&mut self, line: String) {
        (self.heard)(line, self.profile, self.objects);
    }

    /// What a closure answers to an ask of the entry of that number; it is of the object first, where there is one.
    pub(crate) fn answer(&mut self, kind: AskKind, entry: usize, values: &[Value]) -> Answer {
        let answered = catch_unwind(AssertUnwindSafe(|| {
            let entry = self.profile.entries.get_mut(entry)?;
            self.objects.is_making = kind == AskKind::Make;
            let asked = if kind == AskKind::Write { &mut entry.write } else { &mut entry.asked };
            asked.as_mut()?(values, self.objects)
        }));
        answered.ok().flatten().unwrap_or(Answer::fault(1))
    }
}

/// The time up to a deadline, if there is any.
pub(crate) fn left(deadline: Instant) -> io::Result<Duration> {
    let left = deadline.checked_duration_since(Instant::now()).filter(|left| !left.is_zero());
    left.ok_or_else(|| ErrorKind::TimedOut.into())
}
