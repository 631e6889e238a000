//! The texts of sections, which the lines of a trace are taken from.

use crate::Place;
use std::collections::HashMap;
use std::mem;

const MOST: usize = 200; // characters of a line

/// The texts of a module's sections: those that wait, and those of its last build. One that a line added is `None`.
#[derive(Default)]
struct Sections {
    waiting: Vec<Option<String>>,
    built: Vec<Option<String>>,
}

/// Those of each module, by its name.
#[derive(Default)]
pub(crate) struct Sources(HashMap<String, Sections>);

impl Sources {
    /// Follows a command that ended so. What has errors is not kept, since no fault comes to it.
    pub(crate) fn follow(&mut self, command: &str, outcome: &str) {
        let (word, rest) = command.lines().next().and_then(|head| head.split_once(' ')).unwrap_or_default();
        let name = rest.split(' ').next().unwrap_or_default();
        if (word, outcome) == ("section", "ok") {
            self.0.entry(name.to_owned()).or_default().waiting.push(None);
        }
        let Some(sections) = self.0.get_mut(name) else { return };
        match (word, outcome) {
            ("build", "refused BuildErrors" | "refused BuildMemory") => *sections = Sections::default(),
            ("build", _) if outcome == "ok" || outcome.starts_with("refused InitFailed ") => {
                sections.built = mem::take(&mut sections.waiting);
            }
            ("check", "refused BuildErrors") => sections.waiting.clear(),
            ("discard", "ok") => drop(self.0.remove(name)),
            _ => {}
        }
    }

    /// Keeps the text of the section that a module was given last.
    pub(crate) fn keep(&mut self, module: &str, text: String) {
        if let Some(last) = self.0.get_mut(module).and_then(|sections| sections.waiting.last_mut()) {
            *last = Some(text);
        }
    }

    /// The line of a place of a module's last build, if its text is known.
    pub(crate) fn line(&self, module: &str, [section, line, column]: Place) -> Option<String> {
        let text = self.0.get(module)?.built.get(section as usize)?.as_ref()?;
        let line = text.split('\n').nth((line as usize).checked_sub(1)?)?;
        Some(cut(line.strip_suffix('\r').unwrap_or(line), column).to_owned())
    }
}

/// Of a long line the characters from this column on, or the last ones. Columns count bytes.
fn cut(line: &str, column: u32) -> &str {
    let starts: Vec<usize> = line.char_indices().map(|(at, _)| at).collect();
    let before = starts.partition_point(|at| *at + 1 < column as usize);
    let first = before.min(starts.len().saturating_sub(MOST));
    let at = |number: usize| starts.get(number).copied().unwrap_or(line.len());
    &line[at(first)..at(first + MOST)]
}
