//! What an engine tells of scripts: where a call faulted, and what they declare.

use crate::sources::Sources;
use crate::{place, Place};
use std::fmt;

/// A function of a script that was running when a call ended with a fault.
#[derive(Clone, Debug, PartialEq, Eq)]
pub struct Frame {
    pub module: String,
    /// `f`, `C::f` of a method or constructor, or `global g` of the global whose initializer it is.
    pub name: String,
    /// The place of the name.
    pub declared: Place,
    /// That of the statement, where it is known.
    pub place: Option<Place>,
    /// The line of this place as it was when the call ended; `None` where no
    /// [`Engine::section`](crate::Engine::section) added it. It has at most 200 characters: of a longer line those from
    /// the place on, or the last.
    pub source: Option<String>,
}

impl Frame {
    /// What a line `at MODULE NAME PLACE PLACE` says. The name of a global's initializer has a space in it.
    pub(crate) fn told(line: &str, sources: &Sources) -> Option<Frame> {
        let (module, rest) = line.strip_prefix("at ")?.split_once(' ')?;
        let (rest, at) = rest.rsplit_once(' ')?;
        let (name, declared) = rest.rsplit_once(' ')?;
        let (declared, at) = (place(declared), (at != "-").then(|| place(at)));
        let source = sources.line(module, at.unwrap_or(declared));
        Some(Frame { module: module.to_owned(), name: name.to_owned(), declared, place: at, source })
    }
}

/// As `player attack 0:3:5: return 10 / n;`. Control characters of the source are spaces in it.
impl fmt::Display for Frame {
    fn fmt(&self, f: &mut fmt::Formatter<'_>) -> fmt::Result {
        let [section, line, column] = self.place.unwrap_or(self.declared);
        write!(f, "{} {} {section}:{line}:{column}", self.module, self.name)?;
        let shown = self.source.as_deref().unwrap_or_default().replace(|it: char| it.is_ascii_control(), " ");
        match shown.trim_matches(' ') {
            "" => Ok(()),
            shown => write!(f, ": {shown}"),
        }
    }
}

fn is_word(it: char) -> bool {
    it == '_' || it.is_ascii_alphanumeric()
}

/// The words and signs of a declaration, without the names of its parameters.
pub(crate) fn plain_words(declaration: &str) -> Vec<&str> {
    let mut plain = Vec::new();
    let mut is_parameters = false;
    let mut types = 0; // that the parameter has so far: a second word is its name
    let mut rest = declaration.trim_start();
    while let Some(first) = rest.chars().next() {
        let end = if is_word(first) { rest.find(|it| !is_word(it)).unwrap_or(rest.len()) } else { first.len_utf8() };
        let (it, after) = rest.split_at(end);
        match it {
            "(" | "," => types = 0,
            "const" | "in" | "out" | "inout" => {}
            _ if is_word(first) => types += 1,
            _ => {}
        }
        if !is_parameters || types < 2 || !is_word(first) {
            plain.push(it);
        }
        is_parameters |= it == "(";
        rest = after.trim_start();
    }
    plain
}
