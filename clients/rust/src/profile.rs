//! What a host offers to scripts.

use crate::values::{Asked, Function};

pub(crate) struct Entry {
    pub(crate) mask: u32,
    line: String,
    pub(crate) declaration: String,
    /// What is asked to make, to call or to read.
    pub(crate) asked: Option<Asked>,
    pub(crate) write: Option<Asked>,
}

/// What scripts may use.
pub struct Profile {
    /// The mask of what is registered next.
    pub mask: u32,
    pub(crate) types: Vec<String>,
    pub(crate) entries: Vec<Entry>,
    /// Groups that begin, by their names, and groups that end: each with the number of the next entry.
    ends: Vec<(usize, Option<String>)>,
}

impl Default for Profile {
    fn default() -> Profile {
        Profile { mask: 1, types: Vec::new(), entries: Vec::new(), ends: Vec::new() }
    }
}

impl Profile {
    /// A type of host objects, each of which is an `Rc` of the same Rust type.
    pub fn object_type(&mut self, name: &str) {
        self.types.push(name.to_owned());
        self.name(self.mask, format!("type {name} {}", self.types.len()), name);
    }

    /// An enumeration and its values, which closures see as `i32`.
    pub fn enumeration(&mut self, name: &str, values: &[(&str, i32)]) {
        self.name(self.mask, format!("enum {name}"), name);
        for (value, number) in values {
            self.value(name, value, *number);
        }
    }

    /// One value more of an enumeration. It has the enumeration's mask.
    pub fn value(&mut self, of: &str, name: &str, number: i32) {
        let line = format!("enum {of}");
        let mask = self.entries.iter().find(|it| it.line == line).map_or(self.mask, |it| it.mask);
        self.name(mask, format!("value {of} {name} {number}"), name);
    }

    /// A function. Where it has objects it is the driver's of their type, and one that it gives is one that scripts hold.
    pub fn function<V>(&mut self, declaration: &str, call: impl Function<V>) {
        self.add(&format!("function {}", self.driver_of(declaration)), declaration, call.asked(), None);
    }

    /// A `void` function that is posted: the script goes on at once, before the closure has run. A fault that it gives, or a
    /// panic, is not told to the script.
    pub fn posted<V>(&mut self, declaration: &str, call: impl Function<V>) {
        self.add(&format!("posted {}", self.driver_of(declaration)), declaration, call.asked(), None);
    }

    /// A global property that scripts only read. It is declared `const`.
    pub fn constant(&mut self, declaration: &str, get: impl Function<()>) {
        self.add("global 0", declaration, get.asked(), None);
    }

    /// A global property.
    pub fn global<V>(&mut self, declaration: &str, get: impl Function<()>, set: impl Function<V>) {
        self.add("global 0", declaration, get.asked(), Some(set.asked()));
    }

    /// What makes a new object of a type, or gives none.
    pub fn factory<V>(&mut self, of: &str, declaration: &str, make: impl Function<V>) {
        self.add(&format!("factory {of}"), declaration, make.asked(), None);
    }

    /// A method of a type.
    pub fn method<V>(&mut self, of: &str, declaration: &str, call: impl Function<V>) {
        self.add(&format!("method {of}"), declaration, call.asked(), None);
    }

    /// A property of a type.
    pub fn property<V, W>(&mut self, of: &str, declaration: &str, get: impl Function<V>, set: impl Function<W>) {
        self.add(&format!("property {of}"), declaration, get.asked(), Some(set.asked()));
    }

    /// What is registered by `register` belongs to the group, and [`Engine::remove_group`](crate::Engine::remove_group) takes
    /// it away together.
    pub fn group(&mut self, name: &str, register: impl FnOnce(&mut Profile)) {
        self.ends.push((self.entries.len(), Some(name.trim().to_owned())));
        register(self);
        self.ends.push((self.entries.len(), None));
    }

    /// The driver of the first type that a declaration names.
    fn driver_of(&self, declaration: &str) -> usize {
        let mut words = declaration.split(|c: char| !c.is_alphanumeric() && c != '_');
        words.find_map(|word| self.types.iter().position(|name| name == word)).map_or(0, |at| at + 1)
    }

    /// What is declared by its name alone.
    fn name(&mut self, mask: u32, line: String, name: &str) {
        self.entries.push(Entry { mask, line, declaration: name.to_owned(), asked: None, write: None });
    }

    fn add(&mut self, words: &str, declaration: &str, asked: Asked, write: Option<Asked>) {
        let (mask, line) = (self.mask, format!("{words} {} {declaration}", self.entries.len()));
        self.entries.push(Entry { mask, line, declaration: declaration.to_owned(), asked: Some(asked), write });
    }

    /// The profile as the engine reads it: two lines for each entry. Of the groups that were removed blanks are left.
    pub(crate) fn text(&self, removed: &[String]) -> String {
        let (mut text, mut is_removed) = (String::new(), false);
        let mut ends = self.ends.iter().peekable();
        for number in 0..=self.entries.len() {
            while let Some((_, name)) = ends.next_if(|(at, _)| *at == number) {
                let was_removed = is_removed;
                is_removed = name.as_ref().is_some_and(|name| removed.contains(name));
                if !is_removed && !was_removed {
                    text += &name.as_ref().map_or("endgroup\n".to_owned(), |name| format!("group {name}\n"));
                }
            }
            match self.entries.get(number) {
                Some(_) if is_removed => text += "blank\n",
                Some(it) => text += &format!("mask {:08x}\n{}\n", it.mask, it.line),
                None => {}
            }
        }
        text
    }
}
