//! Values of scripts as values of Rust, and the closures that take and give them.

use std::any::Any;
use std::collections::{BTreeMap, BTreeSet, HashMap};
use std::rc::Rc;

/// From here on, numbers of faults are the engine's own.
const KEPT: u32 = 4_294_967_280;

// The kinds of values and of answers, as bustlebrick.h of clients/c has them.
const INT: u32 = 0;
const UINT: u32 = 1;
const BOOL: u32 = 2;
const KEY: u32 = 3;
const NULL: u32 = 4;
const VOID: u32 = 0;
const GAVE: u32 = 1;
const MADE: u32 = 2;
const NOTHING: u32 = 3;
const FAULT: u32 = 4;

/// What an entry is asked for: an object, to be written, or else.
#[derive(Clone, Copy, PartialEq, Eq)]
pub(crate) enum AskKind {
    Make,
    Get,
    Write,
}

/// A value of a script: an integer, a `bool`, or an object by its key.
#[derive(Clone, Copy, Debug)]
#[repr(C)]
pub struct Value {
    kind: u32,
    bits: u64,
}

impl Value {
    const NULL: Value = Value { kind: NULL, bits: 0 };

    pub(crate) fn key(key: u64) -> Value {
        Value { kind: KEY, bits: key }
    }

    /// The value of a text.
    pub(crate) fn of(text: &str) -> Option<Value> {
        let unsigned = |text: &str, kind| Some(Value { kind, bits: text.parse().ok()? });
        match (text, text.strip_prefix('#'), text.strip_suffix('u')) {
            ("true" | "false", ..) => Some(Value { kind: BOOL, bits: u64::from(text == "true") }),
            ("null", ..) => Some(Value::NULL),
            (_, Some(key), _) => unsigned(key, KEY),
            (_, _, Some(number)) => unsigned(number, UINT),
            // a result of a call has no `u`
            _ => {
                text.parse().map_or_else(|_| unsigned(text, UINT), |it: i64| Some(Value { kind: INT, bits: it as u64 }))
            }
        }
    }

    fn text(&self) -> String {
        match self.kind {
            INT => (self.bits as i64).to_string(),
            UINT => format!("{}u", self.bits),
            BOOL => (self.bits != 0).to_string(),
            KEY => format!("#{}", self.bits),
            _ => "null".to_owned(),
        }
    }

    /// The number, if it is one.
    fn number(&self) -> Option<i128> {
        match self.kind {
            INT => Some(i128::from(self.bits as i64)),
            UINT => Some(i128::from(self.bits)),
            _ => None,
        }
    }
}

/// What is answered to an ask.
#[derive(Clone, Copy, Debug)]
#[repr(C)]
pub struct Answer {
    kind: u32,
    fault: u32,
    value: Value,
}

impl Answer {
    fn new(kind: u32, value: Value) -> Answer {
        Answer { kind, fault: 0, value }
    }

    pub(crate) fn fault(number: u32) -> Answer {
        Answer { fault: number, ..Answer::new(FAULT, Value::NULL) }
    }

    pub(crate) fn text(&self) -> String {
        match self.kind {
            VOID => "void".to_owned(),
            GAVE => self.value.text(),
            MADE => format!("made {}", self.value.text()),
            NOTHING => "nothing".to_owned(),
            _ => format!("fault {}", self.fault),
        }
    }
}

/// The objects that scripts hold, by their keys.
#[derive(Default)]
pub struct Objects {
    by_key: BTreeMap<u64, Rc<dyn Any>>,
    keys: HashMap<*const (), BTreeSet<u64>>,
    made: u64,
    pub(crate) is_making: bool,
}

impl Objects {
    pub(crate) fn count(&self) -> usize {
        self.by_key.len()
    }

    /// What is answered with an object. That of a factory gets a key, which is not used again.
    fn answer(&mut self, object: Rc<dyn Any>) -> Option<Answer> {
        let at = Rc::as_ptr(&object).cast::<()>();
        if !self.is_making {
            let key = self.keys.get(&at)?.first()?;
            return Some(Answer::new(GAVE, Value::key(*key)));
        }
        self.made += 1;
        self.keys.entry(at).or_default().insert(self.made);
        self.by_key.insert(self.made, object);
        Some(Answer::new(MADE, Value::key(self.made)))
    }

    /// The key of the object that was made last.
    pub(crate) fn made_last(&self) -> u64 {
        self.made
    }

    /// Lets those objects go that were made after that of a key and are in no event: the engine had no memory to take them.
    pub(crate) fn end_unlisted(&mut self, last: u64, events: &[String]) {
        let mut unlisted: BTreeSet<u64> = (last + 1..=self.made).collect();
        if !unlisted.is_empty() {
            for (_, key) in events.iter().filter_map(|event| event.split_once(" made #")) {
                unlisted.remove(&key.parse().unwrap_or(0));
            }
        }
        unlisted.into_iter().for_each(|key| self.end(key));
    }

    /// Lets an object go that has ended.
    pub(crate) fn end(&mut self, key: u64) {
        let Some(object) = self.by_key.remove(&key) else { return };
        let at = Rc::as_ptr(&object).cast::<()>();
        if let Some(keys) = self.keys.get_mut(&at) {
            keys.remove(&key);
            if keys.is_empty() {
                self.keys.remove(&at);
            }
        }
    }
}

/// A host's own fault, in the `Result` of a closure: the script that asked ends with the fault `Host N`. Where a closure
/// panics, or takes other types than it is declared with, the N is 1; so it is where this one's is 4294967280 or more,
/// which are the engine's own.
#[derive(Clone, Copy, Debug, PartialEq, Eq)]
pub struct Fault(pub u32);

/// A type of values: the integers, `bool` and `()`; for objects `Rc<T>`, or `Option<Rc<T>>` where they may be null.
/// What a closure gives may be a `Result` of one of these.
pub trait Typed: Sized {
    /// This value, if it is of this type. What is void gives none.
    fn read(value: Option<Value>, objects: &Objects) -> Option<Self>;
    /// The answer with this value, if it is none or one that scripts may have.
    fn write(self, objects: &mut Objects) -> Option<Answer>;
}

/// An integer or a `bool`, which can be handed to a call.
pub trait Plain {
    /// Its text.
    fn text(&self) -> String;
}

macro_rules! integers {
    ($kind:ident: $($type:ty)+) => {$(
        impl Typed for $type {
            fn read(value: Option<Value>, _: &Objects) -> Option<$type> {
                let value = value.filter(|it| it.kind == $kind || $kind == UINT)?;
                value.number()?.try_into().ok()
            }
            fn write(self, _: &mut Objects) -> Option<Answer> {
                Some(Answer::new(GAVE, Value { kind: $kind, bits: self as u64 }))
            }
        }

        impl Plain for $type {
            fn text(&self) -> String {
                Value { kind: $kind, bits: *self as u64 }.text()
            }
        }
    )+};
}

integers!(INT: i8 i16 i32 i64);
integers!(UINT: u8 u16 u32 u64);

impl Typed for bool {
    fn read(value: Option<Value>, _: &Objects) -> Option<bool> {
        value.filter(|it| it.kind == BOOL).map(|it| it.bits != 0)
    }
    fn write(self, _: &mut Objects) -> Option<Answer> {
        Some(Answer::new(GAVE, Value { kind: BOOL, bits: u64::from(self) }))
    }
}

impl Plain for bool {
    fn text(&self) -> String {
        self.to_string()
    }
}

impl Typed for () {
    fn read(value: Option<Value>, _: &Objects) -> Option<()> {
        value.is_none().then_some(())
    }
    fn write(self, _: &mut Objects) -> Option<Answer> {
        Some(Answer::new(VOID, Value::NULL))
    }
}

impl<T: 'static> Typed for Rc<T> {
    fn read(value: Option<Value>, objects: &Objects) -> Option<Rc<T>> {
        objects.by_key.get(&value.filter(|it| it.kind == KEY)?.bits)?.clone().downcast().ok()
    }
    fn write(self, objects: &mut Objects) -> Option<Answer> {
        objects.answer(self)
    }
}

impl<T: 'static> Typed for Option<Rc<T>> {
    fn read(value: Option<Value>, objects: &Objects) -> Option<Option<Rc<T>>> {
        value.is_some_and(|it| it.kind == NULL).then_some(None).or_else(|| Rc::read(value, objects).map(Some))
    }
    fn write(self, objects: &mut Objects) -> Option<Answer> {
        let none = Answer::new(if objects.is_making { NOTHING } else { GAVE }, Value::NULL);
        self.map_or(Some(none), |object| objects.answer(object))
    }
}

impl<T: Typed> Typed for Result<T, Fault> {
    fn read(value: Option<Value>, objects: &Objects) -> Option<Result<T, Fault>> {
        T::read(value, objects).map(Ok)
    }
    fn write(self, objects: &mut Objects) -> Option<Answer> {
        match self {
            Ok(value) => value.write(objects),
            Err(Fault(number)) => (number < KEPT).then_some(Answer::fault(number)),
        }
    }
}

/// A closure as it is asked: with its values, for its answer.
pub type Asked = Box<dyn FnMut(&[Value], &mut Objects) -> Option<Answer>>;

/// A closure of up to six typed values, of which `Values` is the tuple. One of an object takes the object first.
pub trait Function<Values> {
    /// The closure, which reads its values.
    fn asked(self) -> Asked;
}

macro_rules! functions {
    ($($value:ident)*) => {
        impl<F: FnMut($($value),*) -> R + 'static, R: Typed, $($value: Typed),*> Function<($($value,)*)> for F {
            #[allow(non_snake_case, unused_variables, unused_mut)]
            fn asked(mut self) -> Asked {
                Box::new(move |values, objects| {
                    let mut values = values.iter().copied();
                    $(let $value = $value::read(Some(values.next()?), objects)?;)*
                    self($($value),*).write(objects)
                })
            }
        }
    };
}

functions!();
functions!(A);
functions!(A B);
functions!(A B C);
functions!(A B C D);
functions!(A B C D E);
functions!(A B C D E G);
