//! A host in Rust that sets limits, between commands and when its engine is made, and is told what scripts hold.
//!
//!     limits ASREMOTE [LIBRARY]
//!
//! Prints what stands in limits.expected.

use bustlebrick::{Engine, Error, Limits, Module, Options, Profile, Used};
use std::rc::Rc;
use std::time::Duration;

// A shelf and a part take four slots each.
const SCRIPT: &str = "\
class Part { int64 a, b, c; }
class Shelf { Part@ p0, p1, p2; }
Shelf shelf;
Thing@ t0, t1, t2;

void hold(int n) {
  if (n > 0) @shelf.p0 = Part();
  if (n > 1) @shelf.p1 = Part();
  if (n > 2) @shelf.p2 = Part();
}
void drop() { @shelf.p0 = null; @shelf.p1 = null; @shelf.p2 = null; }
void make(int n) {
  if (n > 0) @t0 = Thing();
  if (n > 1) @t1 = Thing();
  if (n > 2) @t2 = Thing();
}
void forget() { @t0 = null; @t1 = null; @t2 = null; }
void say_often(int n) { for (int i = 0; i < n; i++) say(i); }
";
const OTHER: &str = "int answer() { return 42; }";
const TOO_MANY: u64 = 1 << 63;

struct Thing;

fn offered() -> Profile {
    let mut profile = Profile::default();
    profile.function("void say(int64)", |_: i64| ());
    profile.object_type("Thing");
    profile.factory("Thing", "Thing@ f()", || Rc::new(Thing));
    profile
}

/// Prints what came of something.
fn tell(what: &str, came: Result<String, Error>) {
    match came {
        Ok(text) => println!("{what}: {text}"),
        Err(error) => println!("{what}: {error}"),
    }
}

fn tell_limits(what: &str, limits: Limits) {
    let text = |most: Option<u64>| most.map_or("any".to_owned(), |most| most.to_string());
    let [events, slots, objects] = [limits.events, limits.slots, limits.objects].map(text);
    println!("{what}: {events} events, {slots} slots, {objects} objects");
}

fn tell_used(engine: &mut Engine) {
    let text = |Used { slots, objects, .. }| format!("{slots} slots, {objects} objects");
    tell("used", engine.used().map(text));
}

fn set(engine: &mut Engine, what: &str, limits: Limits) {
    match engine.set_limits(limits) {
        Ok(()) => tell_limits(what, engine.limits()),
        Err(error) => println!("{what}: {error}"),
    }
}

fn made(engine: &mut Engine, name: &str, script: &str) -> Result<Module, Error> {
    let module = engine.module(name, 1)?;
    engine.section(&module, script)?;
    Ok(module)
}

fn build(engine: &mut Engine, what: &str, module: &Module) {
    tell(what, engine.build(module).map(|reply| reply.outcome));
}

/// Calls `void NAME(int)`, where there is a number, and else `void NAME()`.
fn call(engine: &mut Engine, module: &Module, what: &str, name: &str, n: Option<i32>) {
    let called = match n {
        Some(n) => engine.call::<()>(module, &format!("void {name}(int)"), &[&n]),
        None => engine.call::<()>(module, &format!("void {name}()"), &[]),
    };
    let number = n.map_or(String::new(), |n| format!(" {n}"));
    tell(&format!("{what}{number}"), called.map(|()| "done".to_owned()));
}

fn answer(engine: &mut Engine, other: &Module) {
    tell("answer", engine.call::<i32>(other, "int answer()", &[]).map(|number| number.to_string()));
}

fn refused_before_its_start() {
    let start = |limits| Engine::start_with("no such program", offered(), limits).map(|_| String::new());
    let all = Limits::default();
    tell("no engine with 5 events, 5 objects", start(Limits { events: Some(5), objects: Some(5), ..all }));
    tell("no engine with any objects", start(Limits { objects: None, ..all }));
    tell("no engine with too many slots", start(Limits { slots: Some(TOO_MANY), ..all }));
}

fn slots(engine: &mut Engine, module: &Module) {
    let hold = |engine: &mut Engine, n| call(engine, module, "hold", "hold", Some(n));
    build(engine, "built", module);
    call(engine, module, "say", "say_often", Some(20000));
    tell_used(engine);
    hold(engine, 3);
    tell_used(engine);
    set(engine, "19 slots", Limits { slots: Some(19), ..engine.limits() });
    hold(engine, 1);
    set(engine, "5 slots", Limits { slots: Some(5), ..engine.limits() }); // fewer than there are
    call(engine, module, "drop", "drop", None);
    tell_used(engine);
    hold(engine, 1);
    set(engine, "any slots", Limits { slots: None, ..engine.limits() });
    hold(engine, 3);
}

fn events_and_objects(engine: &mut Engine, module: &Module) {
    let say = |engine: &mut Engine, n| call(engine, module, "say", "say_often", Some(n));
    let make = |engine: &mut Engine, n| call(engine, module, "make", "make", Some(n));
    let limited = |engine: &Engine, events, objects| Limits { events, objects, ..engine.limits() };
    set(engine, "8 events, 3 objects", limited(engine, Some(8), Some(3)));
    make(engine, 3);
    say(engine, 5);
    say(engine, 6);
    set(engine, "3 events", limited(engine, Some(3), Some(3)));
    set(engine, "3 events, 1 object", limited(engine, Some(3), Some(1))); // three are alive
    set(engine, "too many objects", limited(engine, Some(8), Some(TOO_MANY)));
    set(engine, "4 events, 1 object", limited(engine, Some(4), Some(1)));
    say(engine, 1);
    say(engine, 2);
    make(engine, 1);
    call(engine, module, "forget", "forget", None);
    tell_used(engine);
}

fn main() -> Result<(), Error> {
    let words: Vec<String> = std::env::args().collect();
    refused_before_its_start();
    let options = Options { library: words.get(2).map(Into::into), ..Options::of(&words[1]) };
    let engine = &mut Engine::with(options, offered())?;
    engine.timeout = Duration::from_secs(100);
    tell_limits("without others", engine.limits());
    let (module, other) = (made(engine, "m", SCRIPT)?, made(engine, "other", OTHER)?);
    engine.build(&other)?;
    slots(engine, &module);
    events_and_objects(engine, &module);
    set(engine, "3 slots", Limits { slots: Some(3), ..engine.limits() });
    let another = made(engine, "another", SCRIPT)?;
    build(engine, "another one, built", &another);
    answer(engine, &other);

    // The next engine begins with the limits of the last one.
    engine.restart()?;
    tell_limits("the next engine", engine.limits());
    let module = made(engine, "m", SCRIPT)?;
    build(engine, "built", &module);
    set(engine, "the first ones", Limits::default());
    engine.section(&module, SCRIPT)?;
    build(engine, "built", &module);
    set(engine, "none", Limits::NONE);
    call(engine, &module, "say", "say_often", Some(20000));
    Ok(())
}
