//! A host in Rust that does what once went wrong: texts, faults and timeouts that a client has to mind.
//!
//!     mended ASREMOTE [LIBRARY]
//!
//! Is run in the repository's own folder, for trials/clients/refusing.py. Prints what stands in mended.expected.

use bustlebrick::{Engine, Error, Fault, Limits, Module, Options, Profile};
use std::fmt::Display;
use std::process::Command;
use std::rc::Rc;
use std::thread::sleep;
use std::time::Duration;

const SCRIPT: &str = "\
Thing@ kept = Thing();
int two() { return 2; }
void say_two(int64 n) { say(n); say(n + 1); }
void blame(int64 n) { bad(n); }
int flipped() { return flip(uintish::B); }
void sleep() { nap(); }
void spin() { while (true) say(1); }
";
const TRIES: u32 = 5;
const MEMORY: u64 = 64 << 20;
const REFUSING: &str = "trials/clients/refusing.py";
const LONG: Duration = Duration::from_secs(60);
const TEXTS: [&str; 5] =
    ["module a 00000001\nmodule b 00000001", "section m 2\nx", "section m", " Section m 1\nx", "module c 00000001\n"];

struct Thing;

fn offered() -> Profile {
    let mut profile = Profile::default();
    profile.function("void say(int64)", |_: i64| ());
    profile.function("void bad(int64)", |n: i64| Err::<(), Fault>(Fault(n as u32)));
    profile.function("void nap()", || sleep(Duration::from_millis(300)));
    profile.enumeration("uintish", &[("A", 1), ("B", -2)]);
    profile.function("uintish flip(uintish)", |n: i32| -n);
    profile.object_type("Thing");
    profile.factory("Thing", "Thing@ f()", || Rc::new(Thing));
    profile
}

/// Classes of which an object of the last one takes some 100 MB.
fn hoarding() -> String {
    let fields = |count: i32| (0..count).map(|n| format!("f{n}")).collect::<Vec<_>>();
    let mut text = format!("class A {{ int64 {}; }}\n", fields(250).join(", "));
    for (name, part, count) in [("B", "A", 250), ("C", "B", 200)] {
        let made: String = fields(count).iter().map(|it| format!(" @{it} = {part}();")).collect();
        text += &format!("class {name} {{ {part}@ {}; {name}() {{{made} }} }}\n", fields(count).join(", "));
    }
    text + "void hoard() { C it; }\nint two() { return 2; }\n"
}

fn made(engine: &mut Engine, script: &str) -> Result<Module, Error> {
    let module = engine.module("m", 1)?;
    engine.section(&module, script)?;
    assert!(engine.build(&module)?.is_ok());
    Ok(module)
}

/// Prints what came of something.
fn tell(what: &str, done: Result<impl Display, Error>) {
    match done {
        Ok(value) => println!("{what}: {value}"),
        Err(Error::Unfit(_)) => println!("{what}: the client refuses it"),
        Err(Error::TimedOut) => println!("{what}: too slow"),
        Err(error) => println!("{what}: {error}"),
    }
}

fn tell_two(engine: &mut Engine, module: &Module) {
    tell("two", engine.call::<i32>(module, "int two()", &[]));
}

fn texts(engine: &mut Engine, module: &Module) -> Result<(), Error> {
    let broken = engine.module("broken", 1)?;
    engine.section(&broken, "\"a b  c\" = 1;")?;
    for error in engine.build(&broken)?.errors {
        let [section, line, column] = error.place;
        println!("error {} {section}:{line}:{column} {}", error.kind, error.name);
    }
    for text in TEXTS {
        tell(&format!("{text:?}"), engine.command(text).map(|reply| reply.outcome));
        tell_two(engine, module);
    }
    Ok(())
}

fn faults(engine: &mut Engine, module: &Module) -> Result<(), Error> {
    engine.call::<()>(module, "void say_two(int64)", &[&7])?;
    println!("events: {}", engine.events().join(", "));
    for number in [7_i64, -1, 4294967279, 4294967280] {
        let blamed = engine.call::<()>(module, "void blame(int64)", &[&number]);
        tell(&format!("blame {number}"), blamed.map(|()| "done"));
    }
    tell("flipped", engine.call::<i32>(module, "int flipped()", &[]));
    Ok(())
}

fn timeouts(engine: &mut Engine) -> Result<(), Error> {
    let mut late = 0;
    for _ in 0..TRIES {
        engine.timeout = LONG;
        engine.restart()?;
        let module = made(engine, SCRIPT)?;
        engine.timeout = Duration::from_millis(200);
        let slept = engine.call::<()>(&module, "void sleep()", &[]);
        late += u32::from(matches!(slept, Err(Error::TimedOut)));
    }
    println!("too slow: {late} of {TRIES}");
    engine.timeout = LONG;
    engine.restart()?;
    engine.set_limits(Limits::NONE)?;
    engine.budget(2147483647)?;
    let module = made(engine, SCRIPT)?;
    engine.timeout = Duration::from_millis(300);
    tell("spin", engine.call::<()>(&module, "void spin()", &[]).map(|()| "done"));
    println!("objects: {}", engine.objects());
    engine.timeout = LONG;
    engine.restart()?;
    let module = made(engine, SCRIPT)?;
    tell_two(engine, &module);
    Ok(())
}

fn long_timeouts(options: &Options) -> Result<(), Error> {
    for timeout in [Duration::MAX, Duration::from_millis(2147484000), Duration::from_millis(4294967297)] {
        let engine = &mut Engine::with(options.clone(), offered())?;
        engine.timeout = timeout;
        let module = made(engine, SCRIPT)?;
        tell_two(engine, &module);
    }
    Ok(())
}

/// What an engine has no memory to take is given up.
fn refusals() -> Result<(), Error> {
    let engine = &mut Engine::start(REFUSING, offered())?;
    engine.timeout = LONG;
    let module = engine.module("m", 1)?;
    tell("refused", engine.call::<()>(&module, "void any()", &[]).map(|()| "done"));
    println!("objects: {}", engine.objects());
    let limits = Limits { events: Some(2), objects: Some(1), ..Limits::default() };
    tell("limits", engine.set_limits(limits).map(|()| "taken"));
    Ok(())
}

/// An engine that others killed says how it ended, and its objects are given up.
fn kills(options: &Options) -> Result<(), Error> {
    let engine = &mut Engine::start(&options.program, offered())?;
    engine.timeout = LONG;
    for _ in 0..2 {
        let module = made(engine, SCRIPT)?;
        println!("objects: {}", engine.objects());
        let pid = engine.pid().expect("a process").to_string();
        assert!(Command::new("kill").args(["-9", &pid]).status().expect("kill").success());
        sleep(Duration::from_millis(200)); // the process is gone by then, and so nothing can be written to it
        tell("killed", engine.call::<i32>(&module, "int two()", &[]));
        println!("objects: {}", engine.objects());
        tell_two(engine, &module);
        engine.restart()?;
    }
    Ok(())
}

fn memory(options: &Options) -> Result<(), Error> {
    let limits = Limits { slots: None, ..Limits::default() };
    let options = Options { limits, memory: Some(MEMORY), ..options.clone() };
    let engine = &mut Engine::with(options, offered())?;
    engine.timeout = LONG;
    let module = made(engine, &hoarding())?;
    tell("hoard", engine.call::<()>(&module, "void hoard()", &[]).map(|()| "done"));
    tell_two(engine, &module);
    Ok(())
}

fn main() -> Result<(), Error> {
    let words: Vec<String> = std::env::args().collect();
    let options = Options { library: words.get(2).map(Into::into), ..Options::of(&words[1]) };
    let engine = &mut Engine::with(options.clone(), offered())?;
    engine.timeout = LONG;
    assert_eq!(engine.pid().is_none(), words.len() > 2);
    let module = made(engine, SCRIPT)?;
    texts(engine, &module)?;
    faults(engine, &module)?;
    timeouts(engine)?;
    long_timeouts(&options)?;
    refusals()?;
    kills(&options)?;
    memory(&options)
}
