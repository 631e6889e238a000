//! A host in Rust whose engines are killed by others: see kill_at_random.py.
//!
//!     kills ASREMOTE COUNT
//!
//! Ends once COUNT engines were lost and the next one has worked.

use bustlebrick::{Engine, Error, Module, Profile};
use std::rc::Rc;

const SCRIPT: &str = "\
Thing@ kept = Thing();
int64 work(int64 n) {
  for (int i = 0; i < 50; i++) { Thing t; n = next(n); }
  return n;
}
";

struct Thing;

fn offered() -> Profile {
    let mut profile = Profile::default();
    profile.function("int64 next(int64)", |n: i64| n + 1);
    profile.object_type("Thing");
    profile.factory("Thing", "Thing@ f()", || Rc::new(Thing));
    profile
}

fn built(engine: &mut Engine) -> Result<Module, Error> {
    let module = engine.module("m", 1)?;
    engine.section(&module, SCRIPT)?;
    assert!(engine.build(&module)?.is_ok());
    Ok(module)
}

fn works(engine: &mut Engine, module: &Module, n: i64) -> Result<(), Error> {
    assert_eq!(engine.call::<i64>(module, "int64 work(int64)", &[&n])?, n + 50);
    assert_eq!(engine.objects(), 1);
    Ok(())
}

/// Works until the engine is lost, and says in which stage it does: while it starts, is built in, or is called.
fn work(engine: &mut Option<Engine>, program: &str, n: i64, stage: &mut usize) -> Result<(), Error> {
    match engine {
        Some(engine) => engine.restart()?,
        None => *engine = Some(Engine::start(program, offered())?),
    }
    let Some(engine) = engine else { return Ok(()) };
    *stage = 1;
    let module = built(engine)?;
    *stage = 2;
    loop {
        works(engine, &module, n)?;
    }
}

fn main() -> Result<(), Error> {
    let words: Vec<String> = std::env::args().collect();
    let count = words[2].parse().expect("a count");
    let (mut engine, mut lost) = (None, [0; 3]);
    for n in 0..count {
        let mut stage = 0;
        match work(&mut engine, &words[1], n, &mut stage) {
            Err(Error::Lost(_)) => lost[stage] += 1,
            other => panic!("the engine was not lost: {other:?}"),
        }
    }
    let mut engine = match engine {
        Some(engine) => engine,
        None => Engine::start(&words[1], offered())?,
    };
    engine.restart()?;
    let module = built(&mut engine)?;
    works(&mut engine, &module, 7)?;
    let [start, build, calls] = lost;
    println!("{start} engines were lost at their start, {build} in a build, {calls} in calls; the next one worked");
    Ok(())
}
