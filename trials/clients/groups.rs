//! A host in Rust with a group of entries that it takes away.
//!
//!     groups ASREMOTE [LIBRARY]
//!
//! Prints what stands in groups.expected.

use bustlebrick::{Engine, Error, Module, Options, Profile};
use std::cell::RefCell;
use std::rc::Rc;

const SCRIPT: &str = "int blows() { return wind(); }";

struct Kite;

fn offered(said: &Rc<RefCell<Vec<i32>>>) -> Profile {
    let mut profile = Profile::default();
    let heard = said.clone();
    profile.group("weather", |weather| weather.function("int wind()", || 7i32));
    profile.group("toys", |toys| {
        toys.object_type("Kite");
        toys.factory("Kite", "Kite@ f()", || Rc::new(Kite));
    });
    profile.function("void fly(Kite@+)", |_: Option<Rc<Kite>>| {});
    profile.function("void say(int)", move |number: i32| heard.borrow_mut().push(number));
    profile
}

fn built(engine: &mut Engine, name: &str) -> Result<Module, Error> {
    let module = engine.module(name, 1)?;
    engine.section(&module, SCRIPT)?;
    Ok(module)
}

fn errors(engine: &mut Engine, module: &Module) -> Result<String, Error> {
    let reply = engine.build(module)?;
    let errors: Vec<String> = reply.errors.iter().map(|it| format!("{} {}", it.kind, it.name)).collect();
    Ok(format!("{}, {} denials", errors.join(", "), reply.denials.len()))
}

fn wind(engine: &mut Engine, module: &Module) -> Result<String, Error> {
    assert!(engine.build(module)?.is_ok());
    let wind: i32 = engine.call(module, "int blows()", &[])?;
    Ok(format!("wind is {wind}"))
}

fn removed(engine: &mut Engine, name: &str) -> Result<String, Error> {
    match engine.remove_group(name) {
        Ok(()) => Ok("removed".to_owned()),
        Err(Error::Refused(refusal)) => Ok(refusal),
        Err(error) => Err(error),
    }
}

fn main() -> Result<(), Error> {
    let words: Vec<String> = std::env::args().collect();
    let options = Options { library: words.get(2).map(Into::into), ..Options::of(&words[1]) };
    let said = Rc::default();
    let mut engine = Engine::with(options.clone(), offered(&said))?;
    let module = built(&mut engine, "m")?;
    println!("built: {}", wind(&mut engine, &module)?);
    println!("while a module uses it: {}", removed(&mut engine, "weather")?);
    engine.discard(module)?;
    println!("once none does: {}", removed(&mut engine, "weather")?);
    println!("again: {}", removed(&mut engine, "weather")?);
    let module = built(&mut engine, "m")?;
    println!("a build after it: {}", errors(&mut engine, &module)?);
    let other = engine.module("other", 1)?;
    engine.section(&other, "void three() { say(3); }")?;
    engine.build(&other)?;
    let () = engine.call(&other, "void three()", &[])?;
    println!("numbers of the others: said {}", said.borrow()[0]);
    engine.restart()?;
    let module = built(&mut engine, "m")?;
    println!("after a restart: {}", errors(&mut engine, &module)?);
    let mut engine = Engine::with(options.clone(), offered(&said))?;
    let module = built(&mut engine, "m")?;
    println!("another engine of the profile: {}", wind(&mut engine, &module)?);
    println!("a type of it that is named outside: {}", removed(&mut engine, "toys")?);
    let mut profile = offered(&said);
    profile.group("outer", |outer| outer.group("inner", |_| {}));
    if let Err(Error::Refused(refusal)) = Engine::with(options, profile) {
        println!("a group in a group: {}", refusal.rsplit(' ').next().unwrap_or(""));
    }
    Ok(())
}
