//! A host in Rust with functions that are posted.
//!
//!     posts ASREMOTE [LIBRARY]
//!
//! Prints what stands in posts.expected.

use bustlebrick::{Engine, Error, Fault, Options, Profile};
use std::cell::RefCell;
use std::rc::Rc;

const SCRIPT: &str = "\
int64 mixed(int64 n) {
  int64 wrong = 0;
  for (int64 i = 0; i < n; i++) {
    say(i);
    say(i + n);
    if (last() != i + n) wrong++;
  }
  return wrong;
}
void many(int64 n) { for (int64 i = 0; i < n; i++) say(i); }
int64 blamed() { bad(); say(7); return last(); }
void kinds() {
  Thing a(7);
  Thing@ none;
  uint64 big = 0;
  big -= 1;
  note(a, true, 200, big, -5);
  note(none, false, 0, 0, 127);
  ping();
  note(a, false, 1, 2, 3);
}
";

struct Thing(i32);

type Heard = Rc<RefCell<Vec<i64>>>;
type Notes = Rc<RefCell<Vec<String>>>;

/// Notes the number of a thing, if there is one, and values of other types.
fn noted(thing: Option<Rc<Thing>>, truth: bool, small: u8, big: u64, less: i8) -> String {
    let number = thing.map_or("none".to_owned(), |it| it.0.to_string());
    format!("{number} {} {small} {big} {less}", if truth { "yes" } else { "no" })
}

fn offered(heard: &Heard, notes: &Notes) -> Profile {
    let mut profile = Profile::default();
    let (told, asked) = (heard.clone(), heard.clone());
    profile.posted("void say(int64)", move |n: i64| told.borrow_mut().push(n));
    profile.function("int64 last()", move || asked.borrow().last().copied().unwrap_or(-1));
    profile.posted("void bad()", || Err::<(), Fault>(Fault(9)));
    let (noting, pinged) = (notes.clone(), notes.clone());
    profile.object_type("Thing");
    profile.factory("Thing", "Thing@ f(int)", |number: i32| Rc::new(Thing(number)));
    profile.posted("void note(Thing@+, bool, uint8, uint64, int8)", move |thing, truth, small, big, less| {
        noting.borrow_mut().push(noted(thing, truth, small, big, less));
    });
    profile.posted("void ping()", move || pinged.borrow_mut().push("ping".to_owned()));
    profile
}

fn main() -> Result<(), Error> {
    let words: Vec<String> = std::env::args().collect();
    let options = Options { library: words.get(2).map(Into::into), ..Options::of(&words[1]) };
    let (heard, notes) = (Heard::default(), Notes::default());
    let mut engine = Engine::with(options.clone(), offered(&heard, &notes))?;
    let module = engine.module("m", 1)?;
    engine.section(&module, SCRIPT)?;
    if !engine.build(&module)?.is_ok() {
        println!("the script is not built");
    }
    let wrong: i64 = engine.call(&module, "int64 mixed(int64)", &[&1000i64])?;
    println!("1000 times two posts and an ask: {wrong} out of order");
    heard.borrow_mut().clear();
    let () = engine.call(&module, "void many(int64)", &[&5000i64])?;
    println!("5000 posts: {} heard, the last {}", heard.borrow().len(), heard.borrow().last().unwrap_or(&-1));
    let last: i64 = engine.call(&module, "int64 blamed()", &[])?;
    println!("after a fault of what is posted: {last}");
    let () = engine.call(&module, "void kinds()", &[])?;
    println!("posts of all types: {}", notes.borrow().join(", "));
    let mut profile = offered(&heard, &notes);
    profile.posted("int64 three()", || 3i64);
    let came = match Engine::with(options, profile) {
        Ok(_) => "taken".to_owned(),
        Err(Error::Refused(why)) if why.contains("NotVoid") => "refused".to_owned(),
        Err(error) => error.to_string(),
    };
    println!("posted with a result: {came}");
    Ok(())
}
