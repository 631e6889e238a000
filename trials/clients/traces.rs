//! A host in Rust whose calls end with faults: it prints the frames of their traces, and their stacks.
//!
//!     traces ASREMOTE [LIBRARY]
//!
//! Prints what stands in traces.expected.

use bustlebrick::{Engine, Error, Fault, Frame, Limits, Module, Options, Place, Profile};
use std::fmt::Display;

const SHARES: &str = "\
class Pair {
  int all;
  Pair(int n) { all = n; check(n); }
  int split(int between) { return all / between; }
}
void check(int n) {
  if (n < 0)
    fail(n);
}
int share(int all, int between) {
  Pair pair(all);
  int part = pair.split(between);
  return part;
}
";
const SHOP: &str = "\
import int share(int, int) from \"shares\";
int price(int n) {
  for (int i = 0; i < 3; i++) {
    if (i == 2)
      return share(100, n);
  }
  return 0;
}
";
const INITIALIZED: &str = "\
int half(int n) { return 1 / n; }
int good = half(1);
int bad =
  half(0);
";
const WINDOWS: &str = "int tabs(int n) {\r\n\tint m = n;\r\n\treturn\t10 /\tm;\r\n}\r\n";
const OUTER: &str = "int outer(int n) {\n  return inner(n);\n}"; // without an LF at its end
const INNER: &str = "\nint inner(int n) {\n  return 7 / n;\n}\n";
const ANOTHER_OUTER: &str = "int outer(int n) { return 8 / n; }\n";
const DEEP: &str = "int deep(int n) {\n  return deep(n + 1);\n}\nvoid chatter() {\n  while (true)\n    say(1);\n}\n";
const ODD: &str = "int odd(int n) { return 9 / n; }";

/// A line of 10,000 bytes: a function at its beginning, one behind 5,000, and one at its end.
fn long_line() -> String {
    let [first, second, third] = [1, 2, 3].map(|it| format!("int at_{it}(int n) {{ return {it} / n; }}"));
    let middle = format!("{first}/*{}*/{second}/*", "-".repeat(5000 - first.len() - 4));
    let rest = "-".repeat(9998 - middle.len() - third.len());
    format!("{middle}{rest}*/{third}")
}

/// A comment of letters that have two bytes each; in C++ they have one, and are no UTF-8.
fn letters(count: usize) -> String {
    format!("int letters(int n) {{ return 1 / n; }}//{}", "é".repeat(count))
}

fn yes(truth: bool) -> &'static str {
    if truth {
        "yes"
    } else {
        "no"
    }
}

fn place([section, line, column]: Place) -> String {
    format!("{section}:{line}:{column}")
}

fn plain(text: &str) -> String {
    text.replace(|it: char| !it.is_ascii(), "?")
}

fn shown(source: Option<&str>) -> String {
    let shown = |source| format!("[{}]", plain(source).replace('\t', "\\t").replace('\r', "\\r"));
    source.map_or("no source".to_owned(), shown)
}

fn tell_frames(frames: &[Frame]) {
    for it in frames {
        let (declared, at) = (place(it.declared), it.place.map_or("-".to_owned(), place));
        println!("  {}, {}, {declared}, {at}, {}", it.module, it.name, shown(it.source.as_deref()));
    }
}

fn tell_stack(lines: &[String]) {
    for line in lines {
        println!("  in {}", plain(line));
    }
}

/// Prints how a call ended, and gives its error.
fn tell<T: Display>(what: &str, called: Result<T, Error>) -> Option<Error> {
    match called {
        Ok(value) => {
            println!("{what}: {value}");
            None
        }
        Err(error) => {
            println!("{what}: {error}");
            tell_frames(error.trace());
            tell_stack(&error.stack());
            Some(error)
        }
    }
}

/// Calls `int NAME(int)` with 0.
fn call(engine: &mut Engine, what: &str, module: &Module, name: &str) -> Option<Error> {
    tell(what, engine.call::<i32>(module, &format!("int {name}(int)"), &[&0]))
}

fn made(engine: &mut Engine, name: &str, sections: &[&str]) -> Result<Module, Error> {
    let module = engine.module(name, 1)?;
    build(engine, name, &module, sections)?;
    Ok(module)
}

fn build(engine: &mut Engine, name: &str, module: &Module, sections: &[&str]) -> Result<(), Error> {
    for text in sections {
        engine.section(module, *text)?;
    }
    println!("{name}: {}", engine.build(module)?.outcome);
    Ok(())
}

fn offered() -> Profile {
    let mut profile = Profile::default();
    profile.function("void fail(int)", |_: i32| Err::<(), Fault>(Fault(7)));
    profile.function("void say(int)", |_: i32| ());
    profile
}

fn methods_and_imports(engine: &mut Engine) -> Result<(), Error> {
    let (shares, shop) = (made(engine, "shares", &[SHARES])?, made(engine, "shop", &[SHOP])?);
    tell("in a method", engine.call::<i32>(&shares, "int share(int, int)", &[&10, &0]));
    tell("below a constructor", engine.call::<i32>(&shares, "int share(int, int)", &[&-1, &1]));
    call(engine, "not bound", &shop, "price");
    engine.bind_import(&shop, "int share(int, int)", &shares)?;
    let price = engine.prepare(&shop, "int price(int)")?;
    tell("through an import", engine.run::<i32>(price, &[&0]));
    Ok(())
}

fn initializers(engine: &mut Engine) -> Result<(), Error> {
    let module = made(engine, "initialized", &[INITIALIZED])?;
    let frames = engine.trace()?;
    tell_frames(&frames);
    tell_stack(&frames.iter().map(Frame::to_string).collect::<Vec<_>>());
    call(engine, "not built", &module, "half");
    println!("frames then: {}", engine.trace()?.len());
    Ok(())
}

fn lines(engine: &mut Engine) -> Result<(), Error> {
    let (windows, long) = (made(engine, "windows", &[WINDOWS])?, made(engine, "long", &[&long_line()])?);
    println!("bytes of the long line: {}", long_line().len());
    call(engine, "CRLF and tabs", &windows, "tabs");
    call(engine, "at the beginning", &long, "at_1");
    call(engine, "in the middle", &long, "at_2");
    call(engine, "at the end", &long, "at_3");
    let (few, many) = (made(engine, "few", &[&letters(10)])?, made(engine, "many", &[&letters(1000)])?);
    call(engine, "letters", &few, "letters");
    let error = call(engine, "more letters", &many, "letters");
    let source = error.as_ref().and_then(|error| error.trace().first()?.source.as_ref());
    println!("at most 800 bytes: {}", yes(source.is_some_and(|source| source.len() <= 800)));
    Ok(())
}

fn sections(engine: &mut Engine) -> Result<(), Error> {
    let two = made(engine, "two", &[OUTER, INNER])?;
    let old = call(engine, "two sections", &two, "outer");
    build(engine, "two", &two, &[ANOTHER_OUTER])?;
    call(engine, "built again", &two, "outer");
    println!("before that");
    tell_stack(&old.map_or(Vec::new(), |error| error.stack()));

    // What is refused in between makes no difference.
    engine.section(&two, "int outer( {")?;
    println!("check: {}", engine.check(&two)?.outcome);
    build(engine, "two", &two, &["int outer( {"])?;
    engine.budget(0)?;
    build(engine, "two", &two, &[OUTER])?;
    engine.budget(10000)?;
    build(engine, "two", &two, &[INNER])?;
    call(engine, "refused in between", &two, "outer");
    engine.discard(two)?;
    let two = made(engine, "two", &[ANOTHER_OUTER])?;
    call(engine, "another module", &two, "outer");
    Ok(())
}

fn raw_lines(engine: &mut Engine) -> Result<(), Error> {
    let odd = engine.module("odd", 1)?;
    engine.command(&format!("section odd 1\n{ODD}"))?;
    engine.command("build odd\r\n")?;
    call(engine, "a raw section", &odd, "odd");
    engine.command(&format!("section odd 4\n{INNER}"))?;
    engine.section(&odd, OUTER)?;
    engine.command("build odd")?;
    call(engine, "a raw one and another", &odd, "outer");
    engine.restart()?;
    let odd = engine.module("odd", 1)?;
    engine.command(&format!("section odd 1\n{ODD}"))?;
    build(engine, "odd", &odd, &[])?;
    call(engine, "the next engine", &odd, "odd");
    Ok(())
}

fn many(engine: &mut Engine) -> Result<(), Error> {
    let deep = made(engine, "deep", &[DEEP])?;
    if let Err(error) = engine.call::<i32>(&deep, "int deep(int)", &[&0]) {
        let stack = error.stack();
        let are_alike = stack.iter().all(|line| *line == stack[0]);
        println!("{error}: {} frames, all alike: {}", error.trace().len(), yes(are_alike));
        tell_stack(&stack[..1]);
    }
    engine.set_limits(Limits { events: Some(5), objects: Some(4), ..engine.limits() })?;
    tell("a limit", engine.call::<()>(&deep, "void chatter()", &[]).map(|()| "done"));
    engine.budget(3)?;
    call(engine, "a budget", &deep, "deep");
    Ok(())
}

fn main() -> Result<(), Error> {
    let words: Vec<String> = std::env::args().collect();
    let options = Options { library: words.get(2).map(Into::into), ..Options::of(&words[1]) };
    let engine = &mut Engine::with(options, offered())?;
    engine.budget(10000)?;
    for part in [methods_and_imports, initializers, lines, sections, raw_lines, many] {
        part(engine)?;
    }
    Ok(())
}
