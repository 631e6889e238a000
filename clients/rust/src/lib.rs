//! Runs scripts in a Bustlebrick engine, a child process or a library in this one, and answers what they ask.
//!
//! A [`Profile`] says what scripts may use, and which closures answer. An [`Engine`] runs with that profile, and a
//! [`Module`] in it holds scripts, which see what the module's mask shows them. README.md has an example.

mod library;
mod limits;
mod link;
mod profile;
mod sources;
mod talk;
mod told;
mod values;

pub use limits::{Held, Limits, Used};
pub use profile::Profile;
pub use told::Frame;
pub use values::{Answer, Asked, Fault, Function, Objects, Plain, Typed, Value};

use library::{InProcess, Library};
use link::Link;
use sources::Sources;
use std::fs::{remove_file, File};
use std::io::{self, ErrorKind, Write};
use std::path::{Path, PathBuf};
use std::time::{Duration, Instant, SystemTime, UNIX_EPOCH};
use std::{env, fmt, mem, process};
use talk::{Host, Said, Talk};

/// The version of this package, which is that of the library that it takes.
pub const VERSION: &str = env!("CARGO_PKG_VERSION");

/// Why a command gave nothing.
#[derive(Debug)]
pub enum Error {
    /// It was not done, or the profile not taken. The text is the refusal, as `NoFunction`.
    Refused(String),
    /// A call ended with this fault, as `Budget` or `Host 7`. The trace is what was running, innermost first, and empty
    /// where there was no memory to keep it.
    Fault { fault: String, trace: Vec<Frame> },
    /// A call ended with the fault `Memory`, which comes of a limit too.
    Memory { held: Held, trace: Vec<Frame> },
    /// The engine ended or was killed, or none could be started. [`Engine::restart`] makes another one.
    Lost(String),
    /// It took longer than the timeout, and the engine was killed, as for `Lost`.
    TimedOut,
    /// A text that can't be said to an engine, or a result of another type than the wanted one.
    Unfit(String),
    /// Limits that no engine should have, for the reason that is said.
    Limits(String),
}

impl Error {
    /// What was running when a call ended with a fault, innermost first; none where this is no fault.
    pub fn trace(&self) -> &[Frame] {
        match self {
            Error::Fault { trace, .. } | Error::Memory { trace, .. } => trace,
            _ => &[],
        }
    }

    /// A line for each frame of the trace, as `player attack 0:3:5: return 10 / n;`.
    pub fn stack(&self) -> Vec<String> {
        self.trace().iter().map(Frame::to_string).collect()
    }
}

impl fmt::Display for Error {
    fn fmt(&self, f: &mut fmt::Formatter<'_>) -> fmt::Result {
        match self {
            Error::Refused(why) => write!(f, "refused {why}"),
            Error::Fault { fault, .. } => write!(f, "fault {fault}"),
            Error::Memory { held, .. } => write!(f, "fault Memory: {held}"),
            Error::Lost(why) => write!(f, "{why}"),
            Error::TimedOut => write!(f, "a command took longer than the timeout"),
            Error::Unfit(text) => write!(f, "{text:?} does not fit"),
            Error::Limits(why) => write!(f, "{why}"),
        }
    }
}

impl std::error::Error for Error {}

impl From<io::Error> for Error {
    fn from(error: io::Error) -> Error {
        match error.kind() {
            ErrorKind::TimedOut | ErrorKind::WouldBlock => Error::TimedOut,
            _ => Error::Lost(format!("the engine can't be used: {error}")),
        }
    }
}

/// A place in the scripts of a build: its section, from 0, its line and its column, from 1.
pub type Place = [u32; 3];

/// An error of a build. The name is `-` where there is none.
#[derive(Debug)]
pub struct BuildError {
    pub kind: String,
    pub place: Place,
    pub name: String,
}

/// What was refused at this place would have meant this registration, which the module's mask hides.
#[derive(Debug)]
pub struct Denial {
    pub place: Place,
    pub declaration: String,
    pub entry_mask: u32,
    pub module_mask: u32,
}

/// What the engine answered to a command. The outcome is its last line. The events are what scripts asked and which
/// objects ended, in order: the lines `host ..` and `end ..`.
#[derive(Debug, Default)]
pub struct Reply {
    pub outcome: String,
    pub events: Vec<String>,
    pub errors: Vec<BuildError>,
    pub denials: Vec<Denial>,
}

impl Reply {
    /// Whether the command was done.
    pub fn is_ok(&self) -> bool {
        self.value().is_ok()
    }

    /// What stands after the `ok`.
    fn value(&self) -> Result<&str, Error> {
        let (word, rest) = self.outcome.split_once(' ').unwrap_or((&self.outcome, ""));
        match word {
            "ok" => Ok(rest),
            "fault" => Err(Error::Fault { fault: rest.to_owned(), trace: Vec::new() }),
            _ => Err(Error::Refused(rest.to_owned())),
        }
    }
}

/// A module of an engine.
#[derive(Clone, Debug)]
pub struct Module(String);

/// A function of a module's scripts that was looked up by [`Engine::prepare`].
#[derive(Clone, Copy, Debug)]
pub struct Prepared {
    start: u64,
    number: u32,
}

/// How an engine is run.
#[derive(Clone, Debug)]
pub struct Options {
    /// The path of `asremote`: the engine is a process of it.
    pub program: PathBuf,
    /// The path of libbustlebrick.so: where it is there, the engine is in this process.
    pub library: Option<PathBuf>,
    /// The most bytes of memory that the engine may have.
    pub memory: Option<u64>,
    /// How much scripts may hold.
    pub limits: Limits,
}

impl Options {
    /// A process of this program, with the limits of `Limits::default`.
    pub fn of(program: impl Into<PathBuf>) -> Options {
        Options { program: program.into(), library: None, memory: None, limits: Limits::default() }
    }
}

/// An engine with a profile. It ends where this is dropped.
pub struct Engine {
    program: PathBuf,
    library: Option<Library>,
    memory: Option<u64>,
    profile: Profile,
    talk: Option<Box<dyn Talk>>,
    objects: Objects,
    sources: Sources,
    events: Vec<String>,
    ticks: Option<u32>,
    limits: Limits,
    /// The groups that were removed.
    removed: Vec<String>,
    /// How often it was started: numbers of prepared calls are those of one start.
    starts: u64,
    /// What a command may take, with what closures take meanwhile. It doesn't end a closure.
    pub timeout: Duration,
}

impl Engine {
    /// Starts an engine with the limits of `Limits::default`; `program` is the path of `asremote`. A command may take 10
    /// seconds.
    pub fn start(program: impl Into<PathBuf>, profile: Profile) -> Result<Engine, Error> {
        Engine::with(Options::of(program), profile)
    }

    /// Starts an engine with these limits.
    pub fn start_with(program: impl Into<PathBuf>, profile: Profile, limits: Limits) -> Result<Engine, Error> {
        Engine::with(Options { limits, ..Options::of(program) }, profile)
    }

    /// Starts an engine that is run so.
    pub fn with(options: Options, profile: Profile) -> Result<Engine, Error> {
        let Options { program, library, memory, limits } = options;
        limits.check(0)?;
        let library = library.map_or(Ok(None), |path| Library::at(&path))?;
        let mut engine = Engine {
            program,
            library,
            memory,
            profile,
            talk: None,
            objects: Objects::default(),
            sources: Sources::default(),
            events: Vec::new(),
            ticks: None,
            limits,
            removed: Vec::new(),
            starts: 0,
            timeout: Duration::from_secs(10),
        };
        engine.restart().map(|()| engine)
    }

    /// Ends the engine, if there is one, and starts another one with the same profile, budget and limits. The modules are
    /// gone: they have to be made, built and bound anew. All objects are given up. Groups that were removed stay so.
    pub fn restart(&mut self) -> Result<(), Error> {
        (self.talk, self.objects, self.sources) = (None, Objects::default(), Sources::default());
        self.starts += 1;
        self.events.clear();
        let text = format!("{}{}\n", self.profile.text(&self.removed), self.limits.lines().join("\n"));
        let drivers = 1 + self.profile.types.len();
        if let Some(library) = self.library {
            self.talk = Some(Box::new(InProcess::start(library, &text, drivers, self.memory)?));
            self.say("", &mut |_, _, _| {})?;
        } else {
            let now = SystemTime::now().duration_since(UNIX_EPOCH).unwrap_or_default().as_nanos();
            let path = env::temp_dir().join(format!("bustlebrick-{}-{now}", process::id()));
            File::create_new(&path)?.write_all(text.as_bytes())?;
            let started = self.start_process(&path, drivers);
            remove_file(&path)?;
            started?;
        }
        self.ticks.map_or(Ok(()), |ticks| self.budget(ticks))
    }

    fn start_process(&mut self, profile: &Path, drivers: usize) -> Result<(), Error> {
        self.talk = Some(Box::new(Link::start(&self.program, self.memory, profile, drivers)?));
        self.say("", &mut |_, _, _| {})
    }

    /// The number of the engine's process. There is none where it is in this process.
    pub fn pid(&self) -> Option<u32> {
        self.talk.as_ref().and_then(|talk| talk.pid())
    }

    /// How many objects scripts hold.
    pub fn objects(&self) -> usize {
        self.objects.count()
    }

    /// The events of the last command that gave no [`Reply`], as a call: what scripts asked, and which objects ended.
    pub fn events(&self) -> &[String] {
        &self.events
    }

    /// Sets the ticks that each later build and call may take.
    pub fn budget(&mut self, ticks: u32) -> Result<(), Error> {
        self.done(&format!("budget {ticks}"))?;
        self.ticks = Some(ticks);
        Ok(())
    }

    /// The limits that are set.
    pub fn limits(&self) -> Limits {
        self.limits
    }

    /// Sets the limits. One below what scripts hold ends nothing, and lets nothing grow.
    pub fn set_limits(&mut self, limits: Limits) -> Result<(), Error> {
        limits.check(self.objects())?;
        for line in limits.lines() {
            self.done(&line)?;
        }
        self.limits = limits;
        Ok(())
    }

    /// What scripts hold, and the ticks that the last build or call took.
    pub fn used(&mut self) -> Result<Used, Error> {
        let lines = self.told("used")?;
        Used::told(&lines).ok_or(Error::Unfit(lines.join("\n")))
    }

    /// What was running when the last build or call ended with a fault, innermost first. None after any other end, and
    /// where there was no memory to keep it.
    pub fn trace(&mut self) -> Result<Vec<Frame>, Error> {
        let lines = self.told("trace")?;
        let frames: Option<Vec<Frame>> = lines.iter().map(|line| Frame::told(line, &self.sources)).collect();
        frames.ok_or(Error::Unfit(lines.join("\n")))
    }

    /// Takes the entries of a group of the profile away: later builds don't see them. It is refused as `InUse` while a built
    /// module, or an entry outside the group, uses one of them, and as `NoGroup` where there is none.
    pub fn remove_group(&mut self, name: &str) -> Result<(), Error> {
        self.done(&format!("remove {name}")).map(drop)
    }

    /// The lines that answer a question of one line, as `used`, without `ok`. It is no command: the last one stays that
    /// before it.
    pub fn told(&mut self, question: &str) -> Result<Vec<String>, Error> {
        let text = whole(question).filter(|text| text.lines().count() == 1);
        let text = text.ok_or_else(|| Error::Unfit(question.to_owned()))?;
        let mut lines = Vec::new();
        self.say(&text, &mut |line, _, _| lines.push(line))?;
        let reply = Reply { outcome: lines.pop().unwrap_or_default(), ..Reply::default() };
        reply.value().map(|_| lines)
    }

    /// Makes a module, without scripts.
    pub fn module(&mut self, name: &str, mask: u32) -> Result<Module, Error> {
        let name = Some(name).filter(|it| !it.is_empty() && !it.contains([' ', '\n']));
        let name = name.ok_or(Error::Refused("BadName".to_owned()))?; // no line could say another one
        self.done(&format!("module {name} {mask:08x}")).map(|_| Module(name.to_owned()))
    }

    /// Gives a module another mask, which acts from its next build on.
    pub fn set_mask(&mut self, module: &Module, mask: u32) -> Result<(), Error> {
        self.done(&format!("mask {} {mask:08x}", module.0)).map(drop)
    }

    /// Adds a section of script for the module's next build. The text is kept for the traces of faults, and not copied
    /// where it is a `String`.
    pub fn section(&mut self, module: &Module, text: impl Into<String>) -> Result<(), Error> {
        let text = text.into();
        let whole = text.strip_suffix('\n').unwrap_or(&text);
        let lines = whole.split('\n').count();
        self.command(&format!("section {} {lines}\n{whole}\n", module.0))?.value()?;
        self.sources.keep(&module.0, text);
        Ok(())
    }

    /// Builds the sections that wait. The reply says whether that was done, and the errors and denials if not.
    pub fn build(&mut self, module: &Module) -> Result<Reply, Error> {
        self.command(&format!("build {}", module.0))
    }

    /// Says what a build of the sections that wait would say, and builds nothing. Sections with errors wait no more, as
    /// after a build; others wait still, and a build can follow.
    pub fn check(&mut self, module: &Module) -> Result<Reply, Error> {
        self.command(&format!("check {}", module.0))
    }

    /// The declarations of the functions that a module was built with, in the order of its text.
    pub fn functions(&mut self, module: &Module) -> Result<Vec<String>, Error> {
        self.listed(module, "function ")
    }

    /// The declarations of its global variables.
    pub fn globals(&mut self, module: &Module) -> Result<Vec<String>, Error> {
        self.listed(module, "global ")
    }

    /// The declarations of its imports: the place of one is its number.
    pub fn imports(&mut self, module: &Module) -> Result<Vec<String>, Error> {
        let numbered = self.listed(module, "import ")?;
        Ok(numbered.iter().map(|it| it.split_once(' ').unwrap_or_default().1.to_owned()).collect())
    }

    fn listed(&mut self, module: &Module, word: &str) -> Result<Vec<String>, Error> {
        let lines = self.told(&format!("list {}", module.0))?;
        Ok(lines.iter().filter_map(|line| line.strip_prefix(word)).map(str::to_owned).collect())
    }

    /// Binds the module's import of this declaration to the function of the same one of another module.
    pub fn bind_import(&mut self, module: &Module, declaration: &str, exporter: &Module) -> Result<(), Error> {
        let wanted = told::plain_words(declaration);
        let number = self.imports(module)?.iter().position(|it| told::plain_words(it) == wanted);
        let number = number.ok_or(Error::Refused("NoImport".to_owned()))?;
        self.bind(module, number as u32, exporter, declaration)
    }

    /// Binds the module's import of that number to a function of another module.
    pub fn bind(&mut self, module: &Module, number: u32, exporter: &Module, declaration: &str) -> Result<(), Error> {
        self.done(&format!("bind {} {number} {} {declaration}", module.0, exporter.0)).map(drop)
    }

    /// Unbinds the module's import of that number.
    pub fn unbind(&mut self, module: &Module, number: u32) -> Result<(), Error> {
        self.done(&format!("unbind {} {number}", module.0)).map(drop)
    }

    /// Calls a function of the module's scripts by its declaration, with integers and `bool`s, and gives its result.
    pub fn call<R: Typed>(&mut self, module: &Module, declaration: &str, values: &[&dyn Plain]) -> Result<R, Error> {
        self.result(&format!("call {} ({}) {declaration}", module.0, written(values)))
    }

    /// Looks a function of the module's scripts up, to be called again and again without its text.
    pub fn prepare(&mut self, module: &Module, declaration: &str) -> Result<Prepared, Error> {
        let lines = self.told(&format!("prepare {} {declaration}", module.0))?;
        let number = lines.first().and_then(|line| line.strip_prefix("prepared ")?.parse().ok());
        let number = number.ok_or(Error::Unfit(lines.join("\n")))?;
        Ok(Prepared { start: self.starts, number })
    }

    /// Calls a function that was looked up, as `call` does. It is refused as `NoFunction` once its module was built again
    /// or discarded, or the engine restarted: then it is to be prepared anew.
    pub fn run<R: Typed>(&mut self, prepared: Prepared, values: &[&dyn Plain]) -> Result<R, Error> {
        if prepared.start != self.starts {
            return Err(Error::Refused("NoFunction".to_owned()));
        }
        self.result(&format!("run {} ({})", prepared.number, written(values)))
    }

    /// Does a call, and gives its result.
    fn result<R: Typed>(&mut self, line: &str) -> Result<R, Error> {
        let text = self.done(line)?;
        let value = if text.is_empty() { Some(None) } else { Value::of(&text).map(Some) };
        value.and_then(|value| R::read(value, &self.objects)).ok_or(Error::Unfit(text))
    }

    /// Ends a module.
    pub fn discard(&mut self, module: Module) -> Result<(), Error> {
        self.done(&format!("discard {}", module.0)).map(drop)
    }

    /// Does a command: a line of a session, and those of its section. Another text is `Error::Unfit`.
    pub fn command(&mut self, text: &str) -> Result<Reply, Error> {
        let text = whole(text).ok_or_else(|| Error::Unfit(text.to_owned()))?;
        let mut reply = Reply::default();
        let last = self.objects.made_last();
        self.say(&text, &mut |line, profile, objects| {
            match line.splitn(4, ' ').collect::<Vec<_>>()[..] {
                ["error", kind, at, name] => {
                    reply.errors.push(BuildError { kind: kind.to_owned(), place: place(at), name: name.to_owned() });
                }
                ["denied", at, entry, masks] => {
                    let entry = &profile.entries[entry.parse::<usize>().unwrap_or(0)];
                    let mask = masks.split(' ').nth(1).unwrap_or_default();
                    let (declaration, module_mask) = (entry.declaration.clone(), u32::from_str_radix(mask, 16));
                    let (entry_mask, module_mask) = (entry.mask, module_mask.unwrap_or(0));
                    reply.denials.push(Denial { place: place(at), declaration, entry_mask, module_mask });
                }
                ["end", _, key] => objects.end(key[1..].parse().unwrap_or(0)),
                _ => {}
            }
            if line.starts_with("host ") || line.starts_with("end ") {
                reply.events.push(line);
            } else {
                reply.outcome = line;
            }
        })?;
        self.objects.end_unlisted(last, &reply.events);
        Ok(reply)
    }

    /// Does a command of one line, and gives what stands after its `ok`.
    fn done(&mut self, line: &str) -> Result<String, Error> {
        if line.contains('\n') {
            return Err(Error::Unfit(line.to_owned()));
        }
        let reply = self.command(line)?;
        let told = reply.value().map(str::to_owned);
        self.events = reply.events;
        let Some(fault) = reply.outcome.strip_prefix("fault ") else { return told };
        let (fault, trace) = (fault.to_owned(), self.trace()?);
        if fault != "Memory" {
            return Err(Error::Fault { fault, trace });
        }
        let used = self.used()?;
        let events = self.events.len() as u64 + used.objects;
        Err(Error::Memory { held: Held { events, used, limits: self.limits }, trace })
    }

    /// Does a command, and answers what is asked meanwhile. Where that fails there is no engine any more, no object and
    /// no text.
    fn say(&mut self, text: &str, hear: &mut dyn FnMut(String, &Profile, &mut Objects)) -> Result<(), Error> {
        let (mut objects, mut sources) = (mem::take(&mut self.objects), mem::take(&mut self.sources));
        let mut talk = self.talk.take().ok_or_else(|| Error::Lost("there is no engine any more".to_owned()))?;
        let far = Instant::now() + Duration::from_secs(1 << 32);
        let deadline = Instant::now().checked_add(self.timeout).map_or(far, |deadline| deadline.min(far));
        let mut last = String::new();
        let mut heard = |line: String, profile: &Profile, objects: &mut Objects| {
            last.clone_from(&line);
            hear(line, profile, objects);
        };
        let mut host = Host { profile: &mut self.profile, objects: &mut objects, heard: &mut heard };
        match talk.tell(text, deadline, &mut host)? {
            Said::Done => {
                sources.follow(text, &last);
                let removed = text.strip_prefix("remove ").filter(|_| last == "ok");
                self.removed.extend(removed.map(|name| name.trim_end().to_owned()));
                (self.talk, self.objects, self.sources) = (Some(talk), objects, sources);
            }
            Said::Ended(_) if text.is_empty() && !last.is_empty() => return Err(Error::Refused(last)),
            Said::Ended(status) => return Err(Error::Lost(ending(status, &last))),
        }
        Ok(())
    }
}

/// The values of a call, as its line has them.
fn written(values: &[&dyn Plain]) -> String {
    let values: Vec<String> = values.iter().map(|value| value.text()).collect();
    values.join(",")
}

/// How an engine ended, and what it said last.
fn ending(status: i32, last: &str) -> String {
    let said = if last.is_empty() { String::new() } else { format!(", and said {last:?} last") };
    format!("the engine ended with the status {status}{said}")
}

/// The text with its last LF, if it is one command: what more it said would be taken for the next ones.
fn whole(text: &str) -> Option<String> {
    let head = text.split('\n').next()?;
    let head = head.strip_suffix('\r').unwrap_or(head);
    let lines = match head.split(' ').collect::<Vec<_>>()[..] {
        ["section", name, count] if !name.is_empty() && is_count(count) => 1 + count.parse::<usize>().ok()?,
        _ if !head.starts_with('#') && is_like_head(head) => return None,
        _ => 1,
    };
    let count = text.bytes().filter(|byte| *byte == b'\n').count();
    let ends = count == lines && text.ends_with('\n');
    let whole = if ends { text.to_owned() } else { format!("{text}\n") };
    ((ends || count + 1 == lines) && whole.len() <= MOST_COMMAND).then_some(whole)
}

const MOST_COMMAND: usize = 16_777_216; // bytes

fn is_count(text: &str) -> bool {
    (1..=10).contains(&text.len()) && text.bytes().all(|byte| byte.is_ascii_digit())
}

/// Whether the first letters of a line are those of `section`: what follows it could be the text of a script.
fn is_like_head(line: &str) -> bool {
    let letters = line.trim_start_matches(|it: char| !it.is_ascii_alphabetic());
    letters.as_bytes().get(..7).is_some_and(|word| word.eq_ignore_ascii_case(b"section"))
}

fn place(text: &str) -> Place {
    let numbers: Vec<u32> = text.split(':').flat_map(str::parse).collect();
    numbers.try_into().unwrap_or_default()
}
