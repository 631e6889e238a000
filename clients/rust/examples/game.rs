//! A small game server: scripts of its admin and of players, one that runs away, one that is replaced, and an engine
//! that hangs.
//!
//!     cargo run --example game [ASREMOTE [LIBRARY]]
//!
//! The engine is in this process, where LIBRARY is the path of a libbustlebrick.so that is there, and else a process.
//! Prints what stands in ../game.expected.

use bustlebrick::{Engine, Error, Fault, Module, Options, Profile, Reply};
use std::cell::{Cell, RefCell};
use std::collections::HashMap;
use std::fmt::Display;
use std::process::Command;
use std::rc::Rc;
use std::thread::sleep;
use std::time::Duration;

const PLAYERS: u32 = 1;
const STAFF: u32 = 2;

const ADMIN: &str = "\
Monster@ troll = Monster(30);

int wound(int n) {
  troll.hit(n);
  return troll.health();
}
int armored(int n) {
  troll.armor += n;
  return troll.armor;
}
bool wins(int health) {
  Monster other(health);
  return stronger(troll, other) is troll;
}
int64 reward(int64 player, int64 gold) {
  grant(player, gold);
  price += gold;
  return price;
}
void retire() { @troll = null; }
";

const PLAYER: &str = "\
import int wound(int) from \"admin\";

int attack(int n) {
  say(n);
  return wound(n);
}
int64 gold() { return purse(1); }
uint8 luck(uint8 sides) { return roll(sides); }
bool may_enter() { return open; }
void spin() { while (true) {} }
";

const CHEAT: &str = "void cheat() { grant(1, 1000); }";

/// What scripts hold handles of.
struct Monster {
    left: Cell<i32>,
    armor: Cell<i32>,
}

impl Monster {
    fn new(health: i32) -> Rc<Monster> {
        Rc::new(Monster { left: Cell::new(health), armor: Cell::new(0) })
    }

    fn health(self: Rc<Self>) -> i32 {
        self.left.get()
    }

    fn hit(self: Rc<Self>, n: i32) -> Result<(), Fault> {
        if n < 0 {
            return Err(Fault(7));
        }
        self.left.set(self.left.get() - (n - self.armor.get()).max(0));
        Ok(())
    }
}

fn stronger(one: Rc<Monster>, other: Rc<Monster>) -> Rc<Monster> {
    if one.left >= other.left {
        one
    } else {
        other
    }
}

/// What the host keeps for the scripts.
struct World {
    purses: RefCell<HashMap<i64, i64>>,
    price: Cell<i64>,
    /// How long a look into a purse takes.
    delay: Cell<Duration>,
}

impl World {
    fn purse(&self, player: i64) -> i64 {
        sleep(self.delay.get());
        self.purses.borrow().get(&player).copied().unwrap_or(0)
    }
}

/// What scripts may use: both sorts of them, and the staff's alone.
fn offered(world: &Rc<World>) -> Profile {
    let mut profile = Profile::default();
    profile.mask = PLAYERS | STAFF;
    profile.object_type("Monster");
    profile.method("Monster", "int health() const", Monster::health);
    profile.function("void say(int64)", |n: i64| println!("say {n}"));
    let it = world.clone();
    profile.function("int64 purse(int64)", move |player: i64| it.purse(player));
    profile.function("uint8 roll(uint8)", |sides: u8| sides - 1);
    profile.constant("const bool open", || true);
    profile.mask = STAFF;
    profile.factory("Monster", "Monster@ f(int)", Monster::new);
    profile.method("Monster", "void hit(int)", Monster::hit);
    let set = |it: Rc<Monster>, armor: i32| it.armor.set(armor);
    profile.property("Monster", "int armor", |it: Rc<Monster>| it.armor.get(), set);
    profile.function("Monster@+ stronger(Monster@+, Monster@+)", stronger);
    let it = world.clone();
    profile.function("void grant(int64, int64)", move |player: i64, gold: i64| {
        *it.purses.borrow_mut().entry(player).or_insert(0) += gold;
    });
    let (get, set) = (world.clone(), world.clone());
    profile.global("int64 price", move || get.price.get(), move |price: i64| set.price.set(price));
    profile
}

fn tell_build(name: &str, reply: &Reply) {
    println!("{name}: {}", reply.outcome);
    for event in &reply.events {
        println!("  {event}");
    }
    for error in &reply.errors {
        let [section, line, column] = error.place;
        println!("  error {} {section}:{line}:{column} {}", error.kind, error.name);
    }
    for denial in &reply.denials {
        let [section, line, column] = denial.place;
        println!("  denied {section}:{line}:{column} {}", denial.declaration);
    }
}

/// Prints what a call gave, or how it ended, and where.
fn tell<T: Display>(what: &str, called: Result<T, Error>) -> Result<(), Error> {
    match called {
        Ok(value) => println!("{what}: {value}"),
        Err(error @ (Error::Refused(_) | Error::Fault { .. })) => {
            println!("{what}: {error}");
            for line in error.stack() {
                println!("  in {line}");
            }
        }
        Err(error) => return Err(error),
    }
    Ok(())
}

fn built(engine: &mut Engine, name: &str, mask: u32, script: &str) -> Result<Module, Error> {
    let module = engine.module(name, mask)?;
    engine.section(&module, script)?;
    tell_build(name, &engine.build(&module)?);
    Ok(module)
}

/// Has the engine hang: its process is stopped, or, where it is in this one, a closure takes too long.
fn hang(engine: &Engine, world: &World) {
    let Some(pid) = engine.pid() else { return world.delay.set(Duration::from_secs(1)) };
    let stopped = Command::new("kill").args(["-STOP", &pid.to_string()]).status();
    assert!(stopped.is_ok_and(|status| status.success()));
}

fn main() -> Result<(), Error> {
    let purses = RefCell::new(HashMap::from([(1, 100)]));
    let world = Rc::new(World { purses, price: Cell::new(5), delay: Cell::default() });
    let mut words = std::env::args().skip(1);
    let options = Options::of(words.next().unwrap_or("asremote".to_owned()));
    let options = Options { library: words.next().map(Into::into), ..options };
    let mut engine = Engine::with(options, offered(&world))?;
    engine.budget(10000)?;
    let admin = built(&mut engine, "admin", PLAYERS | STAFF, ADMIN)?;
    let player = built(&mut engine, "player", PLAYERS, PLAYER)?;

    // Calls, with values of all kinds. A player's script reaches the staff's by an import that the host binds. What is
    // called often is looked up once.
    tell("may enter", engine.call::<bool>(&player, "bool may_enter()", &[]))?;
    tell("luck of 6", engine.call::<u8>(&player, "uint8 luck(uint8)", &[&6_u8]))?;
    tell("attack with 4, unbound", engine.call::<i32>(&player, "int attack(int)", &[&4]))?;
    engine.bind_import(&player, "int wound(int)", &admin)?;
    let attack = engine.prepare(&player, "int attack(int)")?;
    tell("attack with 4", engine.run::<i32>(attack, &[&4]))?;
    tell("attack with -1", engine.run::<i32>(attack, &[&-1]))?;
    tell("gold", engine.call::<i64>(&player, "int64 gold()", &[]))?;
    tell("reward", engine.call::<i64>(&admin, "int64 reward(int64, int64)", &[&1, &50]))?;
    tell("gold", engine.call::<i64>(&player, "int64 gold()", &[]))?;
    tell("heal", engine.call::<()>(&player, "void heal()", &[]).map(|()| "healed"))?;

    // A script that asks for what its mask hides, and one that doesn't end.
    let cheater = built(&mut engine, "cheater", PLAYERS, CHEAT)?;
    engine.discard(cheater)?;
    tell("spin", engine.call::<()>(&player, "void spin()", &[]).map(|()| "ended"))?;

    // A new script for the player, while the admin's goes on with its troll. The import is to be bound anew, and what was
    // looked up is to be prepared anew.
    engine.section(&player, PLAYER.replace("wound(n)", "wound(n * 2)"))?;
    tell_build("player", &engine.build(&player)?);
    engine.bind_import(&player, "int wound(int)", &admin)?;
    let attack = engine.prepare(&player, "int attack(int)")?;
    tell("attack with 4", engine.run::<i32>(attack, &[&4]))?;
    tell("armor", engine.call::<i32>(&admin, "int armored(int)", &[&3]))?;
    tell("attack with 4", engine.run::<i32>(attack, &[&4]))?;

    // The host keeps an object as long as scripts hold it.
    tell("wins over 10", engine.call::<bool>(&admin, "bool wins(int)", &[&10]))?;
    tell("wins over 20", engine.call::<bool>(&admin, "bool wins(int)", &[&20]))?;
    println!("monsters: {}", engine.objects());
    for event in engine.command("call admin () void retire()")?.events {
        println!("retire: {event}");
    }
    println!("monsters: {}", engine.objects());

    // An engine that hangs. The next one has no modules.
    engine.timeout = Duration::from_millis(500);
    hang(&engine, &world);
    if let Err(Error::TimedOut) = engine.call::<i64>(&player, "int64 gold()", &[]) {
        println!("the engine hung");
    }
    engine.timeout = Duration::from_secs(10);
    world.delay.set(Duration::ZERO);
    engine.restart()?;
    tell("wound with 1", engine.call::<i32>(&admin, "int wound(int)", &[&1]))?;
    let admin = built(&mut engine, "admin", PLAYERS | STAFF, ADMIN)?;
    tell("wound with 1", engine.call::<i32>(&admin, "int wound(int)", &[&1]))?;
    println!("monsters: {}", engine.objects());

    // A line that no command spells.
    println!("nonsense: {}", engine.command("nonsense")?.outcome);
    tell("wound with 1", engine.call::<i32>(&admin, "int wound(int)", &[&1]))?;
    Ok(())
}
