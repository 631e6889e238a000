//! The engine in this process: what bustlebrick.h of clients/c says, for a library that is loaded.

use crate::talk::{left, Host, Said, Talk};
use crate::values::{Answer, AskKind, Value};
use std::ffi::{c_char, c_int, c_void, CStr, CString};
use std::io::{self, Error, ErrorKind};
use std::os::unix::ffi::OsStrExt;
use std::path::Path;
use std::time::Instant;
use std::{mem, ptr, slice};

#[link(name = "dl")]
extern "C" {
    fn dlopen(path: *const c_char, flags: c_int) -> *mut c_void;
    fn dlsym(library: *mut c_void, name: *const c_char) -> *mut c_void;
}

const NOW: c_int = 2; // RTLD_NOW

#[repr(C)]
struct Options {
    profile: *const u8,
    profile_bytes: usize,
    drivers: u32,
    budget: u64,
    stack_bytes: usize,
    memory_bytes: usize,
    host: *const c_void,
    data: *const c_void,
}

#[repr(C)]
struct Ask {
    kind: u32,
    driver: u32,
    function: u32,
    has_object: bool,
    object: u64,
    count: usize,
    values: *const Value,
}

type Raw = *mut c_void;

// Of bb_state.
const DONE: c_int = 0;
const ASKS: c_int = 1;

/// The functions of a library, which stays loaded.
#[derive(Clone, Copy)]
pub(crate) struct Library {
    new: unsafe extern "C" fn(*const Options) -> Raw,
    begin: unsafe extern "C" fn(Raw, *const u8, usize) -> c_int,
    asked: unsafe extern "C" fn(Raw) -> *const Ask,
    resume: unsafe extern "C" fn(Raw, *const Answer) -> c_int,
    reply: unsafe extern "C" fn(Raw, *mut usize) -> *const u8,
    state: unsafe extern "C" fn(Raw) -> c_int,
    status: unsafe extern "C" fn(Raw) -> c_int,
    set_timeout: unsafe extern "C" fn(Raw, u64),
    free: unsafe extern "C" fn(Raw) -> c_int,
}

impl Library {
    /// The library at a path, or `None` where there is none that can be loaded.
    pub(crate) fn at(path: &Path) -> io::Result<Option<Library>> {
        let name = CString::new(path.as_os_str().as_bytes())?;
        // SAFETY: the name is a C string. What is loaded is trusted, as docs of the library say.
        let library = unsafe { dlopen(name.as_ptr(), NOW) };
        if library.is_null() {
            return Ok(None);
        }
        let found = |name: &CStr| {
            // SAFETY: the library is loaded, and the name is a C string.
            let it = unsafe { dlsym(library, name.as_ptr()) };
            let why = || Error::other(format!("{} has no {name:?}", path.display()));
            (!it.is_null()).then_some(it).ok_or_else(why)
        };
        // SAFETY: each version has bb_version, and one of this version has the others, with these types.
        unsafe {
            let version: unsafe extern "C" fn() -> *const c_char = mem::transmute(found(c"bb_version")?);
            let version = CStr::from_ptr(version()).to_string_lossy();
            if version.split(' ').nth(1) != Some(crate::VERSION) {
                let why = format!("{} is {version}, and this client {}", path.display(), crate::VERSION);
                return Err(Error::other(why));
            }
            Ok(Some(Library {
                new: mem::transmute::<Raw, _>(found(c"bb_new")?),
                begin: mem::transmute::<Raw, _>(found(c"bb_begin")?),
                asked: mem::transmute::<Raw, _>(found(c"bb_asked")?),
                resume: mem::transmute::<Raw, _>(found(c"bb_resume")?),
                reply: mem::transmute::<Raw, _>(found(c"bb_reply")?),
                state: mem::transmute::<Raw, _>(found(c"bb_state_of")?),
                status: mem::transmute::<Raw, _>(found(c"bb_status")?),
                set_timeout: mem::transmute::<Raw, _>(found(c"bb_set_timeout")?),
                free: mem::transmute::<Raw, _>(found(c"bb_free")?),
            }))
        }
    }
}

/// An engine in this process. The pointer keeps it in its thread.
pub(crate) struct InProcess {
    library: Library,
    engine: Raw,
    values: Vec<Value>,
}

impl InProcess {
    pub(crate) fn start(library: Library, profile: &str, drivers: usize, memory: Option<u64>) -> io::Result<InProcess> {
        let options = Options {
            profile: profile.as_ptr(),
            profile_bytes: profile.len(),
            drivers: drivers as u32,
            budget: 0,
            stack_bytes: 0,
            memory_bytes: memory.map_or(0, |bytes| bytes as usize),
            host: ptr::null(),
            data: ptr::null(),
        };
        // SAFETY: the options and the profile's text are there until it returns.
        let engine = unsafe { (library.new)(&options) };
        if engine.is_null() {
            return Err(Error::last_os_error());
        }
        Ok(InProcess { library, engine, values: Vec::new() })
    }

    /// Answers what the script asks that waits, and goes on.
    fn answer(&mut self, deadline: Instant, host: &mut Host) -> io::Result<c_int> {
        // SAFETY: the engine's state is ASKS, so an ask is there, with its values, until it is answered.
        let (ask, values) = unsafe {
            let ask = &*(self.library.asked)(self.engine);
            (ask, slice::from_raw_parts(ask.values, ask.count))
        };
        let kind = match ask.kind {
            0 => AskKind::Make,
            3 => AskKind::Write,
            _ => AskKind::Get,
        };
        self.values.clear();
        self.values.extend(ask.has_object.then_some(Value::key(ask.object)));
        self.values.extend_from_slice(values);
        let answer = host.answer(kind, ask.function as usize, &self.values);
        left(deadline)?;
        // SAFETY: the engine is there, and in its thread.
        Ok(unsafe { (self.library.resume)(self.engine, &answer) })
    }

    fn hear(&self, deadline: Instant, host: &mut Host) -> io::Result<()> {
        let mut size = 0;
        // SAFETY: the reply is the library's, and holds until the next command.
        let reply = unsafe {
            let at = (self.library.reply)(self.engine, &mut size);
            slice::from_raw_parts(at, size)
        };
        let reply = std::str::from_utf8(reply).map_err(|_| Error::from(ErrorKind::InvalidData))?;
        for line in reply.split_terminator('\n') {
            host.hear(line.to_owned());
            left(deadline)?;
        }
        left(deadline).map(drop)
    }
}

impl Talk for InProcess {
    fn tell(&mut self, text: &str, deadline: Instant, host: &mut Host) -> io::Result<Said> {
        let timeout = left(deadline)?.as_millis().clamp(1, u128::from(u64::MAX)) as u64;
        // SAFETY: the engine is there, and in its thread. The text is there until the first return.
        let mut state = unsafe {
            (self.library.set_timeout)(self.engine, timeout);
            match text {
                "" => (self.library.state)(self.engine),
                _ => (self.library.begin)(self.engine, text.as_ptr(), text.len()),
            }
        };
        while state == ASKS {
            state = self.answer(deadline, host)?;
        }
        self.hear(deadline, host)?;
        // SAFETY: the engine is there.
        Ok(if state == DONE { Said::Done } else { Said::Ended(unsafe { (self.library.status)(self.engine) }) })
    }

    fn pid(&self) -> Option<u32> {
        None
    }
}

impl Drop for InProcess {
    fn drop(&mut self) {
        // SAFETY: the engine is there, in its thread, and no command of it is done: that takes it by `&mut`.
        unsafe { (self.library.free)(self.engine) };
    }
}
