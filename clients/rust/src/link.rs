//! The lines to and from an engine's process.

use crate::talk::{left, Host, Said, Talk};
use crate::values::{AskKind, Value};
use std::io::{self, BufRead, BufReader, ErrorKind, Write};
use std::net::Shutdown;
use std::os::{fd::OwnedFd, unix::net::UnixStream, unix::process::ExitStatusExt};
use std::path::Path;
use std::process::{Child, Command};
use std::thread::sleep;
use std::time::{Duration, Instant};

/// An engine's process, which is killed where this is dropped.
pub(crate) struct Link {
    child: Child,
    stream: BufReader<UnixStream>,
}

impl Link {
    /// Starts a process, which may have so many bytes of memory, if there is a limit.
    pub(crate) fn start(program: &Path, memory: Option<u64>, profile: &Path, drivers: usize) -> io::Result<Link> {
        let (stream, theirs) = UnixStream::pair()?;
        let mut command = match memory {
            None => Command::new(program),
            Some(bytes) => {
                let mut shell = Command::new("/bin/sh");
                shell.args(["-c", "ulimit -v \"$0\" && exec \"$@\"", &(bytes >> 10).to_string()]).arg(program);
                shell
            }
        };
        command.arg("--profile").arg(profile).arg("--drivers").arg(drivers.to_string());
        command.stdin(OwnedFd::from(theirs.try_clone()?)).stdout(OwnedFd::from(theirs));
        Ok(Link { child: command.spawn()?, stream: BufReader::new(stream) })
    }

    fn send(&mut self, text: &str, deadline: Instant) -> io::Result<()> {
        self.stream.get_ref().set_write_timeout(Some(left(deadline)?))?;
        match self.stream.get_mut().write_all(text.as_bytes()) {
            // what the engine said last is still to be read
            Err(error) if matches!(error.kind(), ErrorKind::BrokenPipe | ErrorKind::ConnectionReset) => Ok(()),
            written => written,
        }
    }

    /// The next line, without its LF. It is empty where the stream ended.
    fn line(&mut self, deadline: Instant) -> io::Result<String> {
        if !self.stream.buffer().contains(&b'\n') {
            self.stream.get_ref().set_read_timeout(Some(left(deadline)?))?;
        }
        let mut line = String::new();
        match self.stream.read_line(&mut line) {
            Err(error) if error.kind() == ErrorKind::ConnectionReset => line.clear(), // it ended, and read not all
            read => drop(read?),
        }
        left(deadline)?;
        line.truncate(line.trim_end_matches('\n').len());
        Ok(line)
    }

    /// The status of the process, which has ended its output. It is killed where it goes on.
    fn ended(&mut self, deadline: Instant) -> io::Result<i32> {
        let _ = self.stream.get_ref().shutdown(Shutdown::Both);
        let status = loop {
            match self.child.try_wait()? {
                Some(status) => break status,
                None if left(deadline).is_err() => self.child.kill()?,
                None => {}
            }
            sleep(Duration::from_millis(1));
        };
        Ok(status.code().or_else(|| status.signal().map(|signal| -signal)).unwrap_or(0))
    }
}

impl Talk for Link {
    fn tell(&mut self, text: &str, deadline: Instant, host: &mut Host) -> io::Result<Said> {
        self.send(text, deadline)?;
        loop {
            let line = self.line(deadline)?;
            match line.as_str() {
                "done" => return Ok(Said::Done),
                "" => return self.ended(deadline).map(Said::Ended),
                ask if ask.starts_with("ask ") => {
                    let answer = answer(ask, host) + "\n";
                    self.send(&answer, deadline)?;
                }
                post if post.starts_with("post ") => drop(answer(post, host)),
                _ => host.hear(line),
            }
        }
    }

    fn pid(&self) -> Option<u32> {
        Some(self.child.id())
    }
}

impl Drop for Link {
    fn drop(&mut self) {
        let _ = self.child.kill();
        let _ = self.child.wait();
    }
}

/// The answer to `ask DRIVER KIND F OBJECT (V,V)`, in which F is the entry's number; and to the same with `post`, to which
/// nothing is said.
fn answer(ask: &str, host: &mut Host) -> String {
    let [_, _, kind, entry, object, values] = ask.split(' ').collect::<Vec<_>>()[..] else { return "?".to_owned() };
    let kind = match kind {
        "make" => AskKind::Make,
        "write" => AskKind::Write,
        _ => AskKind::Get,
    };
    let texts = [object].into_iter().chain(values.trim_matches(['(', ')']).split(','));
    let values: Vec<Value> = texts.filter(|text| !matches!(*text, "-" | "")).filter_map(Value::of).collect();
    host.answer(kind, entry.parse().unwrap_or(usize::MAX), &values).text()
}
