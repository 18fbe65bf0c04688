//! The driver as a child process.

use std::io::{self, BufReader, BufWriter, Write};
use std::process::{Child, ChildStdin, ChildStdout, Command, Stdio};
use std::thread;

use crate::request::{Reply, Request};

/// A running driver. It ends when it is dropped.
pub struct Driver {
    child: Child,
    /// Gone only while the driver is being ended.
    requests: Option<BufWriter<ChildStdin>>,
    replies: BufReader<ChildStdout>,
    /// The table that the driver holds.
    held: Vec<u8>,
}

/// The bytes that are gathered before a pipe is asked to take or give them.
const GATHERED: usize = 1 << 16;

/// An error with a text of our own.
fn trouble(what: String) -> io::Error {
    io::Error::other(what)
}

/// The command that the environment names: the words of RATTLE_RUN, if there are any, then the path in DOVETRELLIS_DRIVER.
fn named_command() -> io::Result<Command> {
    let path = std::env::var("DOVETRELLIS_DRIVER")
        .map_err(|_| trouble("DOVETRELLIS_DRIVER names no driver".to_string()))?;
    let runner = std::env::var("RATTLE_RUN").unwrap_or_default();
    let mut words = runner.split_whitespace();
    Ok(match words.next() {
        None => Command::new(path),
        Some(first) => {
            let mut command = Command::new(first);
            command.args(words).arg(path);
            command
        }
    })
}

impl Driver {
    /// Starts the driver that the environment names: DOVETRELLIS_DRIVER is its path, and RATTLE_RUN, where it is set, has the words
    /// to run it with, as the kit's loader.
    pub fn open() -> io::Result<Driver> {
        Driver::open_by(named_command()?)
    }

    /// Starts a driver by a command.
    pub fn open_by(mut command: Command) -> io::Result<Driver> {
        let child = command.stdin(Stdio::piped()).stdout(Stdio::piped()).spawn();
        let program = command.get_program().to_string_lossy().into_owned();
        let mut child = child.map_err(|error| trouble(format!("{program}: {error}")))?;
        let (stdin, stdout) = (child.stdin.take(), child.stdout.take());
        let (Some(stdin), Some(stdout)) = (stdin, stdout) else {
            return Err(trouble(format!("{program}: no pipes")));
        };
        Ok(Driver {
            child,
            requests: Some(BufWriter::with_capacity(GATHERED, stdin)),
            replies: BufReader::with_capacity(GATHERED, stdout),
            held: Vec::new(),
        })
    }

    /// Makes one call and waits for its reply.
    pub fn ask(&mut self, request: &Request) -> io::Result<Reply> {
        let mut replies = self.ask_all(std::slice::from_ref(request))?;
        replies.pop().ok_or_else(|| trouble("no reply".to_string()))
    }

    /// Makes many calls; their requests go out while replies come in. After an error of the pipes the driver has ended.
    pub fn ask_all(&mut self, requests: &[Request]) -> io::Result<Vec<Reply>> {
        if !requests.iter().all(Request::fits) {
            return Err(trouble(
                "a request is larger than the driver takes".to_string(),
            ));
        }
        let asked = self.exchanged(requests);
        asked.map_err(|error| self.lost(error))
    }

    /// Sends requests and receives their replies.
    fn exchanged(&mut self, requests: &[Request]) -> io::Result<Vec<Reply>> {
        let Driver {
            requests: to,
            replies: from,
            held,
            ..
        } = self;
        let to = to
            .as_mut()
            .ok_or_else(|| trouble("the driver has ended".to_string()))?;
        match requests {
            [one] => {
                send_all(to, held, requests)?;
                Ok(vec![one.receive(from)?])
            }
            _ => thread::scope(|scope| {
                let sender = scope.spawn(|| send_all(to, held, requests));
                let replies = requests.iter().map(|request| request.receive(from));
                let replies: io::Result<Vec<Reply>> = replies.collect();
                let sent = sender.join();
                sent.map_err(|_| trouble("the sender stopped".to_string()))??;
                replies
            }),
        }
    }

    /// Ends a driver that broke off, and tells how it ended.
    fn lost(&mut self, error: io::Error) -> io::Error {
        self.requests.take();
        match self.child.wait() {
            Ok(status) if !status.success() => trouble(format!("the driver broke off ({status})")),
            _ => error,
        }
    }
}

/// Sends requests, each table once where it comes several times in a row.
fn send_all(to: &mut impl Write, held: &mut Vec<u8>, requests: &[Request]) -> io::Result<()> {
    for request in requests {
        let same = *held == request.table;
        request.send(to, same)?;
        if !same {
            held.clone_from(&request.table);
        }
    }
    to.flush()
}

impl Drop for Driver {
    fn drop(&mut self) {
        // the end of its input ends the driver
        self.requests.take();
        let _ = self.child.wait();
    }
}
