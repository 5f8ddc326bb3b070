//! One run of a program: bytes into its standard input, what it prints out of
//! its standard output, and how it ended. Nothing that the program does makes
//! the caller stop or wait for ever.

use std::fs::File;
use std::io::{self, Read, Write};
use std::path::Path;
use std::process::{Child, ChildStdin, ChildStdout, Command, Stdio};
use std::sync::mpsc::{self, Receiver};
use std::thread;
use std::time::{Duration, Instant};

const PAUSE: Duration = Duration::from_millis(5);

/// What the program finds on its standard input.
pub enum Input<'a> {
    File(&'a Path),
    /// A pipe into which the bytes go so many at a time (at least one).
    Pipe {
        bytes: &'a [u8],
        piece: usize,
    },
}

/// What the caller is ready to take.
#[derive(Clone, Copy)]
pub struct Limits {
    pub output: usize,
    pub time: Duration,
}

pub struct Ran {
    pub output: Vec<u8>,
    pub ending: Ending,
}

#[derive(Debug, PartialEq, Eq)]
pub enum Ending {
    Well,
    /// It could not be started or fed.
    NotStarted(String),
    /// With a status that is not 0, or by a signal.
    Badly(String),
    NotInTime(Duration),
    /// It printed more than the caller takes.
    TooMuch(usize),
}

impl Ending {
    /// What is wrong with it, in words.
    pub fn wrong(&self) -> Option<String> {
        match self {
            Ending::Well => None,
            Ending::NotStarted(why) => Some(format!("the program cannot be started: {why}")),
            Ending::Badly(how) => Some(format!("the program ended with {how}")),
            Ending::NotInTime(time) => {
                let seconds = time.as_secs();
                Some(format!("the program did not end within {seconds} s"))
            }
            Ending::TooMuch(bytes) => Some(format!("the program printed over {bytes} bytes")),
        }
    }

    /// Whether another run is likely to be a waste of time.
    pub fn is_hopeless(&self) -> bool {
        matches!(self, Ending::NotStarted(_) | Ending::NotInTime(_))
    }
}

/// Runs the program without arguments. Its standard error is not kept.
pub fn run(program: &Path, input: Input, limits: Limits) -> Ran {
    match start(program, &input) {
        Ok(child) => finish(child, input, limits),
        Err(why) => Ran {
            output: Vec::new(),
            ending: Ending::NotStarted(why.to_string()),
        },
    }
}

fn start(program: &Path, input: &Input) -> io::Result<Child> {
    let stdin = match input {
        Input::File(path) => Stdio::from(File::open(path)?),
        Input::Pipe { .. } => Stdio::piped(),
    };
    let mut command = Command::new(program);
    command.stdin(stdin).stdout(Stdio::piped());
    command.stderr(Stdio::null()).spawn()
}

fn finish(mut child: Child, input: Input, limits: Limits) -> Ran {
    let deadline = Instant::now() + limits.time;
    if let (Some(pipe), Input::Pipe { bytes, piece }) = (child.stdin.take(), input) {
        feed(pipe, bytes.to_vec(), piece);
    }
    let told = child.stdout.take().map(|pipe| listen(pipe, limits.output));
    let output = told.and_then(|told| told.recv_timeout(limits.time).ok());
    let ending = match &output {
        None => Ending::NotInTime(limits.time),
        Some(bytes) if bytes.len() > limits.output => Ending::TooMuch(limits.output),
        Some(_) => wait(&mut child, deadline, limits.time),
    };
    end(&mut child);
    Ran {
        output: output.unwrap_or_default(),
        ending,
    }
}

/// Writes in a thread of its own, so that the program may print at the same
/// time. It may also stop reading (after refusal 2 or 16 it should): then the
/// pipe is broken, and that is no error. After the first piece of several
/// there is a pause, in which the program meets a pipe with nothing in it.
fn feed(mut pipe: ChildStdin, bytes: Vec<u8>, piece: usize) {
    thread::spawn(move || {
        for (number, part) in bytes.chunks(piece).enumerate() {
            if number == 1 {
                thread::sleep(PAUSE);
            }
            if pipe.write_all(part).is_err() {
                return;
            }
        }
    });
}

/// Reads in a thread of its own, up to one byte more than the caller takes.
fn listen(pipe: ChildStdout, most: usize) -> Receiver<Vec<u8>> {
    let (tell, told) = mpsc::channel();
    thread::spawn(move || {
        let mut output = Vec::new();
        // A read that fails ends the output; the comparison will show it.
        let _ = pipe.take(most as u64 + 1).read_to_end(&mut output);
        tell.send(output)
    });
    told
}

/// Waits for the end of a program that has closed its standard output.
fn wait(child: &mut Child, deadline: Instant, time: Duration) -> Ending {
    loop {
        match child.try_wait() {
            Ok(Some(status)) if status.success() => return Ending::Well,
            Ok(Some(status)) => return Ending::Badly(status.to_string()),
            Err(why) => return Ending::Badly(why.to_string()),
            Ok(None) if Instant::now() > deadline => return Ending::NotInTime(time),
            Ok(None) => thread::sleep(Duration::from_micros(100)),
        }
    }
}

/// Ends the child if it still runs, and takes its status, so that none is
/// left behind.
fn end(child: &mut Child) {
    if let Ok(None) = child.try_wait() {
        let _ = child.kill();
        let _ = child.wait();
    }
}
