//! What the proved programs say of a file: the lines of `./run`, and the areas
//! that the static library leaves (`areas_main.rs`).

use std::env;
use std::io::{self, Read, Write};
use std::path::{Path, PathBuf};
use std::process::{Command, Stdio};
use std::thread;

/// Where the programs lie.
pub struct Home {
    pub run: PathBuf,
    pub areas: PathBuf,
}

impl Home {
    /// By the place of this program, model/bin/steps.
    pub fn found() -> Result<Home, String> {
        let own = env::current_exe().map_err(|why| format!("where is this program? {why}"))?;
        let root = own.ancestors().nth(3).map(Path::to_path_buf);
        let root = root.ok_or("this program does not lie in model/bin")?;
        Ok(Home::at(&root))
    }

    pub fn at(root: &Path) -> Home {
        Home {
            run: root.join("run"),
            areas: root.join("model/bin/areas"),
        }
    }
}

/// What the run program answers to a record.
#[derive(Clone, Copy, Debug, PartialEq, Eq)]
pub struct Reply {
    pub refusal: u32,
    pub value: u32,
    pub count: u32,
}

/// A whole run: a reply for each record, the opening first.
pub struct Run {
    pub replies: Vec<Reply>,
    /// The total of words moved (document 02, L6), where the run tells it.
    pub words: Option<u64>,
}

impl Run {
    /// The number of the last line.
    pub fn last(&self) -> usize {
        self.replies.len() - 1
    }

    pub fn is_opened(&self) -> bool {
        self.replies[0].refusal == 0
    }
}

/// Runs a file by the proved program.
pub fn run(home: &Home, file: &[u8]) -> Result<Run, String> {
    let printed = ask(&home.run, file)?;
    let text = String::from_utf8_lossy(&printed);
    parse(&text).ok_or_else(|| format!("{} printed no lines of a run", home.run.display()))
}

/// The areas after a row of records, all of which are run by the library.
pub fn areas(home: &Home, records: &[u8]) -> Result<Vec<u8>, String> {
    ask(&home.areas, records)
}

/// What a program prints for some bytes on its standard input. What it says on
/// standard error is the user's to read.
fn ask(program: &Path, bytes: &[u8]) -> Result<Vec<u8>, String> {
    let name = program.display();
    let mut command = Command::new(program);
    command.stdin(Stdio::piped()).stdout(Stdio::piped());
    let mut child = command
        .spawn()
        .map_err(|why| format!("{name} cannot be started: {why}"))?;
    let (input, output) = (child.stdin.take(), child.stdout.take());
    let mut printed = Vec::new();
    let read = thread::scope(|scope| {
        // The program may stop reading, after refusal 2 it does: the pipe is
        // broken then, and that is no error.
        scope.spawn(|| input.map(|mut pipe| pipe.write_all(bytes)));
        output.map_or(Ok(0), |mut pipe| pipe.read_to_end(&mut printed))
    });
    let status = child.wait();
    match (read, status) {
        (Ok(_), Ok(status)) if status.success() => Ok(printed),
        (Err(why), _) | (_, Err(why)) => Err(broken_off(program, why)),
        (_, Ok(status)) => Err(format!("{name} could not do its work: {status}")),
    }
}

fn broken_off(program: &Path, why: io::Error) -> String {
    format!("what {} prints could not be read: {why}", program.display())
}

/// Lines of four numbers, record numbers from 0 on; then, in a run that did not
/// stop, `words` and their total.
pub fn parse(text: &str) -> Option<Run> {
    let mut run = Run {
        replies: Vec::new(),
        words: None,
    };
    for line in text.lines() {
        if run.words.is_some() {
            return None;
        }
        match line.strip_prefix("words ") {
            Some(total) => run.words = Some(total.parse().ok()?),
            None => run.replies.push(reply(line, run.replies.len())?),
        }
    }
    (!run.replies.is_empty()).then_some(run)
}

fn reply(line: &str, number: usize) -> Option<Reply> {
    let mut numbers = line.split(' ').map(|word| word.parse::<u32>().ok());
    let mut next = || numbers.next().flatten();
    let (at, refusal, value, count) = (next()?, next()?, next()?, next()?);
    let whole = at as usize == number && numbers.next().is_none();
    whole.then_some(Reply {
        refusal,
        value,
        count,
    })
}
