//! The program at the other end of the pipes: it reads cases and writes answers.

use crate::states::Seen;
use crate::wire::{Answer, Case, ANSWER, HEADER};
use std::fmt;
use std::io::{Read, Write};
use std::process::{Child, ChildStdin, ChildStdout, Command, Stdio};
use std::sync::mpsc::{channel, sync_channel, Receiver, RecvTimeoutError};
use std::thread;
use std::time::Duration;

/// A program that has not answered for so long is taken to hang: one case by
/// itself, or among many on their way.
const PATIENCE_ALONE: Duration = Duration::from_secs(20);
const PATIENCE: Duration = Duration::from_secs(120);

/// How many cases may be under way between the two.
const AHEAD: usize = 256;

/// A case with what this implementation answers to it.
pub struct Asked {
    pub number: u64,
    pub case: Case,
    pub expected: Answer,
    /// What it reached on the way.
    pub seen: Seen,
}

/// Why there is no answer.
#[derive(Clone, Debug, PartialEq, Eq)]
pub enum Silence {
    /// The program could not be started, or has ended.
    Ended(String),
    /// The program takes longer than it should.
    Hangs(Duration),
}

impl fmt::Display for Silence {
    fn fmt(&self, f: &mut fmt::Formatter<'_>) -> fmt::Result {
        match self {
            Silence::Ended(words) => write!(f, "{}", words),
            Silence::Hangs(time) => write!(f, "no answer came in {} s", time.as_secs()),
        }
    }
}

fn ended(words: &str) -> Silence {
    Silence::Ended(words.to_string())
}

/// A running program.
pub struct Partner {
    child: Child,
    input: Option<ChildStdin>,
    answers: Receiver<Answer>,
}

impl Partner {
    /// Starts the program, with a thread that collects its answers.
    pub fn start(command: &str) -> Result<Partner, Silence> {
        let started = command_of(command).stdin(Stdio::piped()).stdout(Stdio::piped()).spawn();
        let not = |error| Silence::Ended(format!("cannot start {:?}: {}", command, error));
        let mut child = started.map_err(not)?;
        let input = child.stdin.take();
        let output = child.stdout.take();
        let mut output = output.ok_or_else(|| ended("the program has no output"))?;
        let (sender, answers) = channel();
        thread::spawn(move || {
            // Ends with the program's output, or when nobody listens any more.
            while let Some(answer) = next_answer(&mut output) {
                if sender.send(answer).is_err() {
                    break;
                }
            }
        });
        Ok(Partner { child, input, answers })
    }

    /// Asks one case and waits for its answer.
    pub fn ask(&mut self, case: &Case) -> Result<Answer, Silence> {
        let input = self.input.as_mut();
        let input = input.ok_or_else(|| ended("the program's input is closed"))?;
        let not = |error| Silence::Ended(format!("the program takes no case: {}", error));
        input.write_all(&case.to_bytes()).map_err(not)?;
        self.answer(PATIENCE_ALONE)
    }

    fn answer(&self, patience: Duration) -> Result<Answer, Silence> {
        let answer = self.answers.recv_timeout(patience);
        answer.map_err(|error| match error {
            RecvTimeoutError::Timeout => Silence::Hangs(patience),
            RecvTimeoutError::Disconnected => ended("the program ended without an answer"),
        })
    }

    /// Sends cases without waiting and hands each with its answer to `compare`,
    /// in order. Ends after the last, when `compare` has seen enough, or with the
    /// case that got no answer.
    pub fn stream(
        &mut self,
        cases: impl Iterator<Item = Asked> + Send,
        mut compare: impl FnMut(Asked, Answer) -> bool,
    ) -> Result<(), (Box<Asked>, Silence)> {
        let input = self.input.take();
        let (sender, asked) = sync_channel(AHEAD);
        thread::scope(|scope| {
            scope.spawn(move || {
                let mut input = match input {
                    Some(input) => input,
                    None => return,
                };
                for case in cases {
                    // A program that has ended is noticed where its answer is
                    // missed, and there it is known for which case.
                    let _ = input.write_all(&case.case.to_bytes());
                    if sender.send(case).is_err() {
                        return;
                    }
                }
                let _ = input.write_all(&[0; HEADER]);
            });
            for case in asked {
                let stopped = match self.answer(PATIENCE) {
                    Ok(answer) => {
                        if compare(case, answer) {
                            continue;
                        }
                        Ok(())
                    }
                    Err(silence) => Err((Box::new(case), silence)),
                };
                // Lets the sending thread out of a full pipe.
                let _ = self.child.kill();
                return stopped;
            }
            Ok(())
        })
    }

    /// Waits for the program after its last case; it must have ended well and
    /// said nothing more.
    pub fn finish(mut self) -> Result<(), String> {
        self.input = None;
        match self.answers.recv_timeout(PATIENCE) {
            Ok(_) => return Err("the program wrote more answers than it got cases".to_string()),
            Err(RecvTimeoutError::Timeout) => {
                return Err("the program does not end after the last case".to_string())
            }
            Err(RecvTimeoutError::Disconnected) => {}
        }
        match self.child.wait() {
            Ok(status) if status.success() => Ok(()),
            Ok(status) => Err(format!("the program ended with {}", status)),
            Err(error) => Err(format!("the program cannot be waited for: {}", error)),
        }
    }
}

impl Drop for Partner {
    fn drop(&mut self) {
        self.input = None;
        let _ = self.child.kill();
        let _ = self.child.wait();
    }
}

/// A command of plain words is started as it stands, so that ending it ends the
/// program itself; anything else goes by way of the shell.
fn command_of(text: &str) -> Command {
    let plain = |character: char| character.is_alphanumeric() || " ./_-+,:@".contains(character);
    let mut words = text.split_whitespace();
    match words.next() {
        Some(program) if text.chars().all(plain) => {
            let mut command = Command::new(program);
            command.args(words);
            command
        }
        _ => {
            let mut command = Command::new("sh");
            command.arg("-c").arg(text);
            command
        }
    }
}

fn next_answer(output: &mut ChildStdout) -> Option<Answer> {
    let mut bytes = [0; ANSWER];
    output.read_exact(&mut bytes).ok()?;
    Some(Answer::from_bytes(&bytes))
}

/// Answers cases from a reader until they end, as a partner program does.
pub fn serve(
    mut input: impl Read,
    mut output: impl Write,
    mut answer: impl FnMut(&Case) -> Answer,
) -> Result<(), String> {
    loop {
        let mut header = [0; HEADER];
        if !read_header(&mut input, &mut header)? || header[0] == crate::wire::NO_MORE {
            return output.flush().map_err(|error| error.to_string());
        }
        let (_, file, inputs) = Case::from_header(&header)?;
        let mut bytes = header.to_vec();
        bytes.resize(HEADER + file + 4 * inputs, 0);
        let rest = input.read_exact(&mut bytes[HEADER..]);
        rest.map_err(|error| format!("a case ends early: {}", error))?;
        let answer = answer(&Case::from_bytes(&bytes)?);
        let written = output.write_all(&answer.to_bytes());
        written
            .and_then(|()| output.flush())
            .map_err(|error| format!("an answer cannot be written: {}", error))?;
    }
}

/// Fills the header, or says that the input ended before it began.
fn read_header(input: &mut impl Read, header: &mut [u8; HEADER]) -> Result<bool, String> {
    let mut filled = 0;
    while filled < HEADER {
        match input.read(&mut header[filled..]) {
            Ok(0) if filled == 0 => return Ok(false),
            Ok(0) => return Err("a header ends early".to_string()),
            Ok(more) => filled += more,
            Err(error) => return Err(format!("the input cannot be read: {}", error)),
        }
    }
    Ok(true)
}
