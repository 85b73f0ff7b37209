//! Talking with a program that answers lines, one by one.

use std::io::{self, BufRead, BufReader, Write};
use std::process::{Child, ChildStdin, Command, Stdio};
use std::sync::mpsc::{channel, Receiver, RecvTimeoutError};
use std::thread;
use std::time::Duration;

/// How long an answer may take.
const PATIENCE: Duration = Duration::from_secs(20);

pub trait Talk {
    /// A line that is not answered.
    fn tell(&mut self, line: &str) -> Result<(), String>;

    fn ask(&mut self, line: &str) -> Result<String, String>;

    /// Nothing more is said; it must have said all.
    fn ends(&mut self) -> Result<(), String> {
        Ok(())
    }
}

/// What was said since the last `start`.
pub struct Talked {
    talk: Box<dyn Talk>,
    /// Answers stand as remarks, so that all of it can be said again.
    lines: Vec<String>,
}

impl Talked {
    pub fn with(talk: Box<dyn Talk>) -> Self {
        Talked {
            talk,
            lines: Vec::new(),
        }
    }

    pub fn start(&mut self) -> Result<(), String> {
        self.lines.clear();
        self.tell("start")
    }

    pub fn tell(&mut self, line: &str) -> Result<(), String> {
        self.lines.push(line.to_string());
        self.talk.tell(line)
    }

    pub fn ask(&mut self, line: &str) -> Result<String, String> {
        self.lines.push(line.to_string());
        let said = self.talk.ask(line)?;
        self.lines.push(format!("# {said}"));
        Ok(said)
    }

    pub fn ends(&mut self) -> Result<(), String> {
        self.talk.ends()
    }

    pub fn lines(&self) -> &[String] {
        &self.lines
    }
}

/// A program that was started for this. It is stopped when it is no longer talked with.
pub struct Program {
    child: Child,
    input: Option<ChildStdin>,
    answers: Receiver<io::Result<String>>,
    patience: Duration,
}

impl Program {
    pub fn started(command: &str, arguments: &[&str]) -> io::Result<Self> {
        let mut child = Command::new(command)
            .args(arguments)
            .stdin(Stdio::piped())
            .stdout(Stdio::piped())
            .spawn()?;
        let input = child.stdin.take();
        let output = child.stdout.take();
        let (sender, answers) = channel();
        // It ends with the program's output, or once nobody hears it.
        thread::spawn(move || {
            for line in output
                .into_iter()
                .flat_map(|output| BufReader::new(output).lines())
            {
                if sender.send(line).is_err() {
                    return;
                }
            }
        });
        Ok(Program {
            child,
            input,
            answers,
            patience: PATIENCE,
        })
    }

    /// Every answer is waited for no longer than this.
    pub fn waited_for(mut self, patience: Duration) -> Self {
        self.patience = patience;
        self
    }

    /// `None` where its output has ended.
    fn heard(&mut self) -> Result<Option<String>, String> {
        match self.answers.recv_timeout(self.patience) {
            Ok(Ok(line)) => Ok(Some(line)),
            Ok(Err(fault)) => Err(format!("its output cannot be read: {fault}")),
            Err(RecvTimeoutError::Disconnected) => Ok(None),
            Err(RecvTimeoutError::Timeout) => Err(format!(
                "it has been silent for {:?}; does it flush each line?",
                self.patience
            )),
        }
    }
}

impl Talk for Program {
    fn tell(&mut self, line: &str) -> Result<(), String> {
        let Some(input) = &mut self.input else {
            return Err("nothing more can be said".to_string());
        };
        let told = input.write_all(format!("{line}\n").as_bytes());
        told.map_err(|fault| format!("it no longer listens: {fault}"))
    }

    fn ask(&mut self, line: &str) -> Result<String, String> {
        self.tell(line)?;
        self.heard()?
            .ok_or_else(|| "it has ended before it answered".to_string())
    }

    fn ends(&mut self) -> Result<(), String> {
        self.input = None;
        if let Some(more) = self.heard()? {
            return Err(format!("it said more than it was asked: {more}"));
        }
        let status = self.child.wait().map_err(|fault| fault.to_string())?;
        if status.success() {
            Ok(())
        } else {
            Err(format!("it has ended with {status}"))
        }
    }
}

impl Drop for Program {
    /// Neither can fail in a way that matters any more.
    fn drop(&mut self) {
        let _ = self.child.kill();
        let _ = self.child.wait();
    }
}
