//! One side of the comparison: a program that answers one line to each command line.

use std::io::{self, BufRead, BufReader, Write};
use std::process::{Child, ChildStdout, Command, Stdio};
use std::sync::mpsc::{Sender, channel};
use std::thread;

pub struct Side {
    pub name: String,
    child: Child,
    commands: Option<Sender<String>>,
    answers: BufReader<ChildStdout>,
}

impl Side {
    pub fn start(program: &str) -> io::Result<Self> {
        let mut child =
            Command::new(program).stdin(Stdio::piped()).stdout(Stdio::piped()).spawn()?;
        let mut stdin = child.stdin.take().unwrap();
        let answers = BufReader::with_capacity(1 << 20, child.stdout.take().unwrap());
        let (commands, batches) = channel::<String>();
        // Written by a thread of its own: a pipe holds less than a batch and its answers.
        thread::spawn(move || {
            for batch in batches {
                if stdin.write_all(batch.as_bytes()).and_then(|()| stdin.flush()).is_err() {
                    return;
                }
            }
        });
        Ok(Self { name: program.into(), child, commands: Some(commands), answers })
    }

    pub fn send(&mut self, batch: String) {
        let _ = self.commands.as_ref().unwrap().send(batch);
    }

    /// The answers to `lines`, which were sent before.
    pub fn read(&mut self, lines: &[String]) -> Vec<String> {
        let mut answers = Vec::with_capacity(lines.len());
        for line in lines {
            let mut answer = String::new();
            match self.answers.read_line(&mut answer) {
                Ok(length) if length > 0 => answers.push(answer.trim_end().to_string()),
                _ => {
                    eprintln!("{} ended at: {line}", self.name);
                    eprintln!("{:?}", self.child.wait());
                    std::process::exit(2);
                }
            }
        }
        answers
    }

    pub fn ask(&mut self, lines: &[String]) -> Vec<String> {
        self.send(batch(lines));
        self.read(lines)
    }

    pub fn finish(mut self) {
        self.commands = None;
        let _ = self.child.wait();
    }
}

pub fn batch(lines: &[String]) -> String {
    let mut text = String::with_capacity(lines.iter().map(|l| l.len() + 1).sum());
    for line in lines {
        text.push_str(line);
        text.push('\n');
    }
    text
}
