//! Runs a program on an input of bytes and tells how that ended.

use std::io::{Read, Write};
use std::process::{Child, Command, Stdio};
use std::sync::mpsc;
use std::time::{Duration, Instant};

pub struct Program<'a> {
    pub path: &'a str,
    /// How long a run may take.
    pub patience: Duration,
}

/// How a run ended.
#[derive(Debug, PartialEq)]
pub enum Outcome {
    /// What was printed, and the exit status; None where a signal ended the program.
    Ended(String, Option<i32>),
    Hung,
    Failed(String),
}

impl Program<'_> {
    /// Runs the program on these bytes. The input stays open until it has ended, so a program that waits for the end of
    /// input is found; with `ended` it is closed first.
    pub fn run(&self, bytes: &[u8], ended: bool) -> Outcome {
        let started = Command::new(self.path)
            .stdin(Stdio::piped())
            .stdout(Stdio::piped())
            .spawn();
        let mut child = match started {
            Ok(child) => child,
            Err(error) => return Outcome::Failed(format!("{}: {error}", self.path)),
        };
        let mut input = child.stdin.take().expect("a pipe");
        let bytes = bytes.to_vec();
        let (release, released) = mpsc::channel::<()>();
        let writer = std::thread::spawn(move || {
            // The program may end before it has read what it need not read; what is missing shows in what it prints.
            let _ = input.write_all(&bytes).and_then(|()| input.flush());
            if !ended {
                let _ = released.recv();
            }
        });
        let outcome = outcome(&mut child, self.patience);
        if !matches!(outcome, Outcome::Ended(..)) {
            let _ = child.kill();
            let _ = child.wait();
        }
        drop(release);
        let _ = writer.join();
        outcome
    }
}

/// Reads to the end of what the program prints, and then waits until it has ended.
fn outcome(child: &mut Child, patience: Duration) -> Outcome {
    let deadline = Instant::now() + patience;
    let mut output = child.stdout.take().expect("a pipe");
    let (sender, receiver) = mpsc::channel();
    std::thread::spawn(move || {
        let mut text = Vec::new();
        let result = output.read_to_end(&mut text);
        let _ = sender.send(result.map(|_| String::from_utf8_lossy(&text).into_owned()));
    });
    let printed = match receiver.recv_timeout(patience) {
        Ok(Ok(printed)) => printed,
        Ok(Err(error)) => return Outcome::Failed(error.to_string()),
        Err(_) => return Outcome::Hung,
    };
    while Instant::now() < deadline {
        match child.try_wait() {
            Ok(Some(status)) => return Outcome::Ended(printed, status.code()),
            Ok(None) => std::thread::sleep(Duration::from_micros(100)),
            Err(error) => return Outcome::Failed(error.to_string()),
        }
    }
    Outcome::Hung
}
