//! A program at the end of two pipes. One thread writes to it and one reads from it, so that neither the program nor the
//! test can wait for the other for ever.

use std::io::{Read, Result, Write};
use std::process::{Child, ChildStdin, ChildStdout, Command, Stdio};
use std::sync::mpsc::{channel, Receiver, RecvTimeoutError, Sender};
use std::thread;
use std::time::{Duration, Instant};

/// How a program is started: its path, its arguments, and how long an answer may take.
#[derive(Clone)]
pub struct Start {
    pub path: std::path::PathBuf,
    pub arguments: Vec<String>,
    pub patience: Duration,
}

pub struct Program {
    child: Child,
    input: Option<Sender<Vec<u8>>>,
    output: Receiver<Vec<u8>>,
    patience: Duration,
}

/// What comes next from a program.
pub enum Heard {
    Bytes(Vec<u8>),
    End,
    /// Nothing, for as long as an answer may take.
    Silence,
}

impl Start {
    pub fn program(&self) -> Result<Program> {
        let mut child = Command::new(&self.path)
            .args(&self.arguments)
            .stdin(Stdio::piped())
            .stdout(Stdio::piped())
            .spawn()?;
        let (input, pieces) = channel();
        let (chunks, output) = channel();
        let stdin = child.stdin.take().expect("a pipe");
        let stdout = child.stdout.take().expect("a pipe");
        thread::spawn(move || write_all(stdin, &pieces));
        thread::spawn(move || read_all(stdout, &chunks));
        Ok(Program {
            child,
            input: Some(input),
            output,
            patience: self.patience,
        })
    }
}

/// A piece that cannot be written is left: the program has ended, which is seen at its output.
fn write_all(mut stdin: ChildStdin, pieces: &Receiver<Vec<u8>>) {
    for piece in pieces {
        if stdin.write_all(&piece).is_err() {
            return;
        }
    }
}

fn read_all(mut stdout: ChildStdout, chunks: &Sender<Vec<u8>>) {
    let mut buffer = vec![0; 1 << 16];
    while let Ok(length @ 1..) = stdout.read(&mut buffer) {
        if chunks.send(buffer[..length].to_vec()).is_err() {
            return;
        }
    }
}

impl Program {
    /// Writes a piece of input as it stands.
    pub fn say(&mut self, piece: &[u8]) {
        if let Some(input) = &self.input {
            // It fails where the writing thread has ended, and the program with it.
            let _ = input.send(piece.to_vec());
        }
    }

    /// The end of the input.
    pub fn say_no_more(&mut self) {
        self.input = None;
    }

    pub fn hear(&mut self) -> Heard {
        match self.output.recv_timeout(self.patience) {
            Ok(bytes) => Heard::Bytes(bytes),
            Err(RecvTimeoutError::Disconnected) => Heard::End,
            Err(RecvTimeoutError::Timeout) => Heard::Silence,
        }
    }

    /// Whether it ends by itself, and well, after the end of its input.
    pub fn ends_well(&mut self) -> bool {
        let began = Instant::now();
        while began.elapsed() < self.patience {
            match self.child.try_wait() {
                Ok(Some(status)) => return status.success(),
                Ok(None) => thread::sleep(Duration::from_micros(200)),
                Err(_) => return false,
            }
        }
        false
    }
}

/// A program that is left before its end is stopped.
impl Drop for Program {
    fn drop(&mut self) {
        let _ = self.child.kill();
        let _ = self.child.wait();
    }
}
