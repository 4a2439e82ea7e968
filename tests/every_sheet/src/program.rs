//! The program weekplan: a sheet on its standard input, a text on its standard output.

use std::io::{Error, ErrorKind, Result, Write};
use std::path::PathBuf;
use std::process::{Command, Stdio};

pub struct Program(PathBuf);

impl Program {
    /// The program in this file; none if there is no such file.
    pub fn at(path: PathBuf) -> Option<Program> {
        path.is_file().then_some(Program(path))
    }

    /// All that it writes for this sheet. A sheet is less than a pipe holds, and so is a text, so that neither side waits
    /// for the other.
    pub fn text(&self, sheet: &[u8]) -> Result<Vec<u8>> {
        let mut program = Command::new(&self.0)
            .stdin(Stdio::piped())
            .stdout(Stdio::piped())
            .spawn()?;
        let mut input = program.stdin.take().expect("a pipe");
        match input.write_all(sheet) {
            // A sheet above 4,096 bytes need not be read to its end.
            Err(error) if error.kind() == ErrorKind::BrokenPipe => {}
            written => written?,
        }
        drop(input);
        let output = program.wait_with_output()?;
        match output.status.code() {
            Some(_) => Ok(output.stdout),
            None => Err(Error::other(output.status.to_string())),
        }
    }
}
