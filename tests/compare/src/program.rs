//! Running a program: input goes in by one thread while output comes out by another.

use std::io::{Read, Write};
use std::process::{Command, Stdio};

/// A command with its arguments, as on a command line.
pub struct Program(Vec<String>);

impl Program {
    pub fn new(command: &str) -> Program {
        Program(command.split_whitespace().map(String::from).collect())
    }

    /// What the program writes on standard output for an input; where it is killed that is said behind it, so that it shows
    /// as a difference at the request that did it. An error if it can't run.
    pub fn run(&self, input: &[u8]) -> Result<Vec<u8>, String> {
        let failed = |error: std::io::Error| format!("{}: {error}", self.0.join(" "));
        let (name, arguments) = self.0.split_first().ok_or("no program is named")?;
        let mut command = Command::new(name);
        command.args(arguments).stdin(Stdio::piped()).stdout(Stdio::piped());
        let mut child = command.spawn().map_err(failed)?;
        let (mut to, mut from) = (child.stdin.take().unwrap(), child.stdout.take().unwrap());
        let output = std::thread::scope(|scope| {
            // A program that stops reading early is judged by what it wrote.
            scope.spawn(move || to.write_all(input).ok());
            let mut output = Vec::new();
            from.read_to_end(&mut output).map(|_| output)
        });
        let mut output = output.map_err(failed)?;
        let status = child.wait().map_err(failed)?;
        // An exit status is not part of any answer, but a signal is a crash.
        if status.code().is_none() {
            output.extend(format!("{status}\n").bytes());
        }
        Ok(output)
    }
}
