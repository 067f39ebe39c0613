//! A program that answers cases, at the other end of two pipes.

use crate::case::{Answer, Case};
use crate::wire::{read_answer, write_case};
use std::io::{self, BufReader, BufWriter, Write};
use std::process::{Child, ChildStdin, ChildStdout, Command, Stdio};

pub struct Peer {
    child: Child,
    to: BufWriter<ChildStdin>,
    from: BufReader<ChildStdout>,
}

/// The two answers to a case.
pub struct Answers {
    pub ours: Answer,
    pub theirs: Answer,
}

impl Peer {
    /// The command, word by word.
    pub fn start(command: &[String]) -> io::Result<Peer> {
        let (program, words) = command.split_first().ok_or(io::ErrorKind::InvalidInput)?;
        let mut child = Command::new(program)
            .args(words)
            .stdin(Stdio::piped())
            .stdout(Stdio::piped())
            .spawn()?;
        let to = child.stdin.take().ok_or(io::ErrorKind::BrokenPipe)?;
        let from = child.stdout.take().ok_or(io::ErrorKind::BrokenPipe)?;
        Ok(Peer {
            child,
            to: BufWriter::new(to),
            from: BufReader::new(from),
        })
    }

    /// Its answer, and ours, which is worked out while it works.
    pub fn ask(&mut self, case: &Case) -> io::Result<Answers> {
        write_case(&mut self.to, case)?;
        self.to.flush()?;
        let ours = case.answer();
        let theirs = read_answer(&mut self.from, case.room.len())?;
        Ok(Answers { ours, theirs })
    }
}

impl Drop for Peer {
    /// A peer is never left behind, whatever it does.
    fn drop(&mut self) {
        let _ = self.child.kill();
        let _ = self.child.wait();
    }
}
