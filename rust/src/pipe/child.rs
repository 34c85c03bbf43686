//! A conversation with `pipe`: a child process gets all frames, its input is closed, and its answers are read to the end.
//! So nothing here depends on when `pipe` writes out what it has answered.

use super::{Answer, Ending, Request};
use crate::show;
use std::io::{Read, Write};
use std::process::{Child, Command, ExitStatus, Stdio};
use std::thread;

pub struct Pipe {
    words: Vec<String>,
}

/// What came back, and how the child ended.
pub struct Said {
    pub bytes: Vec<u8>,
    pub status: ExitStatus,
}

impl Pipe {
    /// The command that starts `pipe`: a program and its arguments.
    pub fn new(words: Vec<String>) -> Pipe {
        Pipe { words }
    }

    fn start(&self) -> Result<Child, String> {
        let mut command = Command::new(&self.words[0]);
        command.args(&self.words[1..]).stdin(Stdio::piped()).stdout(Stdio::piped());
        command.spawn().map_err(|error| format!("cannot start {:?}: {error}", self.words))
    }

    /// Sends the bytes and returns what comes back. A thread writes, so that neither side waits for the other. `pipe` may
    /// stop reading before the end ("after it nothing more is read"), so a write that fails is no error here.
    pub fn converse(&self, bytes: Vec<u8>) -> Result<Said, String> {
        let mut child = self.start()?;
        let mut input = child.stdin.take().expect("the child's input is a pipe");
        let writer = thread::spawn(move || input.write_all(&bytes).is_ok());
        let mut bytes = Vec::new();
        let mut output = child.stdout.take().expect("the child's output is a pipe");
        output.read_to_end(&mut bytes).map_err(|error| format!("cannot read from {:?}: {error}", self.words))?;
        writer.join().map_err(|_| "the writing thread failed".to_string())?;
        let status = child.wait().map_err(|error| format!("cannot wait for {:?}: {error}", self.words))?;
        Ok(Said { bytes, status })
    }

    /// Asks all requests in one conversation; each must be answered, and nothing else may be said.
    pub fn ask(&self, requests: &[Request]) -> Result<Vec<Answer>, String> {
        let said = self.converse(requests.iter().flat_map(Request::encode).collect())?;
        let mut rest = &said.bytes[..];
        let mut answers = Vec::with_capacity(requests.len());
        for (place, request) in requests.iter().enumerate() {
            match Answer::take(&mut rest, request) {
                Some(answer) => answers.push(answer),
                None => return Err(unanswered(place, request, rest, said.status)),
            }
        }
        if !rest.is_empty() || !said.status.success() {
            return Err(format!("after {} answers: {} and\n{}", answers.len(), said.status, show::hex(rest)));
        }
        Ok(answers)
    }
}

fn unanswered(place: usize, request: &Request, mut rest: &[u8], status: ExitStatus) -> String {
    let instead = match Ending::take(&mut rest) {
        Some(ending) => format!("{ending:?}"),
        None => format!("{} bytes that are no answer to it\n{}", rest.len(), show::hex(rest)),
    };
    format!(
        "request {place} of the conversation was not answered; {status}; instead came {instead}\n{}",
        show::request(request)
    )
}
