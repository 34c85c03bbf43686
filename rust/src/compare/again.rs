//! "any file that passes them comes out again byte for byte when its content is written": every file that a comparison
//! makes is taken apart, and the proved writer must make the same bytes of its lists.

use super::Comparison;
use crate::case::{read_content, write, Content};
// What talks to `pipe` starts the program that calls the library as well.
use crate::pipe::{room, Pipe, Pipe as Program, Request};
use crate::show;

pub struct Again<'a> {
    over_pipe: Comparison<'a>,
    library: Option<&'a Program>,
    files: u64,
    /// Files that `pipe` has no room for.
    by_library: u64,
    by_second_alone: u64,
}

impl<'a> Again<'a> {
    /// Without the program that calls the library, files that `pipe` has no room for go by the second simulator alone.
    pub fn new(pipe: &'a Pipe, library: Option<&'a Program>) -> Again<'a> {
        Again { over_pipe: Comparison::new(pipe), library, files: 0, by_library: 0, by_second_alone: 0 }
    }

    /// A third of the lent lists is as long as the file, the others are longer.
    pub fn add(&mut self, file: &[u8]) -> Result<(), String> {
        self.files += 1;
        let Ok(content) = read_content(file) else { return Ok(()) };
        let mut out = vec![0; file.len()];
        if write(&content, &mut out) != Ok(file.len()) || out != file {
            return Err(differs("the second simulator", file));
        }
        let lent = file.len() + file.len() / 2 % 3;
        if fits(&content, lent) {
            return self.over_pipe.add(Request::Write { content, out: vec![165; lent] });
        }
        self.by_library(file)
    }

    fn by_library(&mut self, file: &[u8]) -> Result<(), String> {
        let Some(program) = self.library else {
            self.by_second_alone += 1;
            return Ok(());
        };
        let said = program.converse(file.to_vec())?;
        if said.bytes != file || !said.status.success() {
            return Err(differs("the library", file));
        }
        self.by_library += 1;
        Ok(())
    }

    /// Has what is still waiting written, and says how many files there were.
    pub fn finish(mut self) -> Result<(), String> {
        self.over_pipe.flush()?;
        let over_pipe = self.over_pipe.tally.get(6, 0).count;
        let Again { files, by_library, by_second_alone, .. } = self;
        let passed = over_pipe + by_library + by_second_alone;
        println!("files: {files}; {passed} pass the layout rules and came out again as the same bytes:");
        println!("  {over_pipe} over pipe; past its room {by_library} by the library, {by_second_alone} by the second simulator alone");
        if passed == 0 {
            return Err("no file came out again".to_string());
        }
        Ok(())
    }
}

/// "A write has at most 1,048,576 numbers in rows and at most 2,150,000 lent bytes".
pub fn fits(content: &Content, lent: usize) -> bool {
    content.rows.len() <= room::ROWS && lent <= room::OUT
}

fn differs(writer: &str, file: &[u8]) -> String {
    format!("the file does not come out again from {writer}\n{}", show::file(file))
}
