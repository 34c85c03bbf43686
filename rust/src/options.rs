//! The command line.

use second::compare::Settings;
use second::pipe::Pipe;

pub const USAGE: &str = "\
usage: compare [OPTION..] PART.. [-- PROGRAM [ARGUMENT..]]

Compares the proved operations, over `pipe`, and the programs `bounds` and `bounds0` with the second simulator. Ends with 0 if all agree, with 1 at the first difference.

parts:
  caches      trace runs, single steps, addresses, set numbers
  frames      frames that cannot be answered
  files       case files, sound and damaged: verdicts, places, and bounds for any number of interruptions
  writes      contents, sound and damaged: the files that are written, and refusals
  bounds      what the programs `bounds` and `bounds0` print for case files, sound, damaged and too long
  evidence    evidence exists exactly when it should
  finds       facts that are found in graphs without them: limits and rows, and refusals
  salvages    files with several bad facts, cut ones and strays: what is left of them, what is dropped, and refusals
  ways        all ways in one pass: the eight counts beside eight trace runs, and refusals
  times       times of files for costs and penalties, sound and damaged, and refusals; no walk takes longer, and some take as long
  walks       no walk through an accepted file, interrupted at most p times, misses more than its bounds for p say
  must-break  wrong bounds and times, each with a file, a walk and a content that exceed it, and wrong salvages (`pipe` may be left out)
  search      looks for such files anew, with random walks (needs no `pipe`)
  all         all of these but search
In each part but search every file that passes the layout rules is also taken apart, and the writer must make the same bytes of its lists again.

options:
  --pipe 'PROGRAM ARGUMENT..'  how to start `pipe`; or give it behind --
  --bounds 'PROGRAM ARGUMENT..'  how to start `bounds`
  --bounds0 'PROGRAM ARGUMENT..'  how to start `bounds0`
  --library 'PROGRAM ARGUMENT..'  how to start a program that writes the content of its input again by the library, as `bench_write again` does: for files
                that `pipe` has no room for; without it these go by the second simulator alone
  --seed N      (1)
  --accesses N  accesses for each policy, number of ways and of sets (200000)
  --steps N     single steps for each policy and number of ways (10000)
  --files N     case files (20000)
  --printed N   case files that `bounds` and `bounds0` are started on (2000)
  --graphs N    small graphs whose evidence is tried (600)
  --walked N    small files that are walked through, or searched (10000)
  --written N   contents that are written (10000)
  --searched N  small graphs that facts are found in (1000)
  --salvaged N  files that are salvaged (4000)
  --counted N   traces that are counted for all ways (2000)
  --timed N     files whose time is asked for (8000)
";

pub struct Options {
    pub settings: Settings,
    pub pipe: Option<Pipe>,
    pub bounds: Option<Pipe>,
    pub bounds0: Option<Pipe>,
    pub parts: Vec<String>,
}

pub fn read(arguments: impl Iterator<Item = String>) -> Result<Options, String> {
    let settings = Settings {
        seed: 1,
        accesses: 200_000,
        steps: 10_000,
        files: 20_000,
        printed: 2_000,
        graphs: 600,
        walked: 10_000,
        written: 10_000,
        searched: 1_000,
        salvaged: 4_000,
        counted: 2_000,
        timed: 8_000,
        library: None,
    };
    let mut options = Options { settings, pipe: None, bounds: None, bounds0: None, parts: Vec::new() };
    let mut rest = arguments;
    while let Some(word) = rest.next() {
        match word.as_str() {
            "--" => options.pipe = start(rest.by_ref().collect()),
            "--pipe" => options.pipe = start(words(&value(&mut rest, &word)?)),
            "--bounds" => options.bounds = start(words(&value(&mut rest, &word)?)),
            "--bounds0" => options.bounds0 = start(words(&value(&mut rest, &word)?)),
            "--library" => options.settings.library = start(words(&value(&mut rest, &word)?)),
            _ if word.starts_with("--") => options.set(&word, &value(&mut rest, &word)?)?,
            _ => options.parts.push(word),
        }
    }
    Ok(options)
}

fn words(command: &str) -> Vec<String> {
    command.split_whitespace().map(str::to_string).collect()
}

fn start(words: Vec<String>) -> Option<Pipe> {
    (!words.is_empty()).then(|| Pipe::new(words))
}

fn value(rest: &mut impl Iterator<Item = String>, option: &str) -> Result<String, String> {
    rest.next().ok_or(format!("{option} lacks its value"))
}

impl Options {
    fn set(&mut self, option: &str, value: &str) -> Result<(), String> {
        let number: usize = value.parse().map_err(|_| format!("{option} takes a number, not {value}"))?;
        match option {
            "--seed" => self.settings.seed = number as u64,
            "--accesses" => self.settings.accesses = number,
            "--steps" => self.settings.steps = number,
            "--files" => self.settings.files = number,
            "--printed" => self.settings.printed = number,
            "--graphs" => self.settings.graphs = number,
            "--walked" => self.settings.walked = number,
            "--written" => self.settings.written = number,
            "--searched" => self.settings.searched = number,
            "--salvaged" => self.settings.salvaged = number,
            "--counted" => self.settings.counted = number,
            "--timed" => self.settings.timed = number,
            _ => return Err(format!("no option {option}")),
        }
        Ok(())
    }
}
