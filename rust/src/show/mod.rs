//! Requests, answers and files as a person reads them.

mod draft;

pub use draft::{draft, state, story};

use crate::case::{Content, Draft};
use crate::pipe::{Answer, Body, Request};
use crate::refusal::Refusal;

/// Longer lists are cut: whoever needs them whole runs the same seed again.
const LONGEST: usize = 16_384;

pub fn hex(bytes: &[u8]) -> String {
    let shown = &bytes[..bytes.len().min(LONGEST)];
    let mut out = String::new();
    for line in shown.chunks(32) {
        let pairs: Vec<String> = line.iter().map(|byte| format!("{byte:02x}")).collect();
        out += &format!("    {}\n", pairs.join(""));
    }
    out + &more(bytes.len())
}

/// Says how much of a list is not shown.
fn more(length: usize) -> String {
    match length.checked_sub(LONGEST + 1) {
        Some(_) => format!("    ... {length} in all\n"),
        None => String::new(),
    }
}

fn words<T: ToString>(list: &[T]) -> String {
    let shown = list.iter().take(LONGEST).map(T::to_string).collect::<Vec<_>>();
    shown.join(" ") + &more(list.len())
}

/// A case file: its lists where they can be told apart, and its bytes.
pub fn file(bytes: &[u8]) -> String {
    let lists = match Draft::skim(bytes) {
        Ok(lists) => draft(&lists),
        Err(refusal) => format!("  the sections cannot be told apart: rule {}\n", refusal.number),
    };
    format!("{lists}  the file's {} bytes:\n{}", bytes.len(), hex(bytes))
}

/// A request in words, and its frame; of a check, a find and a salvage the file alone, since their lists are noise, and of a time the costs too.
pub fn request(request: &Request) -> String {
    match request {
        Request::Check { interruptions, file: bytes, numbers } => {
            format!("check, {interruptions} interruptions, {} numbers lent\n{}", numbers.len(), file(bytes))
        }
        Request::Write { content, out } => format!("write, {} bytes lent\n{}", out.len(), lists(content)),
        Request::Find { file: bytes, scope, block, rows } => {
            format!("find, scope {scope}, block {block}, {} numbers lent\n{}", rows.len(), file(bytes))
        }
        Request::Salvage { file: bytes, out, dropped } => {
            format!("salvage, {} bytes and {} numbers lent\n{}", out.len(), dropped.len(), file(bytes))
        }
        Request::Time { interruptions, penalty, file: bytes, costs: list } => {
            format!("time, {interruptions} interruptions, {}\n{}", costs(list, *penalty), file(bytes))
        }
        other => format!("{}\n  the frame:\n{}", arguments(other), hex(&other.encode())),
    }
}

pub fn costs(list: &[u32], penalty: u32) -> String {
    format!("penalty {penalty}, {} costs: {}", list.len(), words(list))
}

/// A content: its lists as records where they are whole, and as they were handed.
fn lists(content: &Content) -> String {
    let Content { version, policy, ways, sets, nodes, edges, loops, heads, rows } = content;
    let records = match content.draft() {
        Some(lists) => draft(&lists),
        None => "  the lists are no whole records\n".to_string(),
    };
    let numbers = [words(nodes), words(edges), words(loops), words(heads), words(rows)].join("\n    ");
    format!("{records}  the lists, version {version}, policy {policy}, {ways} ways, {sets} sets:\n    {numbers}\n")
}

fn arguments(request: &Request) -> String {
    match request {
        Request::Step { policy, ways, state: before, block } => {
            format!("single step: policy {policy}, {ways} ways, block {block}, {}", state(before))
        }
        Request::Trace { policy, ways, sets, blocks, marks } => {
            let machine = format!("policy {policy}, {ways} ways, {sets} sets");
            let accesses = format!("{} accesses: {}", blocks.len(), words(blocks));
            format!("trace run: {machine}\n  {accesses}\n  {} marks: {}", marks.len(), words(marks))
        }
        Request::Ways { sets, blocks } => {
            format!("all ways: {sets} sets\n  {} accesses: {}", blocks.len(), words(blocks))
        }
        other => format!("{other:?}"),
    }
}

pub fn verdict(refusal: Option<Refusal>) -> String {
    match refusal {
        Some(Refusal { number, place, second }) => format!("refused {number} {place} {second}"),
        None => "not refused".to_string(),
    }
}

/// The first place where two lists differ.
fn first_difference<T: PartialEq + std::fmt::Display>(own: &[T], other: &[T]) -> String {
    match own.iter().zip(other).enumerate().find(|(_, (one, two))| one != two) {
        Some((i, (one, two))) => format!("memory differs first at {i}: second simulator {one}, pipe {two}"),
        None => "memory agrees".to_string(),
    }
}

fn memory(own: &Body, other: &Body) -> String {
    match (own, other) {
        (Body::Trace { misses, marks }, Body::Trace { misses: others, marks: other_marks }) => {
            format!("misses: second simulator {misses}, pipe {others}; {}", first_difference(marks, other_marks))
        }
        (Body::Check { numbers }, Body::Check { numbers: others }) => first_difference(numbers, others),
        (Body::Write { length, out }, Body::Write { length: other, out: others }) => {
            format!("length: second simulator {length}, pipe {other}; {}", first_difference(out, others))
        }
        (Body::Find { limit, rows }, Body::Find { limit: other, rows: others }) => {
            format!("limit: second simulator {limit}, pipe {other}; {}", first_difference(rows, others))
        }
        (
            Body::Salvage { length, count, out, dropped },
            Body::Salvage { length: other_length, count: other_count, out: other_out, dropped: others },
        ) => {
            let lengths =
                format!("length: second simulator {length}, pipe {other_length}; {}", first_difference(out, other_out));
            format!(
                "{lengths}\n  dropped: second simulator {count}, pipe {other_count}; {}",
                first_difference(dropped, others)
            )
        }
        _ => format!("second simulator {own:?}\n  pipe             {other:?}"),
    }
}

/// A request on which the two answers differ.
pub fn difference(asked: &Request, own: &Answer, other: &Answer) -> String {
    let verdicts =
        format!("  second simulator: {}\n  pipe:             {}", verdict(own.refusal), verdict(other.refusal));
    format!("{}{verdicts}\n  {}", request(asked), memory(&own.body, &other.body))
}
