//! Frames that cannot be answered: "A frame that cannot be answered ends the conversation."

use super::Settings;
use crate::case::Content;
use crate::machine::SetState;
use crate::pipe::{room, Answer, Ending, Pipe, Request};
use crate::random::Random;
use crate::second;
use crate::show;

const NO_OPERATION: u8 = 1;
const CUT_SHORT: u8 = 2;
const TOO_LARGE: u8 = 3;

/// What stands before the lengths of a frame, and how many bytes these are.
const HEADS: [(&[u8], usize); 7] = [
    (&[4, 0, 1, 1], 8),
    (&[5, 0, 0], 8),
    (&[6, 1, 0, 1, 1], 24),
    (&[7, 0, 0, 0, 0], 8),
    (&[8], 12),
    (&[9, 1], 4),
    (&[10, 0, 0, 0, 0, 0, 0], 8),
];

/// One small whole frame of each operation.
fn small_frames() -> Vec<Request> {
    vec![
        Request::Step {
            policy: 2,
            ways: 4,
            state: SetState { lines: [10, 11, 12, 13, 65_535, 65_535, 65_535, 65_535], bits: 9 },
            block: 20,
        },
        Request::Block { address: 4_000, line_size: 32 },
        Request::Set { block: 77, sets: 8 },
        Request::Trace { policy: 1, ways: 2, sets: 1, blocks: vec![1, 2, 3], marks: vec![7; 4] },
        Request::Check { interruptions: 258, file: vec![81, 77, 66, 84], numbers: vec![5] },
        Request::Write { content: content([1, 2, 3, 4, 8]), out: vec![7; 50] },
        Request::Find { file: vec![81, 77, 66, 84, 3], scope: 1, block: 700, rows: vec![5; 3] },
        Request::Salvage { file: vec![81, 77, 66, 84, 3], out: vec![7; 4], dropped: vec![5; 2] },
        Request::Ways { sets: 2, blocks: vec![1, 2, 1] },
        Request::Time { interruptions: 258, penalty: 70_000, file: vec![81, 77, 66, 84, 3], costs: vec![5; 3] },
    ]
}

/// Lists of so many numbers, all 0, but that version, policy, ways and sets are in range.
fn content([nodes, edges, loops, heads, rows]: [usize; 5]) -> Content {
    Content {
        version: 2,
        policy: 1,
        ways: 2,
        sets: 1,
        nodes: vec![0; nodes],
        edges: vec![0; edges],
        loops: vec![0; loops],
        heads: vec![0; heads],
        rows: vec![0; rows],
    }
}

pub fn run(pipe: &Pipe, settings: &Settings) -> Result<(), String> {
    let mut random = Random::for_part(settings.seed, "frames");
    let mut tried = [0; 4];
    converse(pipe, &[], &[], &[])?;
    for frame in small_frames() {
        let whole = frame.encode();
        for cut in 1..whole.len() {
            tried[usize::from(CUT_SHORT)] += 1;
            converse(pipe, &before(&mut random), &whole[..cut], &[CUT_SHORT])?;
        }
    }
    for operation in [0, 11, 12, 127, 128, 255] {
        // What follows would be a good frame, but "after it nothing more is read".
        let mut bytes = vec![operation];
        bytes.extend(small_frames()[1].encode());
        tried[usize::from(NO_OPERATION)] += 1;
        converse(pipe, &before(&mut random), &bytes, &[NO_OPERATION])?;
    }
    for (bytes, why) in too_large() {
        tried[usize::from(TOO_LARGE)] += 1;
        converse(pipe, &before(&mut random), &bytes, why)?;
    }
    println!(
        "frames that end the conversation: {} name no operation, {} are cut short, {} are too large",
        tried[1], tried[2], tried[3]
    );
    largest_frames(pipe)
}

/// Some frames that are answered before the bad one.
fn before(random: &mut Random) -> Vec<Request> {
    (0..random.below(4)).map(|_| random.pick(&small_frames())).collect()
}

/// Frames that are whole and too large; and headers alone that claim the most that can be claimed, which are cut short
/// as well, so that either reason is right.
fn too_large() -> Vec<(Vec<u8>, &'static [u8])> {
    let trace = |accesses, marks| Request::Trace {
        policy: 0,
        ways: 1,
        sets: 1,
        blocks: vec![0; accesses],
        marks: vec![0; marks],
    };
    let check = |file, numbers| Request::Check { interruptions: 0, file: vec![0; file], numbers: vec![0; numbers] };
    let write = |lists, out| Request::Write { content: content(lists), out: vec![0; out] };
    let find = |file, rows| Request::Find { file: vec![0; file], scope: 0, block: 0, rows: vec![0; rows] };
    let salvage =
        |file, out, dropped| Request::Salvage { file: vec![0; file], out: vec![0; out], dropped: vec![0; dropped] };
    let time = |file, costs| Request::Time { interruptions: 0, penalty: 0, file: vec![0; file], costs: vec![0; costs] };
    let whole = [
        trace(room::ACCESSES + 1, 0),
        trace(0, room::MARKS + 1),
        check(room::FILE + 1, 0),
        check(0, room::NUMBERS + 1),
        write([room::NODES + 1, 0, 0, 0, 0], 0),
        write([0, room::EDGES + 1, 0, 0, 0], 0),
        write([0, 0, room::LOOPS + 1, 0, 0], 0),
        write([0, 0, 0, room::HEADS + 1, 0], 0),
        write([0, 0, 0, 0, room::ROWS + 1], 0),
        write([0, 0, 0, 0, 0], room::OUT + 1),
        find(room::FILE + 1, 0),
        find(0, room::FOUND + 1),
        salvage(room::WRECK + 1, 0, 0),
        salvage(0, room::SALVAGED + 1, 0),
        salvage(0, 0, room::DROPPED + 1),
        Request::Ways { sets: 1, blocks: vec![0; room::ACCESSES + 1] },
        time(room::FILE + 1, 0),
        time(0, room::COSTS + 1),
    ];
    let mut frames: Vec<(Vec<u8>, &[u8])> = whole.iter().map(|frame| (frame.encode(), &[TOO_LARGE][..])).collect();
    for (head, lengths) in HEADS {
        frames.push(([head, &vec![0xff; lengths]].concat(), &[CUT_SHORT, TOO_LARGE]));
    }
    frames
}

/// Frames that are just not too large are answered.
fn largest_frames(pipe: &Pipe) -> Result<(), String> {
    let largest = [
        Request::Trace { policy: 0, ways: 1, sets: 1, blocks: vec![3; room::ACCESSES], marks: vec![2; room::MARKS] },
        Request::Check { interruptions: 65_535, file: vec![7; room::FILE], numbers: vec![7; room::NUMBERS] },
        Request::Trace { policy: 0, ways: 1, sets: 1, blocks: Vec::new(), marks: Vec::new() },
        Request::Check { interruptions: 0, file: Vec::new(), numbers: Vec::new() },
        Request::Write {
            content: content([room::NODES, room::EDGES, room::LOOPS, room::HEADS, room::ROWS]),
            out: vec![7; room::OUT],
        },
        Request::Write { content: content([0; 5]), out: Vec::new() },
        Request::Find { file: vec![7; room::FILE], scope: 0, block: 7, rows: vec![7; room::FOUND] },
        Request::Find { file: Vec::new(), scope: 0, block: 0, rows: Vec::new() },
        Request::Salvage { file: vec![7; room::WRECK], out: vec![7; room::SALVAGED], dropped: vec![7; room::DROPPED] },
        Request::Salvage { file: Vec::new(), out: Vec::new(), dropped: Vec::new() },
        Request::Ways { sets: 1, blocks: vec![3; room::ACCESSES] },
        Request::Ways { sets: 1, blocks: Vec::new() },
        Request::Time {
            interruptions: 65_535,
            penalty: u32::MAX,
            file: vec![7; room::FILE],
            costs: vec![7; room::COSTS],
        },
        Request::Time { interruptions: 0, penalty: 0, file: Vec::new(), costs: Vec::new() },
    ];
    super::agree(pipe, &largest)?;
    println!("the largest and the smallest frames are answered");
    Ok(())
}

/// Sends good frames and then other bytes. The good frames must be answered, and then the conversation must end for one
/// of the given reasons; where none is given it ends with the answers.
fn converse(pipe: &Pipe, good: &[Request], bad: &[u8], why: &[u8]) -> Result<(), String> {
    let frames = good.iter().flat_map(Request::encode);
    let said = pipe.converse(frames.chain(bad.iter().copied()).collect())?;
    let mut rest = &said.bytes[..];
    let answered = good.iter().all(|request| Answer::take(&mut rest, request) == Some(second::answer(request)));
    let ending = Ending::take(&mut rest);
    let ends_well = match ending {
        Some(ending) => why.contains(&ending.why) && ending.answered == good.len() as u64,
        None => why.is_empty(),
    };
    if answered && ends_well && rest.is_empty() {
        return Ok(());
    }
    let expected = format!("{} answers and an end for a reason of {why:?} were due", good.len());
    Err(format!("{expected}; after {good:?}\ncame\n{}the reply was\n{}", show::hex(bad), show::hex(&said.bytes)))
}
