//! "A request is one byte that names the operation, the arguments, and the lent memory as it is handed in."

use crate::bytes::{put_list, Little};
use crate::case::Content;
use crate::machine::SetState;

#[derive(Clone, Debug)]
pub enum Request {
    Step { policy: u8, ways: u8, state: SetState, block: u16 },
    Block { address: u32, line_size: u32 },
    Set { block: u16, sets: u8 },
    Trace { policy: u8, ways: u8, sets: u8, blocks: Vec<u16>, marks: Vec<u8> },
    Check { interruptions: u16, file: Vec<u8>, numbers: Vec<u64> },
    Write { content: Content, out: Vec<u8> },
    Find { file: Vec<u8>, scope: u16, block: u16, rows: Vec<u16> },
    Salvage { file: Vec<u8>, out: Vec<u8>, dropped: Vec<u64> },
    Ways { sets: u8, blocks: Vec<u16> },
    Time { interruptions: u16, penalty: u32, file: Vec<u8>, costs: Vec<u32> },
}

impl Request {
    pub fn operation(&self) -> u8 {
        match self {
            Request::Step { .. } => 1,
            Request::Block { .. } => 2,
            Request::Set { .. } => 3,
            Request::Trace { .. } => 4,
            Request::Check { .. } => 5,
            Request::Write { .. } => 6,
            Request::Find { .. } => 7,
            Request::Salvage { .. } => 8,
            Request::Ways { .. } => 9,
            Request::Time { .. } => 10,
        }
    }

    pub fn encode(&self) -> Vec<u8> {
        let mut out = vec![self.operation()];
        match self {
            Request::Step { policy, ways, state, block } => {
                put_list(&[*policy, *ways], &mut out);
                put_list(&state.lines, &mut out);
                state.bits.put(&mut out);
                block.put(&mut out);
            }
            Request::Block { address, line_size } => put_list(&[*address, *line_size], &mut out),
            Request::Set { block, sets } => {
                block.put(&mut out);
                sets.put(&mut out);
            }
            Request::Trace { policy, ways, sets, blocks, marks } => {
                put_list(&[*policy, *ways, *sets], &mut out);
                put_lengths([blocks.len(), marks.len()], &mut out);
                put_list(blocks, &mut out);
                out.extend_from_slice(marks);
            }
            Request::Check { interruptions, file, numbers } => {
                interruptions.put(&mut out);
                put_lengths([file.len(), numbers.len()], &mut out);
                out.extend_from_slice(file);
                put_list(numbers, &mut out);
            }
            Request::Write { content, out: lent } => {
                let Content { version, policy, ways, sets, nodes, edges, loops, heads, rows } = content;
                put_list(&[*version, *policy, *ways, *sets], &mut out);
                let lengths = [nodes.len(), edges.len(), loops.len(), heads.len(), rows.len(), lent.len()];
                put_lengths(lengths, &mut out);
                put_list(nodes, &mut out);
                put_list(edges, &mut out);
                put_list(loops, &mut out);
                put_list(heads, &mut out);
                put_list(rows, &mut out);
                out.extend_from_slice(lent);
            }
            Request::Find { file, scope, block, rows } => {
                put_list(&[*scope, *block], &mut out);
                put_lengths([file.len(), rows.len()], &mut out);
                out.extend_from_slice(file);
                put_list(rows, &mut out);
            }
            Request::Salvage { file, out: lent, dropped } => {
                put_lengths([file.len(), lent.len(), dropped.len()], &mut out);
                out.extend_from_slice(file);
                out.extend_from_slice(lent);
                put_list(dropped, &mut out);
            }
            Request::Ways { sets, blocks } => {
                sets.put(&mut out);
                put_lengths([blocks.len()], &mut out);
                put_list(blocks, &mut out);
            }
            Request::Time { interruptions, penalty, file, costs } => {
                interruptions.put(&mut out);
                penalty.put(&mut out);
                put_lengths([file.len(), costs.len()], &mut out);
                out.extend_from_slice(file);
                put_list(costs, &mut out);
            }
        }
        out
    }
}

fn put_lengths<const N: usize>(lengths: [usize; N], out: &mut Vec<u8>) {
    put_list(&lengths.map(|length| u32::try_from(length).expect("a frame's length has 32 bits")), out);
}
