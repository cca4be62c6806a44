//! Timing in blocks that alternate between the two sides.

use crate::calls::Side;
use crate::inputs::Inputs;
use std::time::Instant;

/// Blocks of each side.
const BLOCKS: usize = 4_001;
/// Calls of a block with lent buffers. Each has a buffer of its own, made
/// dirty before the block; few, so that all stay near the processor.
const LENDING: usize = 4;
/// Calls of a block without lent buffers.
const PLAIN: usize = 32;

/// The medians of both sides in nanoseconds a call, less what an empty block
/// takes. The lent buffers have so many bytes; 0 for a call without one.
pub fn turn_about(one: Side, other: Side, output: usize, inputs: &Inputs) -> (f64, f64) {
    let calls = if output == 0 { PLAIN } else { LENDING };
    let mut buffers = vec![vec![0; output]; calls];
    let mut ones = Vec::with_capacity(BLOCKS);
    let mut others = Vec::with_capacity(BLOCKS);
    let mut empty = Vec::with_capacity(BLOCKS);
    for number in 0..BLOCKS {
        // Either side goes first in every other turn.
        if number % 2 == 0 {
            ones.push(block(one, inputs, &mut buffers));
            others.push(block(other, inputs, &mut buffers));
        } else {
            others.push(block(other, inputs, &mut buffers));
            ones.push(block(one, inputs, &mut buffers));
        }
        empty.push(block(one, inputs, &mut []));
    }
    let empty = median(empty);
    let each = |blocks| (median(blocks) - empty) / calls as f64;
    (each(ones), each(others))
}

fn block(side: Side, inputs: &Inputs, buffers: &mut [Vec<u8>]) -> f64 {
    for buffer in buffers.iter_mut() {
        buffer.fill(0xA5);
    }
    let start = Instant::now();
    for buffer in buffers {
        side(inputs, buffer);
    }
    start.elapsed().as_nanos() as f64
}

fn median(mut blocks: Vec<f64>) -> f64 {
    blocks.sort_by(f64::total_cmp);
    blocks[blocks.len() / 2]
}
