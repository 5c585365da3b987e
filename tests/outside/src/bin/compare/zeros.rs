//! The flags and the zero fields: a block is refused with 5 whatever it is in them that is not zero, and accepted where nothing is.

use outside::lent::Lent;
use outside::model::block::{seal, BlockBytes};
use outside::rng::Rng;
use outside::sample::blocks::block;
use outside::sample::zeros::SHAPES;

use crate::run::Run;

pub fn case(run: &mut Run, rng: &mut Rng, number: u64) {
    let (name, shape) = SHAPES[number as usize % SHAPES.len()];
    let mut bytes = block(rng).encode();
    read(run, rng, &bytes, 0);
    shape(rng, &mut bytes);
    seal(&mut bytes);
    read(run, rng, &bytes, 5);
    run.reached(name);
}

fn read(run: &mut Run, rng: &mut Rng, block: &BlockBytes, number: u64) {
    let block = Lent::holding(rng, block);
    let outcome = run.ask("block_read", &[&block], |api| api.block_read(block.part()));
    run.require("block_read", outcome.number() == number, &format!("the answer is not {number}"));
}
