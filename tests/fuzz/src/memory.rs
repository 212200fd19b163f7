//! Memory that a short input describes.

use super::input::Input;
use reference::memory::Rng;

/// Plain bytes, runs and copies of what came before; all of it again until the area is full.
pub fn described(input: &mut Input, length: usize) -> Vec<u8> {
    let mut memory = Vec::with_capacity(length);
    while !input.is_empty() && memory.len() < length {
        add_piece(&mut memory, input);
    }
    if memory.is_empty() {
        memory.push(0);
    }
    while memory.len() < length {
        let part = memory.len().min(length - memory.len());
        memory.extend_from_within(..part);
    }
    memory.truncate(length);
    memory
}

fn add_piece(memory: &mut Vec<u8>, input: &mut Input) {
    let code = input.byte();
    let few = usize::from(code / 4) + 1;
    let end = memory.len();
    match code % 4 {
        0 => memory.extend(input.take(few)),
        1 => memory.resize(end + few, input.byte()),
        2 => memory.resize(end + input.word(), input.byte()),
        _ => {
            let from = end.saturating_sub(input.word());
            let to = end.min(from + input.word());
            memory.extend_from_within(from..to);
        }
    }
}

/// Random bytes, the same for the same seed.
pub fn seeded(seed: u8, length: usize) -> Vec<u8> {
    let mut rng = Rng::new(seed.into());
    let mut memory = vec![0; length];
    for part in memory.chunks_mut(8) {
        part.copy_from_slice(&rng.word().to_le_bytes()[..part.len()]);
    }
    memory
}
