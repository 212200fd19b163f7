//! Generated memory: a small deterministic generator of numbers, runs and
//! codes, and ten 128K memory images of many kinds.

mod kinds;
mod rng;

pub use rng::Rng;

/// The bytes of one memory page.
pub const PAGE: usize = 16_384;

/// The bytes of a 128K memory.
pub const MEMORY: usize = 8 * PAGE;

/// Ten memory images of 131,072 bytes; the same seed gives the same images.
pub fn images(seed: u64) -> Vec<(&'static str, Vec<u8>)> {
    let kinds: [(&'static str, kinds::PageMaker); 10] = [
        ("code", kinds::code),
        ("text", kinds::text),
        ("screens", kinds::screen),
        ("zero pages", kinds::mostly_zero),
        ("noise", kinds::noise),
        ("ED-heavy", kinds::ed_heavy),
        ("short runs", kinds::short_runs),
        ("long runs", kinds::long_runs),
        ("tables", kinds::tables),
        ("mixed pages", kinds::mixed),
    ];
    let mut rng = Rng::new(seed);
    let image = |(name, page): (&'static str, kinds::PageMaker)| {
        let mut memory = Vec::with_capacity(MEMORY);
        for number in 0..8 {
            page(&mut rng, number, &mut memory);
            memory.resize((number + 1) * PAGE, 0);
        }
        (name, memory)
    };
    kinds.into_iter().map(image).collect()
}

#[cfg(test)]
mod tests {
    use super::*;

    #[test]
    fn images_are_ten_of_full_length_and_repeatable() {
        let all = images(7);
        assert_eq!(all.len(), 10);
        assert!(all.iter().all(|(_, memory)| memory.len() == MEMORY));
        assert_eq!(all, images(7));
        assert_ne!(all, images(8));
    }
}
