//! A choice among the faults of a call, for groups with several faults at once.

/// The bit of each fault's place in the order of the numbers.
pub struct Choice<'a> {
    pub order: &'a [u32],
    pub bits: usize,
}

impl Choice<'_> {
    pub fn has(&self, number: u32) -> bool {
        let place = self.order.iter().position(|n| *n == number);
        place.is_some_and(|place| self.bits >> place & 1 == 1)
    }

    /// The first chosen number, or 0.
    pub fn first(&self) -> u32 {
        let chosen = self.order.iter().find(|number| self.has(**number));
        chosen.copied().unwrap_or(0)
    }
}
