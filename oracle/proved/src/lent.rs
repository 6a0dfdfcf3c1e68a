//! What a call is lent, with guards on both sides.

/// How many guards stand on each side.
const GUARDS: usize = 16;

#[derive(Clone, Debug)]
pub struct Lent<T> {
    all: Vec<T>,
    guard: T,
}

impl<T: Copy + PartialEq> Lent<T> {
    /// Guards alone, with nothing between them.
    #[must_use]
    pub fn new(guard: T) -> Self {
        let all = vec![guard; 2 * GUARDS];
        Self { all, guard }
    }

    /// Lends a copy of these, in place of what was lent before.
    pub fn lend(&mut self, what: &[T]) -> &mut Self {
        self.all.clear();
        self.all.resize(GUARDS, self.guard);
        self.all.extend(what);
        self.all.resize(what.len() + 2 * GUARDS, self.guard);
        self
    }

    #[must_use]
    pub fn inner(&self) -> &[T] {
        &self.all[GUARDS..self.all.len() - GUARDS]
    }

    pub fn inner_mut(&mut self) -> &mut [T] {
        let end = self.all.len() - GUARDS;
        &mut self.all[GUARDS..end]
    }

    /// With its guards, for faults that write to them.
    pub fn all_mut(&mut self) -> &mut [T] {
        &mut self.all
    }

    /// Whether every guard is as it was.
    #[must_use]
    pub fn guarded(&self) -> bool {
        let (before, rest) = self.all.split_at(GUARDS);
        let after = &rest[rest.len() - GUARDS..];
        before.iter().chain(after).all(|word| *word == self.guard)
    }
}
