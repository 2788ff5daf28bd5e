// Our code against the original: the same texts and the same calls to both, and everything that comes back compared.

pub mod face;
pub mod flat;
mod odd;
mod pair;
mod pins;
mod run;
mod short_calls;
mod short_texts;
mod smallest;

pub use pair::{Input, Pair};
pub use run::{families, run, threads, Family, Report, Way};

/// Counts an index down into digits of changing size, so that an index names one input of a finite list.
pub(crate) struct Digits(u64);

impl Digits {
    pub fn digit(&mut self, size: u64) -> u64 {
        let digit = self.0 % size;
        self.0 /= size;
        digit
    }

    pub fn pick<T: Clone>(&mut self, from: &[T]) -> T {
        from[self.digit(from.len() as u64) as usize].clone()
    }
}
