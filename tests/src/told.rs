//! How often each number was answered: a refusal's, or 0 for a success.

#[derive(Debug, Default)]
pub struct Told([usize; 20]);

impl Told {
    pub fn count(&mut self, number: usize) {
        self.0[number] += 1;
    }

    /// How often any number was told.
    pub fn all(&self) -> usize {
        self.0.iter().sum()
    }

    /// Each of these numbers was told at least so often.
    #[track_caller]
    pub fn at_least(&self, bounds: &[(usize, usize)]) {
        for &(number, times) in bounds {
            assert!(self.0[number] >= times, "{number} less than {times} times: {self:?}");
        }
    }

    /// Each of these numbers was told more than so often.
    #[track_caller]
    pub fn more_than(&self, times: usize, numbers: &[usize]) {
        numbers.iter().for_each(|&number| self.at_least(&[(number, times + 1)]));
    }

    /// None of these numbers was told.
    #[track_caller]
    pub fn never(&self, numbers: &[usize]) {
        assert!(numbers.iter().all(|&number| self.0[number] == 0), "one of {numbers:?}: {self:?}");
    }
}
