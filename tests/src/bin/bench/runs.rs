//! Figures of repeated runs: their median, and how far they differ.

/// A figure of each run, in the sequence of the runs.
#[derive(Clone, Default)]
pub struct Runs(Vec<f64>);

impl Runs {
    pub fn new(figures: Vec<f64>) -> Runs {
        Runs(figures)
    }

    pub fn push(&mut self, figure: f64) {
        self.0.push(figure);
    }

    /// The figure that a part of the runs is below, between two runs in proportion; not a number if there are no runs.
    fn below(&self, part: f64) -> f64 {
        let mut rising = self.0.clone();
        rising.sort_by(f64::total_cmp);
        let place = part * rising.len().saturating_sub(1) as f64;
        let (low, high) = (place.floor() as usize, place.ceil() as usize);
        let figure = |place: usize| rising.get(place).copied().unwrap_or(f64::NAN);
        figure(low) + (figure(high) - figure(low)) * (place - low as f64)
    }

    pub fn median(&self) -> f64 {
        self.below(0.5)
    }

    pub fn largest(&self) -> f64 {
        self.below(1.0)
    }

    /// Each run's figure times a factor.
    pub fn times(&self, factor: f64) -> Runs {
        Runs(self.0.iter().map(|figure| figure * factor).collect())
    }

    /// Each run's figure divided by that of the other run taken in turn with it.
    pub fn divided_by(&self, other: &Runs) -> Runs {
        Runs(self.0.iter().zip(&other.0).map(|(figure, other)| figure / other).collect())
    }

    /// Each run's figure less that of the other run taken in turn with it.
    pub fn less(&self, other: &Runs) -> Runs {
        Runs(self.0.iter().zip(&other.0).map(|(figure, other)| figure - other).collect())
    }

    /// Sums of the figures of the first runs, of the second runs, and so on.
    pub fn sums(parts: &[Runs]) -> Runs {
        let count = parts.iter().map(|part| part.0.len()).min().unwrap_or(0);
        Runs((0..count).map(|run| parts.iter().map(|part| part.0[run]).sum()).collect())
    }

    /// The median, and in parentheses the lower and the upper quartile.
    pub fn shown(&self, digits: usize) -> String {
        format!("{:.digits$} ({:.digits$}–{:.digits$})", self.median(), self.below(0.25), self.below(0.75))
    }
}
