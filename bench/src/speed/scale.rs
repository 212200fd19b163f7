//! A logarithmic axis.

pub struct Scale {
    /// The marked values, from the last that is no higher than any time to the first that is no lower.
    pub steps: Vec<f64>,
}

impl Scale {
    pub fn over(times: &[f64]) -> Scale {
        let least = times.iter().copied().fold(f64::INFINITY, f64::min);
        let most = times.iter().copied().fold(0.0, f64::max);
        let tens = (-2..9).map(|power| 10f64.powi(power));
        let steps: Vec<f64> = tens.flat_map(|ten| [ten, 2.0 * ten, 5.0 * ten]).collect();
        let first = steps.iter().rposition(|step| *step <= least);
        let last = steps.iter().position(|step| *step >= most);
        let last = last.unwrap_or(steps.len() - 1);
        Scale {
            steps: steps[first.unwrap_or(0).min(last - 1)..=last].to_vec(),
        }
    }

    /// Where a value lies, from 0 at the first step to 1 at the last.
    pub fn place(&self, value: f64) -> f64 {
        let (first, last) = (self.steps[0], self.steps[self.steps.len() - 1]);
        (value / first).ln() / (last / first).ln()
    }
}
