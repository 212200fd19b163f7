//! The lines that hold a ratio to its target.

pub fn at_most(what: &str, ratio: f64, target: f64) {
    let bound = format!("at most {target:.2}");
    line(what, ratio, &bound, ratio <= target);
}

pub fn at_least(what: &str, ratio: f64, target: f64) {
    let bound = format!("at least {target:.1}");
    line(what, ratio, &bound, ratio >= target);
}

fn line(what: &str, ratio: f64, bound: &str, reached: bool) {
    let word = if reached { "reached" } else { "not reached" };
    println!("{what}: {ratio:.2} (target {bound}): {word}");
}
