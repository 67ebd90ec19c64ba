//! Times of several contenders that take turns.

use std::time::Instant;

/// The best times in seconds. The bare one is what the work would cost if it
/// were only moving bytes.
pub struct Best {
    pub archive: f64,
    pub rust: f64,
    pub c: f64,
    pub bare: f64,
}

impl Best {
    /// Times in ms and ratios, as cells of a table.
    pub fn cells(&self) -> String {
        let Best {
            archive,
            rust,
            c,
            bare,
        } = self;
        let better = rust.min(*c);
        format!(
            "| {:.2} | {:.2} | {:.2} | {:.2} | {:.2} | {:.2} |",
            1e3 * archive,
            1e3 * rust,
            1e3 * c,
            1e3 * bare,
            archive / c,
            archive / better,
        )
    }
}

pub fn best_of(
    rounds: usize,
    mut archive: impl FnMut(),
    mut rust: impl FnMut(),
    mut c: impl FnMut(),
    mut bare: impl FnMut(),
) -> Best {
    let contenders: [&mut dyn FnMut(); 4] = [&mut archive, &mut rust, &mut c, &mut bare];
    let mut best = [f64::MAX; 4];
    for round in 0..rounds {
        // Each round begins with another one: what the one before has left in
        // the caches is then unfair to none of them.
        for turn in 0..4 {
            let i = (round + turn) % 4;
            best[i] = best[i].min(seconds(contenders[i]));
        }
    }
    let [archive, rust, c, bare] = best;
    Best {
        archive,
        rust,
        c,
        bare,
    }
}

fn seconds(work: &mut dyn FnMut()) -> f64 {
    let start = Instant::now();
    work();
    start.elapsed().as_secs_f64()
}
