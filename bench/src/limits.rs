//! The most instructions that an event of each case may take proved, from the file `limits`: a line
//! for each case, its name and a number.

const LIMITS: &str = include_str!("../limits");

/// What to tell of a case that is above its limit.
pub fn excess(case: &str, instructions: Option<f64>) -> Option<String> {
    let Some(limit) = limit(case) else {
        return Some(format!("{case}: no number in bench/limits"));
    };
    let found = instructions?.round();
    (found > f64::from(limit))
        .then(|| format!("{case}: {found} instructions, more than the {limit} of bench/limits"))
}

fn limit(case: &str) -> Option<u32> {
    let of_line = |line: &'static str| line.strip_prefix(case)?.strip_prefix(' ')?.parse().ok();
    LIMITS.lines().find_map(of_line)
}
