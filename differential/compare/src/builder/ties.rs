//! The tie rules of base_builder.rs, written anew.

use oracle::base_builder::TieRule;

/// The lane that a rule names.
pub fn unique_maximum(lanes: [f64; 4], rule: TieRule) -> Option<usize> {
    match rule {
        TieRule::FgbioCompat => fgbio_maximum(lanes),
        TieRule::UlpRelative => ulp_maximum(lanes),
    }
}

/// Whether another lane ties with this one, as the rule tests it.
pub fn has_tie(lanes: [f64; 4], lane: usize, rule: TieRule) -> bool {
    let ties = |other: usize| {
        let (earlier, later) = (lanes[lane.min(other)], lanes[lane.max(other)]);
        match rule {
            TieRule::FgbioCompat => fgbio_tie(earlier, later),
            TieRule::UlpRelative => ulp_tie(earlier, later),
        }
    };
    (0..4).any(|other| other != lane && ties(other))
}

/// Each lane that is above the best one before it takes over, and one that ties with it cancels it.
fn fgbio_maximum(lanes: [f64; 4]) -> Option<usize> {
    let mut best: Option<usize> = None;
    let mut cancelled = false;
    for lane in numbers(lanes) {
        match best {
            Some(best) if lanes[lane] <= lanes[best] => {
                cancelled |= fgbio_tie(lanes[best], lanes[lane]);
            }
            _ => (best, cancelled) = (Some(lane), false),
        }
    }
    best.filter(|best| !cancelled && lanes[*best] != f64::NEG_INFINITY)
}

fn ulp_maximum(lanes: [f64; 4]) -> Option<usize> {
    let best = numbers(lanes).max_by(|a, b| lanes[*a].total_cmp(&lanes[*b]))?;
    let unique = lanes[best].is_finite() && !has_tie(lanes, best, TieRule::UlpRelative);
    unique.then_some(best)
}

/// The lanes that are not NaN.
fn numbers(lanes: [f64; 4]) -> impl Iterator<Item = usize> {
    (0..4).filter(move |lane| !lanes[*lane].is_nan())
}

/// The later of two lanes is tested, and only where it is not above the earlier one.
fn fgbio_tie(earlier: f64, later: f64) -> bool {
    later <= earlier && (later - earlier).abs() <= f64::EPSILON
}

/// Equal, or of the same sign and at most 4 units in the last place apart.
fn ulp_tie(a: f64, b: f64) -> bool {
    let numbers = !a.is_nan() && !b.is_nan();
    let same_sign = a.is_sign_negative() == b.is_sign_negative();
    a == b || numbers && same_sign && a.to_bits().abs_diff(b.to_bits()) <= 4
}
