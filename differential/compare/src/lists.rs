//! All lists of a few things.

/// Each list of so many of these, in the order of their places, the last one changing fastest.
pub fn lists<T: Copy>(of: &[T], count: u32) -> impl Iterator<Item = Vec<T>> {
    let one = |number: usize, place| of[number / of.len().pow(place) % of.len()];
    let list = move |number| (0..count).rev().map(|place| one(number, place)).collect();
    (0..of.len().pow(count)).map(list)
}
