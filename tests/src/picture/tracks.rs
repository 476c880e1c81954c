//! Intervals side by side: each gets the first track in which it touches no other.

/// The track of each interval, given as its two ends, both included.
pub fn tracks(intervals: &[(i32, i32)]) -> Vec<usize> {
    let mut held: Vec<Vec<(i32, i32)>> = Vec::new();
    intervals
        .iter()
        .map(|&interval| {
            let free = |track: &Vec<(i32, i32)>| track.iter().all(|&other| apart(interval, other));
            let track = held.iter().position(free).unwrap_or(held.len());
            if track == held.len() {
                held.push(Vec::new());
            }
            held[track].push(interval);
            track
        })
        .collect()
}

fn apart(one: (i32, i32), other: (i32, i32)) -> bool {
    one.1 < other.0 || other.1 < one.0
}

/// How many tracks were used.
pub fn count(tracks: &[usize]) -> i32 {
    tracks.iter().max().map_or(0, |&last| last as i32 + 1)
}
