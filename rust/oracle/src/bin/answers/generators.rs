//! Words and uniforms of generators and streams.

use oracle::rng::Rng;

/// Seeds and stream numbers with the extremes of a word among them.
const EDGES: [u64; 8] = [0, 1, 2, 63, 1 << 32, 1 << 63, u64::MAX - 1, u64::MAX];

/// A record for each generator: 0 and a seed and 0, or 1 and a seed and a stream's index; then its first 64 words and the 16 uniforms after them.
pub fn generators() -> Vec<u64> {
    let mut source = Rng::new(20261115);
    let mut list = Vec::new();
    let spread: Vec<u64> = (0..16).map(|_| source.next_u64()).collect();
    for &seed in EDGES.iter().chain(&spread) {
        record(&mut list, [0, seed, 0], Rng::new(seed));
    }
    for &seed in &EDGES {
        for &index in &EDGES {
            record(&mut list, [1, seed, index], Rng::stream(seed, index));
        }
    }
    for pair in spread.chunks_exact(2) {
        record(&mut list, [1, pair[0], pair[1]], Rng::stream(pair[0], pair[1]));
    }
    list
}

fn record(list: &mut Vec<u64>, made_by: [u64; 3], mut rng: Rng) {
    list.extend(made_by);
    list.extend((0..64).map(|_| rng.next_u64()));
    list.extend((0..16).map(|_| rng.uniform().to_bits()));
}
