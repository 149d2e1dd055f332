//! FNV-1a over words, as the replays count it.

pub const OFFSET: u64 = 0xcbf2_9ce4_8422_2325;

pub fn mix(hash: u64, word: u64) -> u64 {
    (hash ^ word).wrapping_mul(0x100_0000_01b3)
}
