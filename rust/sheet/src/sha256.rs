//! SHA-256 (FIPS 180-4).

/// The first 64 primes give the constants: the fractions of their cube roots, and of the first eight's square roots.
fn primes() -> Vec<u64> {
    (2..312u64).filter(|n| (2..*n).all(|d| n % d != 0)).collect()
}

/// The first 32 bits of the fraction of p's root of this degree: of the largest r with r^degree at most p 2^(32 degree).
fn root_bits(p: u64, degree: u32) -> u32 {
    let mut root: u128 = 0;
    for bit in (0..37).rev() {
        let more = root | 1 << bit;
        if more.pow(degree) <= u128::from(p) << (32 * degree) {
            root = more;
        }
    }
    root as u32
}

/// The words of a block, and those that follow from them.
fn schedule(block: &[u8]) -> [u32; 64] {
    let mut w = [0u32; 64];
    for (word, bytes) in w.iter_mut().zip(block.chunks_exact(4)) {
        *word = u32::from_be_bytes([bytes[0], bytes[1], bytes[2], bytes[3]]);
    }
    for i in 16..64 {
        let s0 = w[i - 15].rotate_right(7) ^ w[i - 15].rotate_right(18) ^ (w[i - 15] >> 3);
        let s1 = w[i - 2].rotate_right(17) ^ w[i - 2].rotate_right(19) ^ (w[i - 2] >> 10);
        w[i] = w[i - 16].wrapping_add(s0).wrapping_add(w[i - 7]).wrapping_add(s1);
    }
    w
}

fn compress(state: &mut [u32; 8], block: &[u8], k: &[u32]) {
    let [mut a, mut b, mut c, mut d, mut e, mut f, mut g, mut h] = *state;
    for (word, constant) in schedule(block).iter().zip(k) {
        let s1 = e.rotate_right(6) ^ e.rotate_right(11) ^ e.rotate_right(25);
        let t1 = h.wrapping_add(s1).wrapping_add((e & f) ^ (!e & g)).wrapping_add(*constant).wrapping_add(*word);
        let s0 = a.rotate_right(2) ^ a.rotate_right(13) ^ a.rotate_right(22);
        let t2 = s0.wrapping_add((a & b) ^ (a & c) ^ (b & c));
        [h, g, f, e, d, c, b, a] = [g, f, e, d.wrapping_add(t1), c, b, a, t1.wrapping_add(t2)];
    }
    for (s, x) in state.iter_mut().zip([a, b, c, d, e, f, g, h]) {
        *s = s.wrapping_add(x);
    }
}

/// The digest of a message, in lowercase hexadecimal.
pub fn sha256(message: &[u8]) -> String {
    let primes = primes();
    let k: Vec<u32> = primes.iter().map(|&p| root_bits(p, 3)).collect();
    let mut state: [u32; 8] = std::array::from_fn(|i| root_bits(primes[i], 2));
    let blocks = message.chunks_exact(64);
    let mut rest = blocks.remainder().to_vec();
    blocks.for_each(|block| compress(&mut state, block, &k));
    rest.push(0x80);
    rest.resize(if rest.len() <= 56 { 56 } else { 120 }, 0);
    rest.extend_from_slice(&(message.len() as u64 * 8).to_be_bytes());
    rest.chunks_exact(64).for_each(|block| compress(&mut state, block, &k));
    state.iter().map(|x| format!("{x:08x}")).collect()
}

#[cfg(test)]
mod tests {
    use super::sha256;

    #[test]
    fn published_examples() {
        assert_eq!(sha256(b"abc"), "ba7816bf8f01cfea414140de5dae2223b00361a396177a9cb410ff61f20015ad");
        assert_eq!(sha256(b""), "e3b0c44298fc1c149afbf4c8996fb92427ae41e4649b934ca495991b7852b855");
        let two_blocks = b"abcdbcdecdefdefgefghfghighijhijkijkljklmklmnlmnomnopnopq";
        assert_eq!(sha256(two_blocks), "248d6a61d20638b8e5c026930c3e6039a33ce45964ff2167f6ecedd419db06c1");
        assert_eq!(sha256(&[b'a'; 1_000_000]), "cdc76e5c9914fb9281a1c7e284d73e67f1809a48a497200e046d39ccc7112cd0");
    }
}
