//! SHA-256 (FIPS 180-4), because no crate from a registry is to be had. The
//! constants are the fractions of the roots of the first primes; they are
//! computed, so that no table can hold a typing error.

/// The first 32 bits of the fraction of the square root (`cube` false) or of
/// the cube root of `prime`.
fn root(prime: u128, cube: bool) -> u32 {
    // root * 2^32, found by bisection: its low 32 bits are the fraction.
    let below = |r: u128| {
        if cube {
            r * r * r <= prime << 96
        } else {
            r * r <= prime << 64
        }
    };
    let (mut low, mut high) = (0u128, 1 << 37);
    while high - low > 1 {
        let middle = (low + high) / 2;
        if below(middle) {
            low = middle;
        } else {
            high = middle;
        }
    }
    low as u32
}

fn primes() -> impl Iterator<Item = u128> {
    (2u128..).filter(|n| (2..*n).all(|d| n % d != 0))
}

fn block(h: &mut [u32; 8], k: &[u32], bytes: &[u8]) {
    let mut w = [0u32; 64];
    for (word, four) in w.iter_mut().zip(bytes.chunks_exact(4)) {
        *word = u32::from_be_bytes([four[0], four[1], four[2], four[3]]);
    }
    for i in 16..64 {
        let (a, b) = (w[i - 15], w[i - 2]);
        let s0 = a.rotate_right(7) ^ a.rotate_right(18) ^ (a >> 3);
        let s1 = b.rotate_right(17) ^ b.rotate_right(19) ^ (b >> 10);
        w[i] = w[i - 16]
            .wrapping_add(s0)
            .wrapping_add(w[i - 7])
            .wrapping_add(s1);
    }
    let mut v = *h;
    for i in 0..64 {
        let s1 = v[4].rotate_right(6) ^ v[4].rotate_right(11) ^ v[4].rotate_right(25);
        let choice = (v[4] & v[5]) ^ (!v[4] & v[6]);
        let t1 = v[7]
            .wrapping_add(s1)
            .wrapping_add(choice)
            .wrapping_add(k[i])
            .wrapping_add(w[i]);
        let s0 = v[0].rotate_right(2) ^ v[0].rotate_right(13) ^ v[0].rotate_right(22);
        let majority = (v[0] & v[1]) ^ (v[0] & v[2]) ^ (v[1] & v[2]);
        v.rotate_right(1);
        v[4] = v[4].wrapping_add(t1);
        v[0] = t1.wrapping_add(s0).wrapping_add(majority);
    }
    for (old, new) in h.iter_mut().zip(v) {
        *old = old.wrapping_add(new);
    }
}

/// The digest in small hexadecimal digits.
pub fn hex(message: &[u8]) -> String {
    let k: Vec<u32> = primes().take(64).map(|p| root(p, true)).collect();
    let mut h = [0u32; 8];
    for (slot, prime) in h.iter_mut().zip(primes()) {
        *slot = root(prime, false);
    }
    let mut padded = message.to_vec();
    padded.push(0x80);
    while padded.len() % 64 != 56 {
        padded.push(0);
    }
    padded.extend((message.len() as u64 * 8).to_be_bytes());
    for chunk in padded.chunks_exact(64) {
        block(&mut h, &k, chunk);
    }
    h.iter().map(|word| format!("{word:08x}")).collect()
}
