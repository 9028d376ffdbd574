//! SHA-256 of FIPS 180-4, section by section. The constants are worked out and not copied: the first 32 bits of the fractional parts
//! of the cube roots (4.2.2) and square roots (5.3.3) of the first primes.

pub struct Sha256 {
    k: [u32; 64],
    start: [u32; 8],
}

/// floor(prime^(1/root) * 2^32) mod 2^32, by bisection over whole numbers.
fn fraction(prime: u128, root: u32) -> u32 {
    let target = prime << (32 * root);
    let (mut low, mut high) = (0u128, 1u128 << 37);
    while high - low > 1 {
        let middle = (low + high) / 2;
        if middle.pow(root) <= target { low = middle } else { high = middle }
    }
    low as u32
}

fn big_sigma(x: u32, a: u32, b: u32, c: u32) -> u32 {
    x.rotate_right(a) ^ x.rotate_right(b) ^ x.rotate_right(c)
}

fn small_sigma(x: u32, a: u32, b: u32, shift: u32) -> u32 {
    x.rotate_right(a) ^ x.rotate_right(b) ^ (x >> shift)
}

impl Sha256 {
    pub fn new() -> Self {
        let primes: Vec<u128> = (2u128..).filter(|p| (2..*p).all(|d| p % d != 0)).take(64).collect();
        Sha256 { k: std::array::from_fn(|t| fraction(primes[t], 3)), start: std::array::from_fn(|t| fraction(primes[t], 2)) }
    }

    pub fn digest(&self, message: &[u8]) -> [u8; 32] {
        let mut padded = message.to_vec();
        padded.push(0x80);
        while padded.len() % 64 != 56 {
            padded.push(0);
        }
        padded.extend_from_slice(&(message.len() as u64 * 8).to_be_bytes());
        let mut h = self.start;
        for block in padded.chunks(64) {
            self.block(&mut h, block);
        }
        std::array::from_fn(|i| h[i / 4].to_be_bytes()[i % 4])
    }

    fn block(&self, h: &mut [u32; 8], block: &[u8]) {
        let mut w = [0u32; 64];
        for t in 0..16 {
            w[t] = u32::from_be_bytes(block[4 * t..4 * t + 4].try_into().unwrap());
        }
        for t in 16..64 {
            w[t] = small_sigma(w[t - 2], 17, 19, 10)
                .wrapping_add(w[t - 7])
                .wrapping_add(small_sigma(w[t - 15], 7, 18, 3))
                .wrapping_add(w[t - 16]);
        }
        let mut v = *h;
        for t in 0..64 {
            let choice = (v[4] & v[5]) ^ (!v[4] & v[6]);
            let majority = (v[0] & v[1]) ^ (v[0] & v[2]) ^ (v[1] & v[2]);
            let t1 = v[7].wrapping_add(big_sigma(v[4], 6, 11, 25)).wrapping_add(choice).wrapping_add(self.k[t]).wrapping_add(w[t]);
            let t2 = big_sigma(v[0], 2, 13, 22).wrapping_add(majority);
            v = [t1.wrapping_add(t2), v[0], v[1], v[2], v[3].wrapping_add(t1), v[4], v[5], v[6]];
        }
        for (sum, word) in h.iter_mut().zip(v) {
            *sum = sum.wrapping_add(word);
        }
    }
}

pub fn digest(message: &[u8]) -> [u8; 32] {
    static TABLES: std::sync::OnceLock<Sha256> = std::sync::OnceLock::new();
    TABLES.get_or_init(Sha256::new).digest(message)
}
