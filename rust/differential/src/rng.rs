//! A random generator of our own (splitmix64), so that a seed gives the same cases everywhere.

#[derive(Clone)]
pub struct Rng(u64);

impl Rng {
    pub fn new(seed: u64) -> Self {
        Self(seed)
    }

    pub fn next(&mut self) -> u64 {
        self.0 = self.0.wrapping_add(0x9e37_79b9_7f4a_7c15);
        let mut z = self.0;
        z = (z ^ (z >> 30)).wrapping_mul(0xbf58_476d_1ce4_e5b9);
        z = (z ^ (z >> 27)).wrapping_mul(0x94d0_49bb_1331_11eb);
        z ^ (z >> 31)
    }

    /// Returns a number below n, which is not 0. The small bias does not matter here.
    pub fn below(&mut self, n: usize) -> usize {
        (self.next() % n as u64) as usize
    }

    /// Returns a number from a to b, both included.
    pub fn within(&mut self, a: usize, b: usize) -> usize {
        a + self.below(b - a + 1)
    }

    pub fn one_in(&mut self, n: usize) -> bool {
        self.below(n) == 0
    }

    pub fn byte(&mut self) -> u8 {
        self.next() as u8
    }

    pub fn pick<T: Copy>(&mut self, list: &[T]) -> T {
        list[self.below(list.len())]
    }
}

/// The elements of buffers: bytes, u64s, u32s or u16s. Noise fills a buffer before a call; it is made from a seed alone,
/// so that no copy has to be kept.
pub trait Word: Copy + PartialEq + 'static {
    fn noise(len: usize, seed: u64) -> Vec<Self>;
}

impl Word for u8 {
    fn noise(len: usize, seed: u64) -> Vec<u8> {
        let mut rng = Rng::new(seed);
        let mut bytes = Vec::with_capacity(len + 7);
        while bytes.len() < len {
            bytes.extend_from_slice(&rng.next().to_le_bytes());
        }
        bytes.truncate(len);
        bytes
    }
}

impl Word for u64 {
    fn noise(len: usize, seed: u64) -> Vec<u64> {
        let mut rng = Rng::new(seed);
        (0..len).map(|_| rng.next()).collect()
    }
}

impl Word for u32 {
    fn noise(len: usize, seed: u64) -> Vec<u32> {
        let mut rng = Rng::new(seed);
        (0..len).map(|_| rng.next() as u32).collect()
    }
}

impl Word for u16 {
    fn noise(len: usize, seed: u64) -> Vec<u16> {
        let mut rng = Rng::new(seed);
        (0..len).map(|_| rng.next() as u16).collect()
    }
}
