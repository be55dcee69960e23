//! Numbers by chance, the same at each run (xorshift64*).
use super::Buffer;

pub struct Random(u64);

impl Random {
    pub fn new(seed: u64) -> Random {
        Random((seed + 1).wrapping_mul(0x9e37_79b9_7f4a_7c15))
    }

    pub fn next(&mut self) -> u64 {
        self.0 ^= self.0 >> 12;
        self.0 ^= self.0 << 25;
        self.0 ^= self.0 >> 27;
        self.0.wrapping_mul(0x2545_f491_4f6c_dd1d)
    }

    pub fn below(&mut self, end: usize) -> usize {
        (self.next() >> 33) as usize % end
    }

    pub fn bytes(&mut self, len: usize) -> Vec<u8> {
        (0..len).map(|_| (self.next() >> 56) as u8).collect()
    }

    pub fn shuffle<T>(&mut self, list: &mut [T]) {
        for k in 1..list.len() {
            list.swap(k, self.below(k + 1));
        }
    }

    /// Cuts bytes into buffers, up to 28 of them, whose addresses are still to be chosen.
    pub fn cut(&mut self, len: usize, writes: bool) -> Vec<Buffer> {
        let count = [1, 2, 3, 5, 20, 28][self.below(6)].min(len);
        let mut ends: Vec<usize> = (0..count).map(|_| 1 + self.below(len)).collect();
        ends.push(len);
        ends.sort_unstable();
        ends.dedup();
        let begins = Some(0).into_iter().chain(ends.iter().copied());
        let pieces = begins.zip(&ends).filter(|(begin, &end)| *begin < end);
        pieces.map(|(begin, end)| Buffer(0, (end - begin) as u32, writes)).collect()
    }
}
