//! Random numbers from a seed (splitmix64): the same seed gives the same numbers everywhere.
pub struct Rng(pub u64);

impl Rng {
    pub fn next(&mut self) -> u64 {
        self.0 = self.0.wrapping_add(0x9e3779b97f4a7c15);
        let mut z = self.0;
        z = (z ^ (z >> 30)).wrapping_mul(0xbf58476d1ce4e5b9);
        z = (z ^ (z >> 27)).wrapping_mul(0x94d049bb133111eb);
        z ^ (z >> 31)
    }
    pub fn below(&mut self, n: u64) -> u64 {
        self.next() % n
    }
    pub fn at(&mut self, n: usize) -> usize {
        self.below(n as u64) as usize
    }
    pub fn pick<'a>(&mut self, of: &[&'a str]) -> &'a str {
        of[self.at(of.len())]
    }
    pub fn of<T: Clone>(&mut self, these: &[T]) -> T {
        these[self.at(these.len())].clone()
    }
    pub fn one_in(&mut self, n: u64) -> bool {
        self.below(n) == 0
    }
}
