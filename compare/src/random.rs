//! A small random source that gives the same numbers everywhere.

pub struct Random(u64);

impl Random {
  pub fn new(seed: u64) -> Self {
    Self(seed)
  }

  /// splitmix64
  fn next(&mut self) -> u64 {
    self.0 = self.0.wrapping_add(0x9e37_79b9_7f4a_7c15);
    let mut z = self.0;
    z = (z ^ (z >> 30)).wrapping_mul(0xbf58_476d_1ce4_e5b9);
    z = (z ^ (z >> 27)).wrapping_mul(0x94d0_49bb_1331_11eb);
    z ^ (z >> 31)
  }

  /// A number below `end`, which isn't 0.
  pub fn below(&mut self, end: usize) -> usize {
    (self.next() % end as u64) as usize
  }

  pub fn row(&mut self, end: usize) -> u32 {
    self.below(end) as u32
  }

  /// A number from `low` to `high`, both counted.
  pub fn from_to(&mut self, low: usize, high: usize) -> usize {
    low + self.below(high - low + 1)
  }

  pub fn coin(&mut self, share: f64) -> bool {
    ((self.next() >> 11) as f64) < share * (1u64 << 53) as f64
  }

  pub fn flag(&mut self, share: f64) -> u32 {
    u32::from(self.coin(share))
  }

  pub fn pick<T: Copy>(&mut self, of: &[T]) -> T {
    of[self.below(of.len())]
  }

  pub fn shuffle<T>(&mut self, list: &mut [T]) {
    for at in (1..list.len()).rev() {
      list.swap(at, self.below(at + 1));
    }
  }
}
