//! A project as it is lent: where each column starts, with where the last ends, all columns one after the other, and the lines of the names.
use project::{COLUMNS, MARK, Project};

#[derive(Clone, Debug, PartialEq, Eq)]
pub struct Lent {
  pub runtime: u32,
  pub dynamic: u32,
  pub bounds: Vec<u32>,
  pub columns: Vec<u32>,
  pub names: Vec<u8>,
}

impl Lent {
  pub fn of(p: &Project) -> Self {
    Self {
      runtime: p.runtime,
      dynamic: p.dynamic,
      bounds: p.bounds(),
      columns: p.columns.concat(),
      names: p.names.clone(),
    }
  }

  /// Whether the bounds are one more than the columns, the first 0, none below the one before, and the last the length of the columns.
  pub fn fits(&self) -> bool {
    self.bounds.len() == COLUMNS + 1
      && self.bounds[0] == 0
      && self.bounds.windows(2).all(|two| two[0] <= two[1])
      && self.bounds[COLUMNS] as usize == self.columns.len()
  }

  /// The project, where the bounds fit.
  pub fn project(&self) -> Option<Project> {
    self.fits().then(|| Project {
      runtime: self.runtime,
      dynamic: self.dynamic,
      columns: std::array::from_fn(|k| {
        self.columns[self.bounds[k] as usize..self.bounds[k + 1] as usize].to_vec()
      }),
      names: self.names.clone(),
    })
  }

  /// The kinds of bounds that don't fit.
  pub const UNFIT: [&str; 10] = [
    "a bound too few",
    "a bound too many",
    "no bounds",
    "a value past the last bound",
    "a value too few",
    "the first bound isn't 0",
    "the last bound past the end",
    "a bound past the end",
    "a bound of 2 to the 32nd less 1",
    "a bound changes places with the first",
  ];

  /// A copy whose bounds don't fit, of one of these kinds; `at` picks a column.
  pub fn unfit(&self, kind: usize, at: usize) -> Self {
    let mut copy = self.clone();
    let (column, end) = (at % COLUMNS, self.columns.len() as u32);
    match kind % Self::UNFIT.len() {
      0 => drop(copy.bounds.pop()),
      1 => copy.bounds.push(end),
      2 => copy.bounds.clear(),
      3 => copy.columns.push(0),
      4 => drop(copy.columns.pop()),
      5 => copy.bounds[0] = 1,
      6 => copy.bounds[COLUMNS] = end + 1,
      7 => copy.bounds[column] = end + 1,
      8 => copy.bounds[column] = MARK,
      _ => copy.bounds.swap(0, column + 1),
    }
    if copy.fits() {
      copy.bounds.clear();
    }
    copy
  }
}
