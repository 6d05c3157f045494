//! Each list with one row fewer than its limit, just as many, and one more; names at their limits; no module; and every list but the entries full.
use project::{LISTS, MARK, Project, column::*};

use crate::{
  generate::{self, Sizes},
  random::Random,
  refusal::limit,
};

/// A few rows in every list.
fn few() -> Project {
  let mut p = Project::default();
  for _ in 0..4 {
    p.push(NORMAL, [1, 1, 1, 1, 1, 0, 0, MARK]);
  }
  p.push(RECORD_MODULE, [1, 0, 2]);
  p.push(DEPENDENCY_MODULE, [1, 2]);
  p.push(STATEMENT_MODULE, [1, 1]);
  p.push(USE_STATEMENT, [0, 0]);
  p.push(OWNER, [2, 0]);
  p.push(CHAIN_SYMBOL, [0, 0]);
  p.push(REFERENCE_STATEMENT, [0, 2, 0]);
  p.push(DEPENDED_REFERENCE, [0, 0]);
  for order in 0..130 {
    p.push(ORDER, [order]);
  }
  p.push(MEMBER_CHUNK, [0, 1]);
  p.push(ENTRY, [1, 0]);
  p
}

/// A further row of a list, of which there are `row` already. The entries repeat from the fifth on.
fn further(p: &mut Project, first: usize, row: u32) {
  match first {
    NORMAL => p.push(NORMAL, [1, 1, 0, 0, 1, 0, MARK, MARK]),
    RECORD_MODULE => p.push(first, [1, row % 4, row % 4]),
    DEPENDENCY_MODULE => p.push(first, [row % 4, 3]),
    STATEMENT_MODULE => p.push(first, [1, row % 2]),
    OWNER => p.push(first, [row % 4, row]),
    REFERENCE_STATEMENT => p.push(first, [0, row % 2, 0]),
    ORDER => p.push(first, [row]),
    MEMBER_CHUNK => p.push(first, [0, row % 4]),
    IMPORT_CHUNK => p.push(first, [row / 128, row % 128]),
    ENTRY => p.push(first, [row % 4, MARK]),
    SEED => p.push(first, [row % 4]),
    _ => p.push(first, [0, 0]),
  }
}

pub fn limits(try_it: &mut dyn FnMut(Project)) {
  for list in &LISTS {
    for length in limit(list.first) - 1..=limit(list.first) + 1 {
      let mut p = few();
      while p[list.first].len() < length {
        let row = p[list.first].len() as u32;
        further(&mut p, list.first, row);
      }
      try_it(p);
    }
  }
  // The names: one line fewer than there are modules, as many, and one more; as many lines as a list may have rows, and one more; the longest name, and one longer.
  for lines in [3, 4, 5, 16_384, 16_385] {
    try_it(Project { names: b"a\n".repeat(lines), ..few() });
  }
  for length in [1, 64, 65] {
    let names = [vec![b'~'; length], b"\n!\n~!\na~\n".to_vec()].concat();
    try_it(Project { names, ..few() });
  }
  try_it(Project { names: b"a\n".to_vec(), ..Project::default() });
  // As many modules as there may be and one more, with as many names, the longest, that differ in their last bytes.
  for modules in [4_096, 4_097] {
    let mut p = few();
    while p.modules() < modules {
      further(&mut p, NORMAL, 0);
    }
    p[MEMBER_CHUNK] = vec![0; modules];
    p[MEMBER] = (0..modules as u32).map(|row| (row * 1_021) % modules as u32).collect();
    for row in 0..modules {
      p.names.extend(format!("{:a>60}{:04}\n", "", (row * 7) % 5_000).bytes());
    }
    try_it(p);
  }
  try_it(Project::default());
  let mut none = few();
  for column in NORMAL..RECORD_MODULE {
    none[column].clear();
  }
  try_it(none);
  let full = Sizes { modules: 4096, chunks: 1024, entries: 8, rows: 16_384, seeds: 16_384, exact: true };
  for profile in generate::PROFILES {
    try_it(generate::project(&mut Random::new(5), full, profile, false));
  }
}
