//! Small projects, all of a kind.
use project::{MARK, Project, column::*};

/// `n` normal included sensitive ESM modules in chunk 0.
fn plain(n: usize) -> Project {
  let mut p = Project::default();
  for _ in 0..n {
    p.push(NORMAL, [1, 1, 1, 0, 1, 0, 0, MARK]);
  }
  p
}

/// The lists of at most two numbers below 3.
fn short_lists() -> Vec<Vec<u32>> {
  let mut lists = vec![Vec::new()];
  for first in 0..3 {
    lists.push(vec![first]);
    lists.extend((0..3).map(|second| vec![first, second]));
  }
  lists
}

/// Three modules, each with at most two records of one kind, self imports and repeats among them.
fn three_modules(kind: u32) -> Vec<Project> {
  let lists = short_lists();
  let mut projects = Vec::new();
  for zero in &lists {
    for one in &lists {
      for two in &lists {
        let mut p = plain(3);
        for (module, targets) in [zero, one, two].into_iter().enumerate() {
          for &target in targets {
            p.push(RECORD_MODULE, [module as u32, kind, target]);
          }
        }
        p.push(ORDER, [0]);
        for member in [1, 0, 2] {
          p.push(MEMBER_CHUNK, [0, member]);
        }
        p.push(ENTRY, [0, 0]);
        p.push(ENTRY, [2, 0]);
        projects.push(p);
      }
    }
  }
  projects
}

fn bit(mask: usize, at: usize) -> u32 {
  (mask >> at & 1) as u32
}

/// The graphs of three modules with every choice of a flag for each: `included` with Import, or `wrap` with either kind.
pub fn module_graphs(try_it: &mut dyn FnMut(Project)) {
  for (kind, column, value) in [(0, INCLUDED, 0), (0, WRAP, 1), (1, WRAP, 2)] {
    for p in three_modules(kind) {
      for mask in 0..8 {
        let mut p = p.clone();
        for module in 0..3 {
          if bit(mask, module) == 1 {
            p[column][module] = value;
          }
        }
        try_it(p);
      }
    }
  }
}

/// All graphs of `c` chunks with a module each. `orders` are the `order` columns.
fn chunk_graphs_of(c: usize, orders: &[&[u32]], try_it: &mut dyn FnMut(Project)) {
  for mask in 0..1usize << (c * c) {
    for &order in orders {
      let mut p = plain(c + 1);
      p[ORDER] = order.to_vec();
      for chunk in 0..c as u32 {
        p[CHUNK][chunk as usize + 1] = chunk;
        p.push(MEMBER_CHUNK, [chunk, chunk + 1]);
        p.push(ENTRY, [chunk + 1, chunk]);
        for other in 0..c as u32 {
          if bit(mask, chunk as usize * c + other as usize) == 1 {
            p.push(IMPORT_CHUNK, [chunk, other]);
          }
        }
      }
      p.push(RECORD_MODULE, [1, 0, 2]);
      try_it(p);
    }
  }
}

/// All graphs of three chunks in every load order, and all of four chunks.
pub fn chunk_graphs(try_it: &mut dyn FnMut(Project)) {
  const THREE: [&[u32]; 6] = [&[0, 1, 2], &[0, 2, 1], &[1, 0, 2], &[1, 2, 0], &[2, 0, 1], &[2, 1, 0]];
  chunk_graphs_of(3, &THREE, try_it);
  chunk_graphs_of(4, &[&[3, 0, 2, 1]], try_it);
}

/// All graphs of three chunks with a module each and every order of their import rows, where two chunks or all have the same `order`.
pub fn tied_chunks(try_it: &mut dyn FnMut(Project)) {
  const ORDERS: [[u32; 3]; 7] =
    [[0, 0, 0], [0, 0, 1], [0, 1, 0], [1, 0, 0], [0, 1, 1], [1, 0, 1], [1, 1, 0]];
  let mut lists: Vec<Vec<u32>> = vec![vec![]];
  for length in 0..3 {
    let shorter: Vec<Vec<u32>> = lists.iter().filter(|list| list.len() == length).cloned().collect();
    for list in shorter {
      lists.extend((0..3).filter(|other| !list.contains(other)).map(|other| [&list[..], &[other]].concat()));
    }
  }
  for order in ORDERS {
    for zero in &lists {
      for one in &lists {
        for two in &lists {
          let mut p = plain(4);
          p[ORDER] = order.to_vec();
          for (chunk, imported) in (0..).zip([zero, one, two]) {
            p[CHUNK][chunk as usize + 1] = chunk;
            p.push(MEMBER_CHUNK, [chunk, chunk + 1]);
            p.push(ENTRY, [chunk + 1, chunk]);
            imported.iter().for_each(|&other| p.push(IMPORT_CHUNK, [chunk, other]));
          }
          p.push(RECORD_MODULE, [1, 0, 2]);
          try_it(p);
        }
      }
    }
  }
}

/// Two modules with every value of every flag, and every kind of the record between them. Externals with rows are refused.
pub fn module_rows(try_it: &mut dyn FnMut(Project)) {
  let mut rows = Vec::new();
  for flags in 0..16 {
    for exports in 0..3 {
      for wrap in 0..3 {
        rows.push([bit(flags, 0), bit(flags, 1), bit(flags, 2), bit(flags, 3), exports, wrap, 0, MARK]);
      }
    }
  }
  for one in &rows {
    for two in &rows {
      for kind in 0..4 {
        let mut p = plain(1);
        p.push(NORMAL, *one);
        p.push(NORMAL, *two);
        p.push(RECORD_MODULE, [1, kind, 2]);
        p.push(DEPENDENCY_MODULE, [1, 2]);
        p.push(STATEMENT_MODULE, [1, 1]);
        p.push(USE_STATEMENT, [0, 0]);
        p.push(OWNER, [2, 0]);
        p.push(REFERENCE_STATEMENT, [0, 0, 0]);
        p.push(ORDER, [0]);
        for member in [0, 1, 2] {
          p.push(MEMBER_CHUNK, [0, member]);
        }
        p.push(ENTRY, [1, 0]);
        try_it(p);
      }
    }
  }
}

/// A statement with each form of reference to each of three symbols, whose canonicals and chains are all there are.
pub fn references(try_it: &mut dyn FnMut(Project)) {
  for canonicals in 0..27u32 {
    for links in 0..512usize {
      let mut p = plain(4);
      p[SENSITIVE].fill(0);
      p[READS].fill(1);
      p.push(RECORD_MODULE, [1, 0, 2]);
      for statement in 0..3 {
        p.push(STATEMENT_MODULE, [1 + statement / 2, 1 - statement % 2]);
      }
      for symbol in 0..3 {
        p.push(OWNER, [symbol + 1, canonicals / 3u32.pow(symbol) % 3]);
      }
      for place in 0..9 {
        if bit(links, place) == 1 {
          p.push(CHAIN_SYMBOL, [place as u32 / 3, place as u32 % 3]);
        }
      }
      match links % 4 {
        0 => p.push(REFERENCE_STATEMENT, [0, 0, 0]),
        1 => p.push(REFERENCE_STATEMENT, [1, 1, 1]),
        2 => p.push(REFERENCE_STATEMENT, [2, 2, 0]),
        _ => {
          p.push(REFERENCE_STATEMENT, [0, 2, MARK]);
          p.push(DEPENDED_REFERENCE, [0, 2]);
        }
      }
      p.push(ORDER, [0]);
      p.push(ENTRY, [1, 0]);
      p.push(SEED, [3]);
      try_it(p);
    }
  }
}

/// Four modules, each superseded by no other or by any, itself and earlier ones too (10): records to each of them, a dependency, members, an entry and a seed.
pub fn replaced_modules(try_it: &mut dyn FnMut(Project)) {
  const NEWER_ONES: [u32; 6] = [MARK, 0, 1, 2, 3, 4];
  for zero in NEWER_ONES {
    for one in NEWER_ONES {
      for two in NEWER_ONES {
        for three in NEWER_ONES {
          let mut p = plain(4);
          p[NEWER] = vec![zero, one, two, three];
          for (module, target) in [(0, 1), (1, 2), (2, 0), (3, 0), (3, MARK)] {
            p.push(RECORD_MODULE, [module, 0, target]);
          }
          p.push(DEPENDENCY_MODULE, [3, 0]);
          p.push(DEPENDENCY_MODULE, [3, 1]);
          p.push(ORDER, [0]);
          p.push(ORDER, [1]);
          for row in [[0, 2], [0, 0], [1, 3], [1, 1]] {
            p.push(MEMBER_CHUNK, row);
          }
          p.push(IMPORT_CHUNK, [1, 0]);
          p.push(ENTRY, [3, 1]);
          p.push(ENTRY, [0, 0]);
          p.push(SEED, [1]);
          try_it(p);
        }
      }
    }
  }
}

/// Three modules beside the runtime, each a leaf, sensitive, with a record, with a record that isn't an import or external, and each with one of some names; all four stand in
/// one chunk, one of them twice, and the first is reached.
pub fn named_modules(try_it: &mut dyn FnMut(Project)) {
  const NAMES: [&str; 6] = ["a", "~a", "!", "b~", "~rolldown/", "rolldown:a"];
  let name = |at: usize| NAMES[at % NAMES.len()];
  for kinds in 0..125 {
    for names in 0..216 {
      let mut p = plain(4);
      p[SENSITIVE].fill(0);
      for module in 1..4 {
        match kinds / 5usize.pow(module - 1) % 5 {
          1 => p[SENSITIVE][module as usize] = 1,
          2 => p.push(RECORD_MODULE, [module, 0, 3]),
          3 => p.push(RECORD_MODULE, [module, 3, MARK]),
          4 => p[NORMAL][module as usize] = 0,
          _ => {}
        }
      }
      for line in ["a~", name(names), name(names / 6), name(names / 36)] {
        p.names.extend(line.bytes().chain([b'\n']));
      }
      p.push(ORDER, [0]);
      for member in [3, 0, 2, 3, 1] {
        p.push(MEMBER_CHUNK, [0, member]);
      }
      p.push(ENTRY, [1, 0]);
      p.push(ENTRY, [2, 0]);
      try_it(p);
    }
  }
}
