//! Document 01's project as columns, with C-24's names, and its text form.

pub mod text;

/// The missing mark, `-` in text.
pub const MARK: u32 = u32::MAX;

/// The 34 columns, by place.
pub mod column {
  pub const NORMAL: usize = 0;
  pub const INCLUDED: usize = 1;
  pub const SENSITIVE: usize = 2;
  pub const READS: usize = 3;
  pub const EXPORTS: usize = 4;
  pub const WRAP: usize = 5;
  pub const CHUNK: usize = 6;
  pub const NEWER: usize = 7;
  pub const RECORD_MODULE: usize = 8;
  pub const RECORD_KIND: usize = 9;
  pub const RECORD_TARGET: usize = 10;
  pub const DEPENDENCY_MODULE: usize = 11;
  pub const DEPENDENCY: usize = 12;
  pub const STATEMENT_MODULE: usize = 13;
  pub const STATEMENT_INCLUDED: usize = 14;
  pub const USE_STATEMENT: usize = 15;
  pub const USE_RECORD: usize = 16;
  pub const OWNER: usize = 17;
  pub const CANONICAL: usize = 18;
  pub const CHAIN_SYMBOL: usize = 19;
  pub const CHAIN_LINK: usize = 20;
  pub const REFERENCE_STATEMENT: usize = 21;
  pub const REFERENCE_FORM: usize = 22;
  pub const REFERENCE_SYMBOL: usize = 23;
  pub const DEPENDED_REFERENCE: usize = 24;
  pub const DEPENDED: usize = 25;
  pub const ORDER: usize = 26;
  pub const MEMBER_CHUNK: usize = 27;
  pub const MEMBER: usize = 28;
  pub const IMPORT_CHUNK: usize = 29;
  pub const IMPORTS: usize = 30;
  pub const ENTRY: usize = 31;
  pub const ENTRY_CHUNK: usize = 32;
  pub const SEED: usize = 33;
}

pub const COLUMNS: usize = 34;

/// A row list: its line of names, its first column and how many it has.
pub struct List {
  pub names: &'static str,
  pub first: usize,
  pub width: usize,
}

const fn list(names: &'static str, first: usize, width: usize) -> List {
  List { names, first, width }
}

/// The line of names of the two settings.
pub const SETTINGS: &str = "runtime dynamic";

/// The line of the list of names, which may follow the row lists.
pub const NAMES: &str = "name";

/// The fourteen row lists, in order.
pub const LISTS: [List; 14] = [
  list("normal included sensitive reads exports wrap chunk newer", column::NORMAL, 8),
  list("module kind target", column::RECORD_MODULE, 3),
  list("module dependency", column::DEPENDENCY_MODULE, 2),
  list("module included", column::STATEMENT_MODULE, 2),
  list("statement record", column::USE_STATEMENT, 2),
  list("owner canonical", column::OWNER, 2),
  list("symbol link", column::CHAIN_SYMBOL, 2),
  list("statement form symbol", column::REFERENCE_STATEMENT, 3),
  list("reference depended", column::DEPENDED_REFERENCE, 2),
  list("order", column::ORDER, 1),
  list("chunk member", column::MEMBER_CHUNK, 2),
  list("chunk imports", column::IMPORT_CHUNK, 2),
  list("entry chunk", column::ENTRY, 2),
  list("seed", column::SEED, 1),
];

#[derive(Clone, Debug, PartialEq, Eq)]
pub struct Project {
  pub runtime: u32,
  pub dynamic: u32,
  pub columns: [Vec<u32>; COLUMNS],
  /// The lines of the list `name`, an LF after each; empty where there is no name at all.
  pub names: Vec<u8>,
}

impl Default for Project {
  fn default() -> Self {
    Self { runtime: 0, dynamic: 0, columns: [const { Vec::new() }; COLUMNS], names: Vec::new() }
  }
}

impl std::ops::Index<usize> for Project {
  type Output = Vec<u32>;
  fn index(&self, column: usize) -> &Vec<u32> {
    &self.columns[column]
  }
}

impl std::ops::IndexMut<usize> for Project {
  fn index_mut(&mut self, column: usize) -> &mut Vec<u32> {
    &mut self.columns[column]
  }
}

impl Project {
  pub fn modules(&self) -> usize {
    self[column::NORMAL].len()
  }
  pub fn chunks(&self) -> usize {
    self[column::ORDER].len()
  }
  /// Where each column starts where all stand one after the other, and where the last ends.
  pub fn bounds(&self) -> Vec<u32> {
    let ends = self.columns.iter().scan(0, |end, column| {
      *end += column.len() as u32;
      Some(*end)
    });
    std::iter::once(0).chain(ends).collect()
  }
  /// Whether the project has names.
  pub fn is_named(&self) -> bool {
    !self.names.is_empty()
  }
  /// The name of each line, where the names are of the form: "`~` at the start stands for byte 0".
  pub fn module_names(&self) -> Vec<Vec<u8>> {
    let lines = self.names.strip_suffix(b"\n").into_iter().flat_map(|lines| lines.split(|&byte| byte == b'\n'));
    let name = |line: &[u8]| match line {
      [b'~', rest @ ..] => [&[0], rest].concat(),
      _ => line.to_vec(),
    };
    lines.map(name).collect()
  }
  /// Adds a row to a list.
  pub fn push<const N: usize>(&mut self, first: usize, row: [u32; N]) {
    for (at, value) in row.into_iter().enumerate() {
      self.columns[first + at].push(value);
    }
  }
  /// The rows of a list of two columns.
  pub fn pairs(&self, first: usize) -> impl Iterator<Item = (u32, u32)> + '_ {
    self[first].iter().copied().zip(self[first + 1].iter().copied())
  }
  /// Whether some chunk imports two chunks of equal `order`: the Rust sort leaves their order open.
  pub fn tied(&self) -> bool {
    let mut seen: Vec<(u32, u32)> = self
      .pairs(column::IMPORT_CHUNK)
      .map(|(importer, imported)| (importer, self[column::ORDER][imported as usize]))
      .collect();
    seen.sort_unstable();
    seen.windows(2).any(|two| two[0] == two[1])
  }
}
