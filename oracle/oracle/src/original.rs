//! What the original says of a project, as plain numbers.
use oxc_index::{Idx, IndexVec};
use project::{MARK, Project};
use rolldown_common::{ChunkIdx, EcmaViewMeta, ModuleIdx};
use rolldown_error::EventKindSwitcher;
use rustc_hash::FxHashSet;

use crate::{
  SharedOptions, carriers,
  chunk_graph::ChunkGraph,
  stages::{generate_stage::GenerateStage, link_stage::LinkStageOutput},
};

/// Chunk and module visits of the original recurse: up to 1,024 and 4,096 deep.
pub fn on_a_deep_stack<T: Send + 'static>(run: impl FnOnce() -> T + Send + 'static) -> T {
  std::thread::Builder::new().stack_size(512 << 20).spawn(run).unwrap().join().unwrap()
}

/// An analysed entry. Hosts have a place a module; the risk is the order risk, `early`, and the cycle risk, joined.
#[derive(Debug, PartialEq, Eq)]
pub struct Entry {
  pub root: u32,
  pub expected: Vec<u32>,
  pub actual: Vec<u32>,
  pub hosts: Vec<u32>,
  pub early: Vec<u32>,
  pub cycle: Vec<u32>,
  pub risk: Vec<u32>,
  /// Its chunk reaches one whose arrangement is open, or is one: actual order, hosts, order risk and risk are open too.
  pub open: bool,
}

/// The carriers of a project, after the sort.
pub struct Original {
  options: SharedOptions,
  output: LinkStageOutput,
  chunk_graph: ChunkGraph,
  import_edges: IndexVec<ChunkIdx, FxHashSet<ChunkIdx>>,
  seeds: Vec<ModuleIdx>,
  named: bool,
}

fn listed(list: &[ModuleIdx]) -> Vec<u32> {
  list.iter().map(|idx| idx.raw()).collect()
}

fn rising(set: impl IntoIterator<Item = ModuleIdx>) -> Vec<u32> {
  let mut list: Vec<u32> = set.into_iter().map(|idx| idx.raw()).collect();
  list.sort_unstable();
  list
}

/// The records and dependencies after replacement (C-18): a module that another supersedes is that one, and so on.
fn after_replacement(p: &Project) -> Project {
  let newer = &p[project::column::NEWER];
  let mut last: Vec<u32> = (0..newer.len() as u32).collect();
  for module in (0..newer.len()).rev() {
    if newer[module] != MARK {
      last[module] = last[newer[module] as usize];
    }
  }
  let mut replaced = p.clone();
  for column in [project::column::RECORD_TARGET, project::column::DEPENDENCY] {
    for module in &mut replaced[column] {
      if *module != MARK {
        *module = last[*module as usize];
      }
    }
  }
  replaced
}

/// The original's own circles, sorted: it keeps them in a hash set, and names the modules of each path (by their numbers here: two modules may have one name).
pub fn circles(p: &Project) -> Vec<Vec<u32>> {
  let mut options = carriers::options(p);
  options.checks = EventKindSwitcher::CircularDependency;
  let p = &Project { names: Vec::new(), ..after_replacement(p) };
  let mut stage = carriers::link_stage(p, &options);
  stage.sort();
  let module = |name: &String| name.parse().unwrap();
  let mut paths: Vec<Vec<u32>> =
    stage.diagnostics.0.iter().map(|circle| circle.paths.iter().map(module).collect()).collect();
  paths.sort_unstable();
  paths
}

impl Original {
  pub fn of(p: &Project) -> Self {
    let p = &after_replacement(p);
    let options = carriers::options(p);
    let mut stage = carriers::link_stage(p, &options);
    stage.sort();
    let output = carriers::link_output(p, stage);
    let mut chunk_graph = carriers::chunk_graph(p);
    if p.is_named() {
      chunk_graph.sort_chunk_modules(&output, &options);
    }
    Self {
      options,
      output,
      chunk_graph,
      import_edges: carriers::import_edges(p),
      seeds: carriers::module_rows(&p[project::column::SEED]),
      named: p.is_named(),
    }
  }

  /// What `sort_chunk_modules` compares: the group, and the number or, of a leaf, the name.
  fn sorted_by(&self, idx: ModuleIdx) -> (u32, u32, &str) {
    let module = &self.output.module_table[idx];
    let name = module.id().as_str();
    if name.starts_with("rolldown:") || name.starts_with("\0rolldown/") {
      return (0, module.exec_order(), "");
    }
    let leaf = |normal: &rolldown_common::NormalModule| {
      normal.import_records.is_empty() && !normal.meta.contains(EcmaViewMeta::ExecutionOrderSensitive)
    };
    if module.as_normal().is_some_and(leaf) { (1, 0, name) } else { (2, module.exec_order(), "") }
  }

  /// For each chunk whether two different modules of it tie in its arrangement: their order is left open.
  pub fn open_chunks(&self) -> Vec<bool> {
    let open = |members: Vec<u32>| {
      let mut rows: Vec<_> =
        members.into_iter().map(|m| (self.sorted_by(ModuleIdx::from_raw(m)), m)).collect();
      rows.sort_unstable();
      rows.dedup();
      rows.windows(2).any(|two| two[0].0 == two[1].0)
    };
    self.members().into_iter().map(|members| self.named && open(members)).collect()
  }

  /// Whether a chunk reaches one of some, itself counted.
  fn reaches_some(&self, chunk: ChunkIdx, some: &[bool]) -> bool {
    let mut met = vec![false; some.len()];
    let mut todo = vec![chunk];
    while let Some(chunk) = todo.pop() {
      if !std::mem::replace(&mut met[chunk.raw() as usize], true) {
        todo.extend(&self.import_edges[chunk]);
      }
    }
    met.iter().zip(some).any(|(met, is)| *met && *is)
  }

  fn stage(&self) -> GenerateStage<'_> {
    GenerateStage {
      link_output: &self.output,
      options: &self.options,
      import_edges: &self.import_edges,
      seeds: &self.seeds,
    }
  }

  fn modules(&self) -> impl Iterator<Item = ModuleIdx> {
    (0..self.output.metas.len()).map(ModuleIdx::from_usize)
  }

  pub fn sorted(&self) -> Vec<u32> {
    listed(&self.output.sorted_modules)
  }

  pub fn numbers(&self) -> Vec<u32> {
    self.modules().map(|idx| self.output.module_table[idx].exec_order()).collect()
  }

  pub fn expected(&self, root: u32) -> Vec<u32> {
    listed(&self.stage().expected_of(ModuleIdx::from_raw(root)))
  }

  /// The expected order of some modules walked together, the states kept between them.
  pub fn entries_together(&self, roots: &[u32]) -> Vec<u32> {
    listed(&self.stage().expected_together(&carriers::module_rows(roots)))
  }

  /// The wrap-all set.
  pub fn wrap_all(&self) -> Vec<u32> {
    rising(self.stage().wrap_all())
  }

  pub fn entries(&self) -> Vec<Entry> {
    let open = self.open_chunks();
    self
      .stage()
      .entry_results(&self.chunk_graph)
      .into_iter()
      .map(|entry| Entry {
        root: entry.root.raw(),
        expected: listed(&entry.expected),
        actual: listed(&entry.actual),
        hosts: self
          .modules()
          .map(|idx| entry.hosts.get(&idx).map_or(MARK, |host| host.raw()))
          .collect(),
        early: rising(entry.early),
        cycle: rising(entry.cycle),
        risk: rising(entry.risk),
        open: self.reaches_some(self.chunk_graph.entry_module_to_entry_chunk[&entry.root], &open),
      })
      .collect()
  }

  /// The whole analysis, up to `one_shot_planned`.
  pub fn plan(&self) -> Vec<u32> {
    rising(self.stage().whole_plan(&self.chunk_graph))
  }

  pub fn plan_from(&self, seeds: &[u32]) -> Vec<u32> {
    rising(self.stage().plan_from(&self.chunk_graph, &carriers::module_rows(seeds)))
  }

  /// The modules outside a set that each rule asks for with just the set planned.
  pub fn asked(&self, set: &[u32]) -> [Vec<u32>; 4] {
    self.stage().asked(&self.chunk_graph, &carriers::module_rows(set)).map(rising)
  }

  pub fn sensitive(&self) -> Vec<u32> {
    rising(self.modules().filter(|&idx| self.stage().sensitive(idx)))
  }

  /// A place a module.
  pub fn grounds(&self) -> Vec<u32> {
    self.modules().map(|idx| self.stage().ground(idx)).collect()
  }

  pub fn eligible(&self) -> Vec<u32> {
    rising(self.modules().filter(|&idx| self.stage().eligible(idx)))
  }

  /// A place a chunk, the mark where a chunk isn't cyclic.
  pub fn labels(&self) -> Vec<u32> {
    self.stage().labels().into_iter().map(|label| label.map_or(MARK, |chunk| chunk.raw())).collect()
  }

  /// The members of each chunk, as they stand: arranged where there are names.
  pub fn members(&self) -> Vec<Vec<u32>> {
    self.chunk_graph.chunk_table.iter().map(|chunk| listed(&chunk.modules)).collect()
  }

  /// A place a chunk.
  pub fn reaches(&self) -> Vec<bool> {
    self.stage().reaches()
  }

  // The original's own calls, for timing: nothing is copied or sorted after them.

  pub fn bare_expected(&self, root: u32) -> Vec<ModuleIdx> {
    self.stage().expected_of(ModuleIdx::from_raw(root))
  }

  pub fn bare_together(&self, roots: &[ModuleIdx]) -> Vec<ModuleIdx> {
    self.stage().expected_together(roots)
  }

  /// The root is an analysed entry, here and below.
  pub fn bare_actual(&self, root: u32) -> impl Sized + use<> {
    self.stage().actual_of(&self.chunk_graph, ModuleIdx::from_raw(root))
  }

  /// The carriers of the chunks as they are made, for timing.
  pub fn bare_arrangement(&self, p: &Project) -> impl FnMut() -> usize {
    let mut chunk_graph = carriers::chunk_graph(p);
    move || {
      chunk_graph.sort_chunk_modules(&self.output, &self.options);
      chunk_graph.chunk_table.len()
    }
  }

  pub fn bare_cycles(&self) -> usize {
    self.stage().cycle_count()
  }

  pub fn bare_reach(&self, chunk: u32) -> bool {
    self.stage().reaches_from(ChunkIdx::from_raw(chunk))
  }

  pub fn bare_risk(&self, root: u32) -> impl Sized + use<> {
    self.stage().entry_result(&self.chunk_graph, ModuleIdx::from_raw(root))
  }

  pub fn bare_plan(&self) -> usize {
    self.stage().whole_plan(&self.chunk_graph).len()
  }

  pub fn bare_plan_from(&self, seeds: &[ModuleIdx]) -> usize {
    self.stage().plan_from(&self.chunk_graph, seeds).len()
  }
}
