//! The driver beside the original text (a child module, so that it may call the private parts).
use oxc_index::{IndexVec, index_vec};
use rolldown_common::{ChunkIdx, EcmaViewMeta, ModuleIdx, UsedSymbolRefsBuilder};
use rustc_hash::{FxHashMap, FxHashSet};

use super::{
  ChunkCycles, GenerateStage, OrderWrapPlan, RootOrderAnalysis, VisitState, grow_static_import_backward_closure,
  reverse_static_import_index,
};
use crate::chunk_graph::ChunkGraph;

// ------------------------------------------------- what `analyze_execution_order` calls besides

pub struct CarrierKey {
  pub importer: ModuleIdx,
}

pub struct CarrierState {
  seeds: Vec<ModuleIdx>,
}

impl CarrierState {
  pub fn order_cjs_carrier_keys(&self) -> impl Iterator<Item = CarrierKey> + '_ {
    self.seeds.iter().map(|&importer| CarrierKey { importer })
  }
}

impl GenerateStage<'_> {
  /// Carrier: the `chunk imports` rows.
  pub(super) fn predicted_static_import_edges(
    &self,
    _chunk_graph: &ChunkGraph,
    _used_symbol_refs_builder: &UsedSymbolRefsBuilder,
  ) -> IndexVec<ChunkIdx, FxHashSet<ChunkIdx>> {
    self.import_edges.clone()
  }

  /// Carrier: only the importers of the CJS carriers are asked for; they are the `seed` rows.
  pub(super) fn probe_order_state(
    &self,
    _chunk_graph: Option<&ChunkGraph>,
    _plan: &OrderWrapPlan,
    _used_symbol_refs_builder: &UsedSymbolRefsBuilder,
    _reverse_static_imports: &IndexVec<ModuleIdx, Vec<ModuleIdx>>,
  ) -> CarrierState {
    CarrierState { seeds: self.seeds.to_vec() }
  }
}

// ------------------------------------------------- the parts, one by one

pub struct EntryResult {
  pub root: ModuleIdx,
  pub expected: Vec<ModuleIdx>,
  pub actual: Vec<ModuleIdx>,
  pub hosts: FxHashMap<ModuleIdx, ModuleIdx>,
  pub early: FxHashSet<ModuleIdx>,
  pub cycle: FxHashSet<ModuleIdx>,
  pub risk: FxHashSet<ModuleIdx>,
}

impl GenerateStage<'_> {
  /// The original's whole analysis, cut after the first `build_order_wrap_plan`.
  pub fn whole_plan(&self, chunk_graph: &ChunkGraph) -> Vec<ModuleIdx> {
    let analysis =
      self.analyze_execution_order(chunk_graph, &UsedSymbolRefsBuilder).expect("enabled");
    analysis.plan.modules().collect()
  }

  /// The body of `analyze_execution_order`'s loop over the entries, again, to show its parts.
  fn entry_in(
    &self,
    chunk_graph: &ChunkGraph,
    chunk_cycles: &ChunkCycles,
    root: ModuleIdx,
  ) -> Option<EntryResult> {
    if !self.link_output.metas[root].is_included {
      return None;
    }
    let &root_chunk = chunk_graph.entry_module_to_entry_chunk.get(&root)?;
    let expected = self.expected_order_for_root(root);
    let (actual, hosts) =
      self.actual_order_for_root(root, root_chunk, chunk_graph, self.import_edges);
    let early = self.at_risk_modules(&expected, &actual, &hosts);
    let mut cycle = FxHashSet::default();
    if chunk_cycles.reachable_from(root_chunk, self.import_edges) {
      cycle.extend(expected.iter().copied().filter(|idx| self.is_order_wrap_eligible(*idx)));
    }
    let risk = early.union(&cycle).copied().collect();
    Some(EntryResult { root, expected, actual, hosts, early, cycle, risk })
  }

  pub fn entry_results(&self, chunk_graph: &ChunkGraph) -> Vec<EntryResult> {
    let chunk_cycles = self.cycles();
    let roots = self.link_output.entries.keys();
    roots.filter_map(|&root| self.entry_in(chunk_graph, &chunk_cycles, root)).collect()
  }

  pub fn entry_result(&self, chunk_graph: &ChunkGraph, root: ModuleIdx) -> Option<EntryResult> {
    self.entry_in(chunk_graph, &self.cycles(), root)
  }

  pub fn actual_of(
    &self,
    chunk_graph: &ChunkGraph,
    root: ModuleIdx,
  ) -> (Vec<ModuleIdx>, FxHashMap<ModuleIdx, ModuleIdx>) {
    let root_chunk = chunk_graph.entry_module_to_entry_chunk[&root];
    self.actual_order_for_root(root, root_chunk, chunk_graph, self.import_edges)
  }

  fn cycles(&self) -> ChunkCycles {
    ChunkCycles::from_import_edges(self.import_edges)
  }

  pub fn cycle_count(&self) -> usize {
    self.cycles().sccs.len()
  }

  pub fn reaches_from(&self, chunk: ChunkIdx) -> bool {
    self.cycles().reachable_from(chunk, self.import_edges)
  }

  /// The analysed entries as `build_order_wrap_plan` takes them.
  fn roots(&self, chunk_graph: &ChunkGraph) -> Vec<RootOrderAnalysis> {
    let analysed = |root: &ModuleIdx| {
      self.link_output.metas[*root].is_included
        && chunk_graph.entry_module_to_entry_chunk.contains_key(root)
    };
    self
      .link_output
      .entries
      .keys()
      .copied()
      .filter(analysed)
      .map(|root| RootOrderAnalysis { root, expected_order: self.expected_order_for_root(root) })
      .collect()
  }

  /// `build_order_wrap_plan` from exactly these seeds.
  pub fn plan_from(&self, chunk_graph: &ChunkGraph, seeds: &[ModuleIdx]) -> Vec<ModuleIdx> {
    let chunk_cycles = self.cycles();
    let roots = self.roots(chunk_graph);
    let source_reachable = self.source_reachable_modules(&roots);
    let reverse = reverse_static_import_index(&self.link_output.module_table.modules);
    let plan = self.build_order_wrap_plan(
      seeds.iter().copied().collect(),
      &roots,
      chunk_graph,
      &chunk_cycles,
      &source_reachable,
      &reverse,
    );
    plan.modules().collect()
  }

  /// The modules outside `set` that each of the four rules asks for with just `set` planned, be it
  /// any set of modules. Each rule is the original function, called on the set as it stands.
  pub fn asked(&self, chunk_graph: &ChunkGraph, set: &[ModuleIdx]) -> [Vec<ModuleIdx>; 4] {
    let chunk_cycles = self.cycles();
    let current: FxHashSet<ModuleIdx> = set.iter().copied().collect();
    let planned = || {
      let mut plan = OrderWrapPlan::default();
      for &module in &current {
        plan.insert(module);
      }
      plan
    };
    let roots = self.roots(chunk_graph);
    let source_reachable = self.source_reachable_modules(&roots);
    let reverse = reverse_static_import_index(&self.link_output.module_table.modules);
    let mut asked: [FxHashSet<ModuleIdx>; 4] = Default::default();
    // Rule by rule, and for (i) entry by entry: the original adds to the plan as it goes.
    for root in roots.chunks(1) {
      let mut plan = planned();
      self.close_expected_sensitive_suffixes(root, &mut plan);
      asked[0].extend(plan.modules().filter(|module| !current.contains(module)));
    }
    let mut plan = planned();
    self.close_cyclic_chunk_members(chunk_graph, &chunk_cycles, &mut plan);
    asked[1].extend(plan.modules().filter(|module| !current.contains(module)));
    let mut reaches = FxHashSet::default();
    grow_static_import_backward_closure(&reverse, current.iter().copied(), &mut reaches);
    for module in self.link_output.module_table.modules.indices() {
      if !source_reachable.contains(&module)
        || !self.is_order_wrap_eligible(module)
        || current.contains(&module)
      {
        continue;
      }
      if self.statically_imports_wrapped_member(module, &current, &reaches) {
        asked[2].insert(module);
      }
      if self.top_level_reads_wrapped_export(module, &current) {
        asked[3].insert(module);
      }
    }
    asked.map(|set| set.into_iter().collect())
  }

  pub fn expected_of(&self, root: ModuleIdx) -> Vec<ModuleIdx> {
    self.expected_order_for_root(root)
  }

  /// The loop of `wrap_all_order_analysis` over any modules, with the lists that it asks for one after the other.
  pub fn expected_together(&self, roots: &[ModuleIdx]) -> Vec<ModuleIdx> {
    let mut states = index_vec![VisitState::Unvisited; self.link_output.module_table.modules.len()];
    let included = |root: &&ModuleIdx| self.link_output.metas[**root].is_included;
    roots.iter().filter(included).flat_map(|&root| self.expected_order_for_root_with_states(root, &mut states)).collect()
  }

  pub fn wrap_all(&self) -> Vec<ModuleIdx> {
    self.wrap_all_order_analysis().plan.modules().collect()
  }

  pub fn sensitive(&self, module: ModuleIdx) -> bool {
    self.is_order_sensitive(module)
  }

  /// Why a module is sensitive: 1 for its flag, 2 for a use, 3 for both, 0 for one that isn't.
  pub fn ground(&self, module: ModuleIdx) -> u32 {
    if !self.is_order_sensitive(module) {
      return 0;
    }
    let flagged = self.link_output.module_table[module]
      .as_normal()
      .is_some_and(|normal| normal.meta.contains(EcmaViewMeta::ExecutionOrderSensitive));
    u32::from(flagged) + 2 * u32::from(self.eagerly_triggers_interop_module(module))
  }

  pub fn eligible(&self, module: ModuleIdx) -> bool {
    self.is_order_wrap_eligible(module)
  }

  /// Lowest chunk row of the component of each cyclic chunk.
  pub fn labels(&self) -> Vec<Option<ChunkIdx>> {
    let cycles = self.cycles();
    self
      .import_edges
      .indices()
      .map(|chunk| {
        cycles.scc_of_chunk.get(&chunk).map(|&scc| *cycles.sccs[scc].iter().min().unwrap())
      })
      .collect()
  }

  pub fn reaches(&self) -> Vec<bool> {
    let cycles = self.cycles();
    self
      .import_edges
      .indices()
      .map(|chunk| cycles.reachable_from(chunk, self.import_edges))
      .collect()
  }
}
