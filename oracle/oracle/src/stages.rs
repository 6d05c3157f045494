//! The two stages as carriers, with the original texts inside them.

pub mod link_stage {
  use oxc_index::IndexVec;
  use rolldown_common::{
    EntryPoint, MemberExprRefResolutionMap, ModuleIdx, ModuleTable, RuntimeModuleBrief, StmtInfoBits,
    StmtInfos, SymbolRef, SymbolRefDb, WrapKind,
  };
  use rolldown_error::Diagnostics;
  use rolldown_utils::indexmap::{FxIndexMap, FxIndexSet};
  use rustc_hash::FxHashMap;

  use crate::SharedOptions;

  /// `src/stages/link_stage/sort_modules.rs`, whole.
  mod sort_modules {
    include!(concat!(env!("OUT_DIR"), "/sort_modules.rs"));
  }

  pub struct LinkStage<'a> {
    pub module_table: ModuleTable,
    pub entries: FxIndexMap<ModuleIdx, Vec<EntryPoint>>,
    pub runtime: RuntimeModuleBrief,
    pub sorted_modules: Vec<ModuleIdx>,
    pub diagnostics: Diagnostics,
    pub options: &'a SharedOptions,
  }

  impl LinkStage<'_> {
    /// Opens `sort_modules`, which is `pub(super)`.
    pub fn sort(&mut self) {
      self.sort_modules();
    }
  }

  #[derive(Debug)]
  pub struct LinkingMetadata {
    pub is_included: bool,
    pub wrap: WrapKind,
    pub execution_dependencies: FxIndexSet<ModuleIdx>,
    pub stmt_info_included: StmtInfoBits,
    pub resolved_member_expr_refs: MemberExprRefResolutionMap,
  }

  impl LinkingMetadata {
    pub fn wrap_kind(&self) -> WrapKind {
      self.wrap
    }
  }

  pub struct LinkStageOutput {
    pub module_table: ModuleTable,
    pub entries: FxIndexMap<ModuleIdx, Vec<EntryPoint>>,
    pub sorted_modules: Vec<ModuleIdx>,
    pub metas: IndexVec<ModuleIdx, LinkingMetadata>,
    pub symbol_db: SymbolRefDb,
    pub stmt_infos: IndexVec<ModuleIdx, StmtInfos>,
    pub runtime: RuntimeModuleBrief,
    pub normal_symbol_exports_chain_map: FxHashMap<SymbolRef, Vec<SymbolRef>>,
  }
}

pub mod generate_stage {
  use oxc_index::IndexVec;
  use rolldown_common::{ChunkIdx, ModuleIdx};
  use rustc_hash::FxHashSet;

  use super::link_stage::LinkStageOutput;
  use crate::SharedOptions;

  pub struct GenerateStage<'a> {
    pub link_output: &'a LinkStageOutput,
    pub options: &'a SharedOptions,
    /// Carrier: what `predicted_static_import_edges` gives.
    pub import_edges: &'a IndexVec<ChunkIdx, FxHashSet<ChunkIdx>>,
    /// Carrier: the importers of `order_cjs_carrier_keys`, document 01's `seed` rows.
    pub seeds: &'a [ModuleIdx],
  }

  /// Parts of `src/stages/generate_stage/order_analysis.rs`, cut out whole by build.rs.
  pub mod order_analysis {
    use itertools::Itertools;
    use oxc_index::{IndexVec, index_vec};
    use petgraph::prelude::DiGraphMap;
    use rolldown_common::{
      ChunkIdx, EcmaViewMeta, ExportsKind, ImportKind, ImportRecordIdx, Module, ModuleIdx,
      NormalModule, SymbolOrMemberExprRef, SymbolRef, UsedSymbolRefsBuilder, WrapKind,
    };
    use rustc_hash::{FxHashMap, FxHashSet};

    use super::GenerateStage;
    use crate::chunk_graph::ChunkGraph;

    include!(concat!(env!("OUT_DIR"), "/order_analysis.rs"));

    /// Ours from here on.
    pub mod driver;
  }
}
