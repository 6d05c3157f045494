//! The carriers of a project. It must be one that document 01 accepts: nothing is refused here.
use oxc_index::{Idx, IndexVec, index_vec};
use project::{MARK, Project, column::*};
use rolldown_common::{
  Chunk, ChunkIdx, ChunkKind, ChunkModulesOrderBy, EcmaViewMeta, EntryPoint, ExportsKind, ExternalModule, ImportKind,
  ImportRecord, ImportRecordIdx, MemberExprRef, MemberExprRefResolution, Module, ModuleId, ModuleIdx,
  ModuleTable, NormalModule, RuntimeHelper, RuntimeModuleBrief, StmtInfo, StmtInfoBits, StmtInfos,
  SymbolId, SymbolOrMemberExprRef, SymbolRef, SymbolRefDb, WrapKind,
};
use rolldown_error::{Diagnostics, EventKindSwitcher};
use rolldown_utils::indexmap::{FxIndexMap, FxIndexSet};
use rustc_hash::{FxHashMap, FxHashSet};

use crate::{
  SharedOptions,
  chunk_graph::ChunkGraph,
  options::{CodeSplitting, Experimental},
  stages::link_stage::{LinkStage, LinkStageOutput, LinkingMetadata},
};

pub fn module_rows(rows: &[u32]) -> Vec<ModuleIdx> {
  rows.iter().map(|&raw| ModuleIdx::from_raw(raw)).collect()
}

fn chunk_row(raw: u32) -> Option<ChunkIdx> {
  (raw != MARK).then(|| ChunkIdx::from_raw(raw))
}

pub fn options(p: &Project) -> SharedOptions {
  SharedOptions {
    code_splitting: CodeSplitting { disabled: p.dynamic == 1 },
    checks: EventKindSwitcher::empty(),
    // The other option than `ExecOrder`: read by `sort_chunk_modules` alone, which is called exactly if there are names.
    experimental: Experimental { chunk_modules_order: Some(ChunkModulesOrderBy::ModuleId) },
  }
}

/// The module's name, or its number where there are no names.
fn module_id(names: &[Vec<u8>], at: usize) -> ModuleId {
  ModuleId(names.get(at).map_or_else(|| at.to_string(), |name| String::from_utf8(name.clone()).unwrap()))
}

fn module(p: &Project, names: &[Vec<u8>], at: usize) -> Module {
  let (idx, id) = (ModuleIdx::from_usize(at), module_id(names, at));
  if p[NORMAL][at] == 0 {
    let import_records = index_vec![];
    return Module::External(Box::new(ExternalModule { idx, id, exec_order: MARK, import_records }));
  }
  let mut meta = EcmaViewMeta::default();
  if p[SENSITIVE][at] == 1 {
    meta.insert(EcmaViewMeta::ExecutionOrderSensitive);
  }
  if p[READS][at] == 1 {
    meta.insert(EcmaViewMeta::TopLevelImportRead);
  }
  let exports_kind =
    [ExportsKind::None, ExportsKind::Esm, ExportsKind::CommonJs][p[EXPORTS][at] as usize];
  Module::Normal(Box::new(NormalModule {
    idx,
    id,
    exec_order: MARK,
    meta,
    exports_kind,
    import_records: index_vec![],
  }))
}

/// What `sort_modules` reads.
pub fn link_stage<'a>(p: &Project, options: &'a SharedOptions) -> LinkStage<'a> {
  const KINDS: [ImportKind; 4] =
    [ImportKind::Import, ImportKind::Require, ImportKind::DynamicImport, ImportKind::Other];
  let names = p.module_names();
  let mut modules: IndexVec<ModuleIdx, Module> =
    (0..p.modules()).map(|at| module(p, &names, at)).collect();
  for row in 0..p[RECORD_MODULE].len() {
    let kind = KINDS[p[RECORD_KIND][row] as usize];
    let target = p[RECORD_TARGET][row];
    let resolved_module = (target != MARK).then(|| ModuleIdx::from_raw(target));
    let Module::Normal(module) = &mut modules[ModuleIdx::from_raw(p[RECORD_MODULE][row])] else {
      panic!("an external with a record")
    };
    module.import_records.push(ImportRecord { kind, resolved_module });
  }
  let mut entries: FxIndexMap<ModuleIdx, Vec<EntryPoint>> = FxIndexMap::default();
  for &entry in &p[ENTRY] {
    entries.entry(ModuleIdx::from_raw(entry)).or_default().push(EntryPoint);
  }
  LinkStage {
    module_table: ModuleTable { modules },
    entries,
    runtime: RuntimeModuleBrief { id: ModuleIdx::from_raw(p.runtime) },
    sorted_modules: Vec::new(),
    diagnostics: Diagnostics::default(),
    options,
  }
}

fn symbol(p: &Project, row: u32) -> SymbolRef {
  SymbolRef { owner: ModuleIdx::from_raw(p[OWNER][row as usize]), symbol: SymbolId::from_raw(row) }
}

fn metas(p: &Project) -> IndexVec<ModuleIdx, LinkingMetadata> {
  const WRAPS: [WrapKind; 3] = [WrapKind::None, WrapKind::Cjs, WrapKind::Esm];
  let mut metas: IndexVec<ModuleIdx, LinkingMetadata> = (0..p.modules())
    .map(|at| LinkingMetadata {
      is_included: p[INCLUDED][at] == 1,
      wrap: WRAPS[p[WRAP][at] as usize],
      execution_dependencies: FxIndexSet::default(),
      stmt_info_included: StmtInfoBits { bits: vec![false] },
      resolved_member_expr_refs: FxHashMap::default(),
    })
    .collect();
  for (module, dependency) in p.pairs(DEPENDENCY_MODULE) {
    metas[ModuleIdx::from_raw(module)]
      .execution_dependencies
      .insert(ModuleIdx::from_raw(dependency));
  }
  metas
}

/// For each record row its place within its module.
fn record_places(p: &Project) -> Vec<ImportRecordIdx> {
  let mut seen = vec![0; p.modules()];
  p[RECORD_MODULE]
    .iter()
    .map(|&module| {
      let place = ImportRecordIdx::from_raw(seen[module as usize]);
      seen[module as usize] += 1;
      place
    })
    .collect()
}

/// A reference row; form 2 puts its resolution into `metas`.
fn reference(
  p: &Project,
  row: usize,
  depended: &FxHashMap<u32, Vec<SymbolRef>>,
  meta: &mut LinkingMetadata,
) -> SymbolOrMemberExprRef {
  let expr = row as u32;
  let named = p[REFERENCE_SYMBOL][row];
  let object_ref = match p[REFERENCE_FORM][row] {
    0 => return SymbolOrMemberExprRef::Symbol(symbol(p, named)),
    1 => symbol(p, named),
    _ => {
      let resolved = (named != MARK).then(|| symbol(p, named));
      let depended_refs = depended.get(&expr).cloned().unwrap_or_default();
      let resolution = MemberExprRefResolution { resolved, depended_refs };
      meta.resolved_member_expr_refs.insert(expr, resolution);
      // Not in the text form and never read: looking it up would panic.
      SymbolRef { owner: ModuleIdx::from_raw(MARK), symbol: SymbolId::from_raw(MARK) }
    }
  };
  SymbolOrMemberExprRef::MemberExpr(MemberExprRef { object_ref, expr })
}

/// The link stage's result, with the columns that the generate stage reads.
pub fn link_output(p: &Project, stage: LinkStage<'_>) -> LinkStageOutput {
  let mut metas = metas(p);
  let mut stmt_infos: IndexVec<ModuleIdx, StmtInfos> =
    (0..p.modules()).map(|_| StmtInfos::default()).collect();
  let mut place_of_statement = Vec::new();
  for (module, included) in p.pairs(STATEMENT_MODULE) {
    let module = ModuleIdx::from_raw(module);
    place_of_statement.push((module, stmt_infos[module].infos.push(StmtInfo::default())));
    metas[module].stmt_info_included.bits.push(included == 1);
  }
  let place_of_record = record_places(p);
  for (statement, record) in p.pairs(USE_STATEMENT) {
    let (module, statement) = place_of_statement[statement as usize];
    stmt_infos[module].infos[statement].import_records.push(place_of_record[record as usize]);
  }
  let mut depended: FxHashMap<u32, Vec<SymbolRef>> = FxHashMap::default();
  for (reference, depended_symbol) in p.pairs(DEPENDED_REFERENCE) {
    depended.entry(reference).or_default().push(symbol(p, depended_symbol));
  }
  for row in 0..p[REFERENCE_STATEMENT].len() {
    let (module, statement) = place_of_statement[p[REFERENCE_STATEMENT][row] as usize];
    let made = reference(p, row, &depended, &mut metas[module]);
    stmt_infos[module].infos[statement].referenced_symbols.push(made);
  }
  let canonical = p[CANONICAL].iter().map(|&row| symbol(p, row)).collect();
  let mut chains: FxHashMap<SymbolRef, Vec<SymbolRef>> = FxHashMap::default();
  for (from, link) in p.pairs(CHAIN_SYMBOL) {
    chains.entry(symbol(p, from)).or_default().push(symbol(p, link));
  }
  LinkStageOutput {
    module_table: stage.module_table,
    entries: stage.entries,
    sorted_modules: stage.sorted_modules,
    metas,
    symbol_db: SymbolRefDb { canonical },
    stmt_infos,
    runtime: stage.runtime,
    normal_symbol_exports_chain_map: chains,
  }
}

pub fn chunk_graph(p: &Project) -> ChunkGraph {
  let mut graph = ChunkGraph::new(p.modules());
  for &exec_order in &p[ORDER] {
    graph.add_chunk(Chunk {
      kind: ChunkKind::Common,
      exec_order,
      modules: Vec::new(),
      depended_runtime_helper: RuntimeHelper::default(),
    });
  }
  // Not `add_module_to_chunk`: the column and the member rows needn't agree.
  for (chunk, member) in p.pairs(MEMBER_CHUNK) {
    graph.chunk_table.chunks[ChunkIdx::from_raw(chunk)].modules.push(ModuleIdx::from_raw(member));
  }
  for (at, &chunk) in p[CHUNK].iter().enumerate() {
    graph.module_to_chunk[ModuleIdx::from_usize(at)] = chunk_row(chunk);
  }
  for (entry, chunk) in p.pairs(ENTRY) {
    if let Some(chunk) = chunk_row(chunk) {
      graph.entry_module_to_entry_chunk.insert(ModuleIdx::from_raw(entry), chunk);
    }
  }
  graph
}

pub fn import_edges(p: &Project) -> IndexVec<ChunkIdx, FxHashSet<ChunkIdx>> {
  let mut edges: IndexVec<ChunkIdx, FxHashSet<ChunkIdx>> =
    index_vec![FxHashSet::default(); p.chunks()];
  for (chunk, imported) in p.pairs(IMPORT_CHUNK) {
    edges[ChunkIdx::from_raw(chunk)].insert(ChunkIdx::from_raw(imported));
  }
  edges
}
