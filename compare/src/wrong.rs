//! Wrong readings. A comparison that can't tell one of them from the right reading is too weak.

macro_rules! wrong {
  ($($name:ident $words:literal,)*) => {
    #[derive(Clone, Copy, PartialEq, Eq, Debug)]
    pub enum Wrong { $($name,)* }

    impl Wrong {
      pub const ALL: &'static [Wrong] = &[$(Wrong::$name,)*];
      pub fn words(self) -> &'static str {
        match self { $(Wrong::$name => $words,)* }
      }
    }
  };
}

wrong! {
  // document 01's own wrong turns
  NeighboursOnly "comparing only neighbours for early modules",
  StopAtExcluded "not walking through modules that aren't included",
  RequireInExpected "walking Require in the expected order",
  SuffixOverInsensitive "closing the suffix over insensitive modules",
  ExcludedStatementSkipped "skipping excluded statements in (iv)",
  OneRound "one round of closure",
  SuffixFromInsensitive "a planned insensitive module starts a suffix",
  // sort
  RuntimeNotFirst "the runtime after the entries",
  SortIncludedEntries "the sort passes over entries that aren't included",
  DynamicNever "the sort never walks dynamic imports",
  DynamicAlways "the sort always walks dynamic imports",
  RequireNotSorted "the sort doesn't walk Require",
  ExternalsUnnumbered "externals take no number",
  ExternalsListed "externals are listed",
  // circles
  CirclesUnclosed "a circle without its closing module",
  CirclesRepeated "equal circles are kept",
  CirclesByLastReporter "of equal circles those are kept between which another module closed one there",
  // expected order
  ExternalRootListed "an external root is walked",
  ExcludedListed "modules that aren't included are listed",
  // many entries walked together
  MarksCleared "the marks are cleared between entries",
  ExcludedEntryWalked "an entry that isn't included is walked",
  // actual order
  ChunksByRow "imported chunks by row",
  ChunksAsWritten "imported chunks as they are written, whatever their order",
  TiesByChunkRow "of chunks with the same order the lower chunk row first",
  TiesByLaterImport "of chunks with the same order the later import row first",
  ImportsAfter "members before the imported chunks",
  WrappedMembersRun "wrapped members execute",
  UnwrappedRun "targets without wrap execute",
  ExcludedRun "modules that aren't included execute",
  RequireNotRun "Require targets don't execute",
  HostIsParent "the host is the importer",
  WrappedRootStays "a wrapped root doesn't execute last",
  EntryChunkByColumn "an entry's chunk is its module's `chunk`",
  // cyclic chunks
  SelfEdgeIgnored "an edge to itself isn't cyclic",
  LabelHighest "the highest chunk row as label",
  ReachNotItself "chunk reach doesn't count the chunk itself",
  ReachOnlyItself "chunk reach counts only the chunk itself",
  // risk
  RuntimeSensitive "the runtime may be sensitive",
  ExcludedSensitive "a module that isn't included may be sensitive",
  FlagEndsTheSearch "a set flag ends the search for a use",
  UseIgnored "uses don't make sensitive",
  ExcludedStatementTriggers "an excluded statement's use makes sensitive",
  RequireTriggers "a use of Require makes sensitive",
  ExternalTriggers "a use to an external makes sensitive",
  ExcludedTargetStays "a use to a module that isn't included doesn't make sensitive",
  RuntimeEligible "the runtime may be eligible",
  ExcludedEligible "a module that isn't included may be eligible",
  CommonJsEligible "CommonJs may be eligible",
  NoExportsIneligible "exports 0 isn't eligible",
  WrappedEligible "a wrapped module may be eligible",
  MissingNotFlagged "sensitive modules without actual place aren't flagged",
  PhantomNotFlagged "sensitive modules without expected place aren't flagged",
  EarlyNotFlagged "early modules aren't flagged",
  AbsentCountsLast "a module without actual place counts as last",
  HostSpared "no host is at risk",
  AnyHost "a host that isn't eligible is at risk",
  CycleStepLeftOut "no cycle step",
  CycleStepSensitiveOnly "the cycle step takes sensitive modules only",
  // plan
  ExcludedEntriesAnalysed "entries that aren't included are analysed",
  FirstEntryOnly "only the first entry is analysed",
  AnySeed "seeds that aren't eligible are planned",
  SeedRowsIgnored "the seed rows are left out",
  NoSuffix "no rule (i)",
  NoCycle "no rule (ii)",
  NoImport "no rule (iii)",
  NoRead "no rule (iv)",
  OwnChunkOnly "(ii) takes the module's own chunk only",
  CycleInsensitiveToo "(ii) takes insensitive members too",
  MembersByColumn "(ii) takes the modules whose `chunk` it is",
  ChunkByMembers "(ii) starts at every chunk that has the module as a member",
  ReachedOverIncluded "reached over included modules only",
  EntryNotReached "an entry doesn't count as reached",
  AllReached "every module counts as reached",
  DependencyIgnored "(iii) asks for no dependency",
  TargetIgnored "(iii) asks for no target",
  DependencyIsTarget "(iii) asks that the dependency is a target",
  DirectTargetOnly "(iii) doesn't follow a target",
  RequireLeads "(iii) takes a Require target",
  ReadsIgnored "(iv) doesn't ask for reads",
  PlainSymbolIgnored "(iv) leaves out form 0",
  ObjectIgnored "(iv) leaves out form 1",
  ResolvedIgnored "(iv) leaves out resolved",
  DependedIgnored "(iv) leaves out depended symbols",
  OwnerIgnored "a symbol's owner doesn't touch",
  CanonicalIgnored "a canonical's owner doesn't touch",
  ChainIgnored "a link of the symbol doesn't touch",
  CanonicalChainIgnored "a link of the canonical doesn't touch",
  CanonicalFollowedTwice "a canonical is followed again",
  LinksFollowedTwice "a link is followed again",
  // the check of a plan
  HighestNamed "the highest module that breaks a condition is named",
  SeedsCheckedFirst "the seeds are checked before the eligible modules",
  SuffixCheckedLater "(ii) is checked before (i)",
  SuffixGrows "(i) is checked on a plan that grows from entry to entry",
  AnySeedAsked "a seed that isn't eligible is asked for",
  AnyPlanned "a module that isn't eligible may be in a plan",
  // replaced modules
  TargetsAsWritten "record targets are read as written",
  DependenciesAsWritten "dependencies are read as written",
  OneStepOnly "a module is read through one replacement only",
  OldRecordsKept "a superseding module keeps the old one's records",
  MembersReplaced "members are read through",
  EntriesReplaced "entries are read through",
  OwnersReplaced "symbol owners are read through",
  SeedsReplaced "seed rows are read through",
  RuntimeReplaced "the runtime is read through",
  // the arrangement of members
  MembersAsWritten "members are read as written where there are names",
  TildeAsItself "`~` at the start of a name is itself",
  TildeInside "`~` inside a name stands for byte 0 too",
  OwnLast "rolldown's own modules come last",
  OwnByName "rolldown's own modules by name",
  OwnWithoutColon "a name that begins `rolldown` is one of rolldown's own",
  OwnWithoutZero "a name that begins `rolldown/` is one of rolldown's own",
  LeavesLast "the leaves come last",
  LeavesByNumber "the leaves by module number",
  LeavesByDerived "a leaf isn't sensitive, by its flag or by a use",
  LeavesWithoutImports "a leaf has no record of kind 0",
  ExternalLeaves "an external may be a leaf",
  OthersByName "the others by name",
  NumbersAsWritten "module numbers of the records as written",
  UnreachedFirst "an unreached module comes first",
  MembersOnce "a member that stands twice is kept once",
}

impl Wrong {
  /// Leaving out each of the four rules.
  pub const RULES: [Wrong; 4] = [Wrong::NoSuffix, Wrong::NoCycle, Wrong::NoImport, Wrong::NoRead];

  /// The readings of the check of a plan alone.
  pub const CHECKS: [Wrong; 6] = [
    Wrong::HighestNamed,
    Wrong::SeedsCheckedFirst,
    Wrong::SuffixCheckedLater,
    Wrong::SuffixGrows,
    Wrong::AnySeedAsked,
    Wrong::AnyPlanned,
  ];

  /// The readings of ties. The original leaves these open: the model tells them.
  pub const TIES: [Wrong; 2] = [Wrong::TiesByChunkRow, Wrong::TiesByLaterImport];
}
