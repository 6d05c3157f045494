//! Takes rolldown's texts, unchanged, from the folder of its source when this crate is built.
//!
//! * `sort_modules.rs` and `chunk_graph.rs` are copied whole, byte for byte.
//! * From `order_analysis.rs` whole items are cut out by name (rustfmt layout: an item ends at the
//!   first line that is its own indentation and a closing brace), with their attributes and doc
//!   comments, and of `analyze_execution_order` the text from its first line up to and including
//!   `let one_shot_planned = plan.len();`. Two lines of ours close that function.
use std::{env, fs, path::Path};

const TOP: &[&str] = &[
  "pub(super) struct OrderAnalysis {",
  "pub(super) struct OrderWrapPlan {",
  "impl OrderWrapPlan {",
  "struct RootOrderAnalysis {",
  "enum VisitState {",
  "struct ActualOrderTraversal {",
  "pub(super) fn reverse_static_import_index(",
  "pub(super) fn grow_static_import_backward_closure(",
  "struct ChunkCycles {",
  "impl ChunkCycles {",
  "fn premature_sensitive_modules(",
];

const METHODS: &[&str] = &[
  "wrap_all_order_analysis",
  "expected_order_for_root",
  "expected_order_for_root_with_states",
  "actual_order_for_root",
  "visit_actual_chunk",
  "execute_actual_module",
  "at_risk_modules",
  "sensitive_order",
  "build_order_wrap_plan",
  "close_cyclic_chunk_members",
  "close_expected_sensitive_suffixes",
  "source_reachable_modules",
  "statically_imports_wrapped_member",
  "top_level_reads_wrapped_export",
  "reference_touches_wrapped_export",
  "symbol_touches_wrapped_export",
  "is_order_sensitive",
  "eagerly_triggers_interop_module",
  "is_order_wrap_eligible",
];

const PREFIX_START: &str = "  pub(super) fn analyze_execution_order(";
const PREFIX_END: &str = "    let one_shot_planned = plan.len();";

/// The only line of `lines` for which `test` holds.
fn only(lines: &[&str], what: &str, test: impl Fn(&str) -> bool) -> usize {
  let found: Vec<usize> = (0..lines.len()).filter(|&at| test(lines[at])).collect();
  assert_eq!(found.len(), 1, "{what}: found {} times", found.len());
  found[0]
}

/// First and last line of the item whose head is at `head`, attributes and doc comments included.
fn item(lines: &[&str], head: usize) -> (usize, usize) {
  let indent = &lines[head][..lines[head].len() - lines[head].trim_start().len()];
  let mut first = head;
  while first > 0 {
    let above = lines[first - 1];
    let Some(rest) = above.strip_prefix(indent) else { break };
    if rest.starts_with("#[") || rest.starts_with("///") {
      first -= 1;
    } else {
      break;
    }
  }
  let close = format!("{indent}}}");
  let last = (head..lines.len()).find(|&at| lines[at] == close).expect("item is closed");
  (first, last)
}

fn main() {
  let dir = env::var("ROLLDOWN_SOURCE").expect("ROLLDOWN_SOURCE names the folder of rolldown 1.2.16's source");
  let out = env::var("OUT_DIR").unwrap();
  println!("cargo:rerun-if-env-changed=ROLLDOWN_SOURCE");
  println!("cargo:rerun-if-changed=build.rs");
  let read = |name: &str| {
    let path = Path::new(&dir).join(name);
    println!("cargo:rerun-if-changed={}", path.display());
    fs::read_to_string(&path).unwrap_or_else(|e| panic!("{}: {e}", path.display()))
  };

  let sort = read("src/stages/link_stage/sort_modules.rs");
  fs::write(Path::new(&out).join("sort_modules.rs"), &sort).unwrap();
  let chunk_graph = read("src/chunk_graph.rs");
  fs::write(Path::new(&out).join("chunk_graph.rs"), &chunk_graph).unwrap();

  let text = read("src/stages/generate_stage/order_analysis.rs");
  let lines: Vec<&str> = text.lines().collect();
  let mut made = String::new();
  let mut listing = String::new();
  let mut take = |made: &mut String, first: usize, last: usize, name: &str| {
    let piece = lines[first..=last].join("\n");
    assert!(text.contains(&piece), "{name} isn't in the text as it stands");
    made.push_str(&piece);
    made.push('\n');
    listing.push_str(&format!("{:>5} {:>5}  {}\n", first + 1, last + 1, name));
  };

  for head in TOP {
    let at = only(&lines, head, |line| line == *head);
    let (first, last) = item(&lines, at);
    take(&mut made, first, last, head);
    made.push('\n');
  }
  made.push_str("impl GenerateStage<'_> {\n");
  for name in METHODS {
    let at = only(&lines, name, |line| {
      line.strip_prefix("  fn ").is_some_and(|rest| {
        rest.strip_prefix(name).is_some_and(|rest| rest.starts_with('('))
      })
    });
    let (first, last) = item(&lines, at);
    take(&mut made, first, last, name);
    made.push('\n');
  }
  let first = only(&lines, PREFIX_START, |line| line == PREFIX_START);
  let last = only(&lines, PREFIX_END, |line| line == PREFIX_END);
  take(&mut made, first, last, "analyze_execution_order, up to one_shot_planned");
  made.push_str("    let _ = one_shot_planned; // ours: the cut\n");
  made.push_str("    Some(OrderAnalysis { plan }) // ours: the cut\n  }\n}\n");
  fs::write(Path::new(&out).join("order_analysis.rs"), &made).unwrap();
  fs::write(Path::new(&out).join("taken.txt"), &listing).unwrap();
}
