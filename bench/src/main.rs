//! `bench [--whole] [--growth] [--single] [--forty] [--names] [--tests] [WORD..]`: times the original's functions and the library's on every shape whose name has a WORD. See ../README.md.
mod clock;
mod shapes;
mod works;

use oracle::on_a_deep_stack;
use project::{Project, column::*};
use shapes::Shape;
use works::Ready;

/// The row counts that tell a shape.
fn rows(p: &Project) -> String {
  let lists = [
    ("modules", NORMAL),
    ("records", RECORD_MODULE),
    ("dependencies", DEPENDENCY_MODULE),
    ("statements", STATEMENT_MODULE),
    ("references", REFERENCE_STATEMENT),
    ("chunks", ORDER),
    ("members", MEMBER_CHUNK),
    ("imports", IMPORT_CHUNK),
    ("entries", ENTRY),
    ("seeds", SEED),
  ];
  lists.map(|(name, column)| format!("{name} {}", p[column].len())).join(", ")
}

fn whole(shapes: &[Shape]) {
  clock::head("shape | rows");
  for shape in shapes {
    let project = shape.project();
    println!("| {} | {} | {} |", shape.name, rows(&project), Ready::of(&project).whole());
  }
  println!();
}

fn single(shapes: &[Shape]) {
  clock::head("shape | operation");
  for shape in shapes {
    for (operation, pair) in Ready::of(&shape.project()).single() {
      println!("| {} | {operation} | {pair} |", shape.name);
    }
  }
  println!();
}

fn plans(shapes: &[Shape]) {
  clock::head("shape | operation");
  for shape in shapes {
    for (operation, pair) in Ready::of(&shape.project()).plans() {
      println!("| {} | {operation} | {pair} |", shape.name);
    }
  }
  println!();
}

fn forty(shapes: &[Shape]) {
  clock::head("shape | expected orders");
  for shape in shapes {
    for (calls, pair) in Ready::of(&shape.project()).forty() {
      println!("| {} | {calls} | {pair} |", shape.name);
    }
  }
  println!();
}

fn names(shapes: &[Shape]) {
  clock::head("shape | operation");
  for shape in shapes {
    let project = shape.project();
    let ready = Ready::of(&project);
    println!("| {} | arrangement | {} |", shape.name, ready.arrangement());
    println!("| {} | whole analysis | {} |", shape.name, ready.whole());
  }
  println!();
}

fn tests(shapes: &[Shape]) {
  println!("| shape | rows | ours, us | ours, median |\n|---|---|---|---|");
  for shape in shapes {
    let project = shape.project();
    println!("| {} | {} | {} |", shape.name, rows(&project), Ready::of(&project).tests());
  }
  println!();
}

fn run(words: Vec<String>) {
  let (flags, words): (Vec<String>, Vec<String>) =
    words.into_iter().partition(|word| word.starts_with("--"));
  let flag = |name: &str| flags.is_empty() || flags.iter().any(|flag| flag == name);
  let named = |shape: &Shape| words.is_empty() || words.iter().any(|word| shape.name.contains(word));
  let shapes: Vec<Shape> = shapes::all().into_iter().filter(named).collect();
  println!(
    "Processor time, the least of {} to {} turns after one untimed run of each; the two sides run in turns, on warm caches.\n",
    clock::FEWEST,
    clock::MOST
  );
  if flag("--whole") {
    println!("Whole analysis\n");
    whole(&shapes);
  }
  if flag("--growth") {
    println!("Whole analysis at a quarter, half and full size\n");
    let growing: Vec<Shape> = shapes::growing().into_iter().filter(named).collect();
    whole(&growing);
    println!("The plan from the seed rows at these sizes\n");
    plans(&growing);
  }
  if flag("--single") {
    println!("Single operations\n");
    single(&shapes);
  }
  if flag("--forty") {
    println!("Forty entries: one call, and forty\n");
    forty(&shapes);
  }
  if flag("--names") {
    println!("The arrangement of members, and the whole analysis with names, at a quarter, half and full size\n");
    names(&shapes::named().into_iter().filter(named).collect::<Vec<_>>());
  }
  if flag("--tests") {
    println!("The tests 1 to 4 alone\n");
    tests(&shapes);
  }
}

fn main() {
  let words = std::env::args().skip(1).collect();
  on_a_deep_stack(move || run(words));
}
