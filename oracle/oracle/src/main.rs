//! `oracle`: reads listings, prints what the original says of them. See ../../README.md.
use std::io::{Read as _, Write as _};

use oracle::{Original, on_a_deep_stack};
use project::{
  Project,
  text::{line, read_head},
};

#[derive(Default)]
struct Flags {
  all: bool,
  batch: bool,
  seeds: Vec<Vec<u32>>,
  roots: Vec<u32>,
  sets: Vec<Vec<u32>>,
  together: Vec<Vec<u32>>,
}

fn fail(why: &str) -> ! {
  eprintln!("oracle: {why}");
  std::process::exit(1)
}

fn numbers(text: &str, between: char) -> Vec<u32> {
  text
    .split(between)
    .filter(|field| !field.is_empty())
    .map(|field| field.parse().unwrap_or_else(|_| fail(&format!("not a number: {field}"))))
    .collect()
}

fn flags() -> Flags {
  let mut flags = Flags::default();
  let mut args = std::env::args().skip(1);
  let list = |args: &mut dyn Iterator<Item = String>| {
    numbers(&args.next().unwrap_or_else(|| fail("a list is missing")), ',')
  };
  while let Some(arg) = args.next() {
    match arg.as_str() {
      "--all" => flags.all = true,
      "--batch" => flags.batch = true,
      "--seeds" => flags.seeds.push(list(&mut args)),
      "--expected" => flags.roots.extend(list(&mut args)),
      "--asked" => flags.sets.push(list(&mut args)),
      "--together" => flags.together.push(list(&mut args)),
      other => fail(&format!("unknown flag {other}")),
    }
  }
  flags
}

/// What is asked besides: flags, and lines after the listing (ours, not the text form's).
fn asked_after(rest: &[u8], flags: &Flags) -> Flags {
  let mut asked = Flags {
    seeds: flags.seeds.clone(),
    roots: flags.roots.clone(),
    sets: flags.sets.clone(),
    together: flags.together.clone(),
    ..Flags::default()
  };
  for line in String::from_utf8_lossy(rest).lines() {
    let (word, values) = line.split_once(' ').unwrap_or((line, ""));
    let values = numbers(values, ' ');
    match word {
      "@seeds" => asked.seeds.push(values),
      "@expected" => asked.roots.extend(values),
      "@asked" => asked.sets.push(values),
      "@together" => asked.together.push(values),
      _ => fail(&format!("after the lists: {line}")),
    }
  }
  asked
}

fn answer(text: &[u8], flags: &Flags) -> String {
  let Some((project, rest)) = read_head(text) else { fail("not document 01's text form") };
  let asked = asked_after(rest, flags);
  if project.tied() {
    eprintln!("note: a chunk has imports of equal order; the Rust's order is open there");
  }
  let original = Original::of(&project);
  if original.open_chunks().contains(&true) {
    eprintln!("note: two modules of a chunk tie in its arrangement; the Rust's order is open there");
  }
  let entries = original.entries();
  let plan = original.plan();
  // The printed risks and the original's loop must tell the same: same seeds, same plan.
  let mut seeds = project[project::column::SEED].clone();
  seeds.extend(entries.iter().flat_map(|entry| entry.risk.iter().copied()));
  assert_eq!(plan, original.plan_from(&seeds), "the driver's loop differs");

  let mut out = String::new();
  line(&mut out, "sorted", &original.sorted());
  for entry in &entries {
    line(&mut out, &format!("expected {}", entry.root), &entry.expected);
    line(&mut out, &format!("actual {}", entry.root), &entry.actual);
    line(&mut out, &format!("early {}", entry.root), &entry.early);
    line(&mut out, &format!("cycle {}", entry.root), &entry.cycle);
  }
  for (module, &ground) in original.grounds().iter().enumerate() {
    if ground > 0 {
      line(&mut out, &format!("ground {module}"), &[ground]);
    }
  }
  line(&mut out, "plan", &plan);
  if flags.all {
    line(&mut out, "numbers", &original.numbers());
    if project.is_named() {
      for (chunk, members) in original.members().into_iter().enumerate() {
        line(&mut out, &format!("members {chunk}"), &members);
      }
    }
    for entry in &entries {
      line(&mut out, &format!("hosts {}", entry.root), &entry.hosts);
    }
    line(&mut out, "labels", &original.labels());
    for (chunk, reaches) in original.reaches().into_iter().enumerate() {
      line(&mut out, &format!("reach {chunk}"), &[u32::from(reaches)]);
    }
    line(&mut out, "sensitive", &original.sensitive());
    line(&mut out, "eligible", &original.eligible());
    line(&mut out, "wrapall", &original.wrap_all());
  }
  further(&mut out, &project, &original, &asked);
  out
}

/// Plans from given seeds, expected orders of any root and of some walked together, and what each rule asks for.
fn further(out: &mut String, project: &Project, original: &Original, asked: &Flags) {
  let known = |list: &[u32]| {
    if list.iter().any(|&row| row as usize >= project.modules()) {
      fail("a module that has no row is asked for");
    }
  };
  for seeds in &asked.seeds {
    known(seeds);
    line(out, "planfrom", &original.plan_from(seeds));
  }
  known(&asked.roots);
  for &root in &asked.roots {
    line(out, &format!("expectedof {root}"), &original.expected(root));
  }
  for entries in &asked.together {
    known(entries);
    line(out, "together", &original.entries_together(entries));
  }
  for set in &asked.sets {
    known(set);
    for (rule, modules) in original.asked(set).into_iter().enumerate() {
      line(out, &format!("asked{}", rule + 1), &modules);
    }
  }
}

fn run() {
  let flags = flags();
  let mut text = Vec::new();
  std::io::stdin().read_to_end(&mut text).unwrap();
  let mut stdout = std::io::stdout().lock();
  let mut write = |out: &str| stdout.write_all(out.as_bytes()).unwrap();
  if !flags.batch {
    write(&answer(&text, &flags));
    return;
  }
  let mut rest = text.as_slice();
  while !rest.is_empty() {
    const BETWEEN: &[u8] = b"\n====\n";
    let end = rest.windows(BETWEEN.len()).position(|window| window == BETWEEN);
    let (listing, after) = match end {
      Some(at) => (&rest[..=at], &rest[at + BETWEEN.len()..]),
      None => (rest, &rest[rest.len()..]),
    };
    write(&answer(listing, &flags));
    rest = after;
    if !rest.is_empty() {
      write("====\n");
    }
  }
}

fn main() {
  on_a_deep_stack(run);
}
