//! `compare [--seed S] [--count N] [--random] [--model | --wrong | --replay | --program PATH]`. See ../README.md.
use std::process::exit;

use compare::{
  damage, exhaustive, generate,
  generate::{PROFILES, Sizes},
  judge::{Judge, Subject},
  library, limits, program,
  random::Random,
  refusal, replay,
  shrink::shrunk,
  wrong::Wrong,
};
use oracle::on_a_deep_stack;
use project::{Project, text::render};

struct Flags {
  seed: u64,
  count: usize,
  /// The random projects alone.
  random: bool,
  /// Compare the original with the model alone, and no library.
  model: bool,
  /// Only find out how soon each wrong reading is told from the right one.
  wrong: bool,
  /// Only write the replay list.
  replay: bool,
  /// Judge this program instead.
  program: Option<String>,
}

fn flags() -> Flags {
  let mut flags = Flags { seed: 1, count: 200_000, random: false, model: false, wrong: false, replay: false, program: None };
  let mut args = std::env::args().skip(1);
  while let Some(arg) = args.next() {
    let mut word = || args.next().unwrap_or_else(usage);
    let mut number = || word().parse::<u64>().unwrap_or_else(|_| usage());
    match arg.as_str() {
      "--seed" => flags.seed = number(),
      "--count" => flags.count = number() as usize,
      "--random" => flags.random = true,
      "--model" => flags.model = true,
      "--wrong" => flags.wrong = true,
      "--replay" => flags.replay = true,
      "--program" => flags.program = Some(word()),
      _ => usage(),
    }
  }
  flags
}

fn usage<T>() -> T {
  eprintln!("compare [--seed S] [--count N] [--random] [--model | --wrong | --replay | --program PATH]");
  exit(2)
}

/// Stops at a difference, with a small listing that shows it.
fn judged(judge: &mut Judge, p: &Project, from: &str) {
  judge.turn += 1;
  let Some(difference) = judge.differs(p) else { return };
  let fresh = || Judge { subject: judge.subject, turn: judge.turn, ..Judge::default() };
  let small = shrunk(p, &|p| fresh().differs(p).is_some());
  let words = fresh().differs(&small).unwrap_or(difference);
  println!("DIFFERENCE ({from})\n{words}\n");
  if (0..project::COLUMNS).map(|column| small[column].len()).sum::<usize>() < 2000 {
    print!("{}", String::from_utf8_lossy(&render(&small)));
  }
  println!("{:?}", small);
  exit(1)
}

/// The sizes of the project of this number: mostly small, now and then larger, rarely full.
fn sizes(number: usize) -> Sizes {
  let full = Sizes { modules: 4096, chunks: 1024, entries: 8, rows: 16_384, seeds: 16_384, exact: true };
  match number {
    _ if number % 20_000 == 19_999 => full,
    _ if number % 1_000 == 999 => Sizes { entries: 12, seeds: 40, ..Sizes::up_to(300) },
    _ if number % 50 == 49 => Sizes::up_to(48),
    _ => Sizes::up_to([4, 7, 12, 12, 16][number % 5]),
  }
}

/// The project of this number: three in four as made, one in four damaged.
fn numbered(seed: u64, number: usize) -> Project {
  let mut r = Random::new(seed.wrapping_mul(0x1_0000_0001).wrapping_add(number as u64));
  let profile = r.pick(&PROFILES);
  let ties = r.coin(0.1);
  let p = generate::project(&mut r, sizes(number), profile, ties);
  assert_eq!(refusal::of_project(&p), 0, "the maker's project {number}");
  if number % 4 == 3 && sizes(number).modules < 4096 { damage::damaged(&mut r, &p) } else { p }
}

fn run_all(flags: &Flags) {
  let subject: Option<Subject> = if flags.model { None } else { Some(library::call) };
  let mut judge = Judge { subject, ..Judge::default() };
  let families: [(&str, fn(&mut dyn FnMut(Project))); 8] = [
    ("graphs of three modules", exhaustive::module_graphs),
    ("graphs of chunks", exhaustive::chunk_graphs),
    ("three chunks with ties", exhaustive::tied_chunks),
    ("rows of two modules", exhaustive::module_rows),
    ("references of three symbols", exhaustive::references),
    ("four modules that supersede each other", exhaustive::replaced_modules),
    ("three modules with names", exhaustive::named_modules),
    ("sizes around the limits", limits::limits),
  ];
  for (name, family) in families.into_iter().filter(|_| !flags.random) {
    let before = judge.tally.projects;
    family(&mut |p| judged(&mut judge, &p, name));
    println!("{name}: {}", judge.tally.projects - before);
  }
  for number in 0..flags.count {
    let p = numbered(flags.seed, number);
    judged(&mut judge, &p, &format!("seed {}, project {number}", flags.seed));
  }
  println!("random projects: {} (seed {})", flags.count, flags.seed);
  print!("{}", judge.tally);
}

fn wrong_readings(flags: &Flags) {
  let mut unseen = 0;
  for &wrong in Wrong::ALL {
    let number = (0..flags.count).find(|&number| {
      let p = numbered(flags.seed, number);
      p.modules() <= 48 && refusal::of_project(&p) == 0 && replay::told(&p, wrong)
    });
    match number {
      Some(number) => println!("{:>7} projects tell: {}", number + 1, wrong.words()),
      None => {
        unseen += 1;
        println!("not told in {}: {}", flags.count, wrong.words());
      }
    }
  }
  println!("{} wrong readings, {unseen} not told", Wrong::ALL.len());
  exit(i32::from(unseen > 0))
}

/// The whole output of a program on the texts of random projects.
fn judge_program(flags: &Flags, program: &str) {
  let mut texts = 0;
  let mut refused = [0; 11];
  for number in 0..flags.count {
    let mut r = Random::new(flags.seed.wrapping_add(number as u64));
    let Some(text) = program::text_of(&mut r, &numbered(flags.seed, number)) else { continue };
    let (right, printed) = (program::right(&text), program::printed(program, &text));
    if right != printed {
      println!("DIFFERENCE (seed {}, project {number})", flags.seed);
      println!("document 01 says\n{right}\n{program} says\n{printed}\non\n{}", String::from_utf8_lossy(&text));
      exit(1);
    }
    texts += 1;
    refused[right.strip_prefix("refused ").map_or(0, |rest| rest.trim_end().parse().unwrap())] += 1;
  }
  println!("{texts} texts (seed {}); accepted and refused by 1 to 10: {refused:?}", flags.seed);
}

fn replay_list(flags: &Flags) {
  let (data, cases, answers) = replay::data(&|number| numbered(flags.seed, number));
  print!("{data}");
  eprintln!("{cases} cases, {answers} answers");
}

fn main() {
  let flags = flags();
  on_a_deep_stack(move || {
    if flags.wrong {
      wrong_readings(&flags)
    } else if flags.replay {
      replay_list(&flags)
    } else if let Some(program) = &flags.program {
      judge_program(&flags, program)
    } else {
      run_all(&flags)
    }
  });
}
