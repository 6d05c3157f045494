//! The planner program as what is judged: its whole output on texts, of the form and not.
use std::{
  io::Write as _,
  process::{Command, Stdio},
};

use project::{
  LISTS, Project,
  text::{line, read, render},
};

use crate::{
  model::{Model, members},
  random::Random,
  refusal,
};

/// How many places the program lends for the paths, and for their lengths.
const LENT: usize = 16_384;

/// What the program must print.
pub fn right(text: &[u8]) -> String {
  let Some(p) = read(text) else { return "refused 7\n".into() };
  match refusal::of_project(&p) {
    0 => {}
    number => return format!("refused {number}\n"),
  }
  let model = Model::of(&p);
  let mut out = String::new();
  line(&mut out, "sorted", &model.numbers_and_sorted().1);
  let circles = model.circles();
  if circles.len() > LENT || circles.iter().map(Vec::len).sum::<usize>() > LENT {
    line(&mut out, "circles refused", &[]);
  } else {
    circles.iter().for_each(|path| line(&mut out, "circle", path));
  }
  for entry in model.analysed() {
    line(&mut out, &format!("expected {entry}"), &model.expected(entry));
    line(&mut out, &format!("actual {entry}"), &model.actual(entry).0);
    line(&mut out, &format!("early {entry}"), &members(&model.order_risk(entry)));
    line(&mut out, &format!("cycle {entry}"), &members(&model.cycle_risk(entry)));
  }
  for (module, &ground) in model.grounds().iter().enumerate().filter(|(_, ground)| **ground > 0) {
    line(&mut out, &format!("ground {module}"), &[ground]);
  }
  line(&mut out, "plan", &members(&model.plan()));
  out
}

/// What the program prints.
pub fn printed(program: &str, text: &[u8]) -> String {
  let mut run = Command::new(program)
    .stdin(Stdio::piped())
    .stdout(Stdio::piped())
    .spawn()
    .unwrap_or_else(|error| panic!("{program}: {error}"));
  // A program that has seen enough may close its input.
  let _ = run.stdin.take().unwrap().write_all(text);
  let output = run.wait_with_output().unwrap();
  assert!(output.status.success(), "{program}: {}", output.status);
  String::from_utf8_lossy(&output.stdout).into_owned()
}

/// A text of a project, one in three with a few bytes changed, taken out, put in or said twice, or cut off, or filled up to about the longest
/// that is read.
pub fn text_of(r: &mut Random, p: &Project) -> Option<Vec<u8>> {
  let equal = |list: &project::List| {
    (list.first..list.first + list.width).all(|column| p[column].len() == p[list.first].len())
  };
  if !LISTS.iter().all(equal) {
    return None;
  }
  let mut text = render(p);
  if r.coin(0.33) {
    for _ in 0..r.pick(&[1, 1, 2]) {
      change(r, &mut text);
    }
  }
  Some(text)
}

fn change(r: &mut Random, text: &mut Vec<u8>) {
  const BYTES: &[u8] = b"0123456789-- \n\n\r\taz\0\xff+.~!\x7f";
  if text.is_empty() {
    return;
  }
  let at = r.below(text.len());
  match r.below(7) {
    0 => text[at] = r.pick(BYTES),
    1 => drop(text.remove(at)),
    2 => text.insert(at, r.pick(BYTES)),
    3 => text.insert(at, text[at]),
    4 => text.truncate(at),
    5 => {
      // A number near the mark in the place of a field.
      let number = r.pick(&["4294967294", "4294967295", "4294967296", "00", "01", "99999999999999999999"]);
      text.splice(at..at + 1, number.bytes());
    }
    _ => {
      // Seeds up to the longest text or a byte more.
      let end = text.len() - 1;
      let length = project::text::LONGEST + r.below(2);
      while text.len() + 2 <= length {
        text.splice(end..end, *b"0\n");
      }
      if text.len() < length {
        text.splice(end..end + 1, *b"\n\n");
      }
    }
  }
}
