//! A smaller project that still shows what a larger one showed.
use project::{COLUMNS, LISTS, MARK, Project, column::*};

use crate::refusal::{Values, values};

/// Takes rows out and makes values 0 as long as `shows` holds.
pub fn shrunk(p: &Project, shows: &dyn Fn(&Project) -> bool) -> Project {
  let mut p = p.clone();
  loop {
    let before = p.clone();
    fewer_names(&mut p, shows);
    fewer_rows(&mut p, shows);
    lower_values(&mut p, shows);
    if p == before {
      return p;
    }
  }
}

fn keep_if(p: &mut Project, smaller: Project, shows: &dyn Fn(&Project) -> bool) -> bool {
  let good = smaller != *p && shows(&smaller);
  if good {
    *p = smaller;
  }
  good
}

/// No names, or shorter ones.
fn fewer_names(p: &mut Project, shows: &dyn Fn(&Project) -> bool) {
  keep_if(p, Project { names: Vec::new(), ..p.clone() }, shows);
  if p.names.len() > 2_000 {
    return;
  }
  let mut at = p.names.len();
  while at > 0 {
    at -= 1;
    let mut smaller = p.clone();
    smaller.names.remove(at);
    keep_if(p, smaller, shows);
  }
}

fn fewer_rows(p: &mut Project, shows: &dyn Fn(&Project) -> bool) {
  for list in LISTS.iter().rev() {
    let rows = |p: &Project| p[list.first].len();
    let mut step = rows(p).max(1);
    while step > 0 {
      let mut end = rows(p);
      while end > 0 {
        let start = end.saturating_sub(step);
        if let Some(smaller) = without(p, list.first, start..end) {
          keep_if(p, smaller, shows);
        }
        end = start.min(rows(p));
      }
      step /= 2;
    }
  }
}

/// The project without some rows of a list, and without the rows that name them; the later rows are renumbered.
fn without(p: &Project, first: usize, rows: std::ops::Range<usize>) -> Option<Project> {
  let mut gone: Vec<Vec<bool>> = LISTS.iter().map(|list| vec![false; p[list.first].len()]).collect();
  let list_at = |first: usize| LISTS.iter().position(|list| list.first == first).unwrap();
  if LISTS.iter().any(|list| (0..list.width).any(|at| p[list.first + at].len() != p[list.first].len()))
  {
    return None;
  }
  gone[list_at(first)][rows].fill(true);
  loop {
    let before = gone.clone();
    for (at, list) in LISTS.iter().enumerate() {
      for column in list.first..list.first + list.width {
        let Values::Row(named) = values(column) else { continue };
        for (row, &value) in p[column].iter().enumerate() {
          let names_gone = before[list_at(named)].get(value as usize) == Some(&true);
          gone[at][row] |= names_gone;
        }
      }
    }
    if gone == before {
      break;
    }
  }
  let renumbered = |named: usize, value: u32| {
    let gone = &gone[list_at(named)];
    match gone.get(value as usize) {
      Some(true) => MARK,
      Some(false) => value - gone[..value as usize].iter().filter(|&&gone| gone).count() as u32,
      None => value,
    }
  };
  let mut smaller = Project::default();
  smaller.dynamic = p.dynamic;
  let lines = p.names.split_inclusive(|&byte| byte == b'\n');
  let mut module_gone = gone[list_at(NORMAL)].iter().copied();
  smaller.names = lines.filter(|_| !module_gone.next().unwrap_or(false)).flatten().copied().collect();
  smaller.runtime = renumbered(NORMAL, p.runtime);
  if smaller.runtime == MARK {
    return None;
  }
  for (at, list) in LISTS.iter().enumerate() {
    for column in list.first..list.first + list.width {
      let left = p[column].iter().zip(&gone[at]).filter(|row| !row.1).map(|row| *row.0);
      smaller[column] = match values(column) {
        Values::Row(named) | Values::RowOrMark(named) => {
          left.map(|value| renumbered(named, value)).collect()
        }
        Values::Later => left.map(|value| renumbered(NORMAL, value)).collect(),
        _ => left.collect(),
      };
    }
  }
  Some(smaller)
}

fn lower_values(p: &mut Project, shows: &dyn Fn(&Project) -> bool) {
  for column in 0..COLUMNS {
    for row in 0..p[column].len() {
      // The plainest value: normal, included and ESM; a symbol is its own canonical; else 0.
      let plainest = match column {
        NORMAL | INCLUDED | EXPORTS => 1,
        CANONICAL => row as u32,
        NEWER => MARK,
        _ => 0,
      };
      for value in [plainest, MARK] {
        if value == MARK && !matches!(values(column), Values::RowOrMark(_)) {
          continue;
        }
        let mut smaller = p.clone();
        smaller[column][row] = value;
        if p[column][row] == plainest || keep_if(p, smaller, shows) {
          break;
        }
      }
    }
  }
  let mut smaller = p.clone();
  smaller.dynamic = 0;
  keep_if(p, smaller, shows);
  let mut smaller = p.clone();
  smaller.runtime = 0;
  keep_if(p, smaller, shows);
}
