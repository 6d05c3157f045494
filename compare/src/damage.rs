//! Damaged copies: most are refused, by each ground of 1 to 4 and 10 and by several at once; some stay whole.
use project::{COLUMNS, LISTS, MARK, Project, column::*};

use crate::{
  random::Random,
  refusal::{Values, limit, values},
};

/// A copy with one to three damages.
pub fn damaged(r: &mut Random, p: &Project) -> Project {
  let mut p = p.clone();
  for _ in 0..r.pick(&[1, 1, 1, 2, 3]) {
    one(r, &mut p);
  }
  p
}

fn one(r: &mut Random, p: &mut Project) {
  match r.below(19) {
    0 => p.runtime = r.pick(&[p.modules() as u32, p.modules() as u32 + 1, MARK]),
    1 => p.dynamic = r.pick(&[2, 3, MARK]),
    2 => {
      let column = r.below(COLUMNS);
      let value = r.row(2);
      p[column].push(value);
    }
    3 => drop(p[r.below(COLUMNS)].pop()),
    4 => whole_list(r, p),
    5 => swap_rows(r, p),
    6 => again(r, p, ENTRY, 2),
    7 => again(r, p, IMPORT_CHUNK, 2),
    8 => set(r, p, NORMAL, &[0]),
    9 => set(r, p, REFERENCE_SYMBOL, &[MARK]),
    10 => set(r, p, REFERENCE_FORM, &[0, 1, 2]),
    11 => {
      let records = p[RECORD_MODULE].len().max(1) as u32;
      let record = r.row(records as usize);
      set(r, p, USE_RECORD, &[record, records]);
    }
    12 => {
      let references = p[REFERENCE_FORM].len().max(1);
      let reference = r.row(references);
      set(r, p, DEPENDED_REFERENCE, &[reference]);
    }
    13 => {
      let row = r.row(p.modules().max(1));
      set(r, p, NEWER, &[row, p.modules() as u32]);
    }
    14 | 15 => names(r, p),
    _ => any_value(r, p),
  }
}

/// Breaks the form of the names, or nearly so: a byte, a line or a length that may not be, or may just be.
fn names(r: &mut Random, p: &mut Project) {
  if !p.is_named() {
    p.names = b"a\n".repeat((p.modules() + r.below(3)).max(1));
  }
  let at = r.below(p.names.len().max(1)).min(p.names.len().saturating_sub(1));
  match r.below(7) {
    0 => p.names[at] = r.pick(b" !~\x7f\n\0\xff\t"),
    1 => drop(p.names.remove(at)),
    2 => p.names.push(r.pick(b"\na ")),
    3 => drop(p.names.pop()),
    4 => {
      let line_end = p.names[at..].iter().position(|&byte| byte == b'\n').map_or(p.names.len(), |end| at + end);
      let line = p.names[..line_end].rsplit(|&byte| byte == b'\n').next().map_or(0, <[u8]>::len);
      let more = r.pick(&[63, 64, 65usize]).saturating_sub(line);
      p.names.splice(line_end..line_end, vec![b'~'; more]);
    }
    5 => p.names = b"!\n".repeat(16_384 + r.below(2)),
    _ => p.names.extend(b"~\n"),
  }
}

fn set(r: &mut Random, p: &mut Project, column: usize, to: &[u32]) {
  if !p[column].is_empty() {
    let row = r.below(p[column].len());
    p[column][row] = r.pick(to);
  }
}

/// A value at, next to or far from the end of its column.
fn any_value(r: &mut Random, p: &mut Project) {
  let column = r.below(COLUMNS);
  let end = match values(column) {
    Values::Below(end) => end,
    Values::Row(list) | Values::RowOrMark(list) => p[list].len() as u32,
    Values::NotMark => MARK,
    Values::Later => p.modules() as u32,
  };
  let inside = if end == 0 { 0 } else { r.row(end as usize) };
  let to = [end, end.wrapping_add(1), end.wrapping_sub(1), MARK, MARK - 1, 1 << 31, inside];
  set(r, p, column, &to);
}

/// Empties a list, or fills it to its limit or to one past it by repeating a row.
fn whole_list(r: &mut Random, p: &mut Project) {
  let list = &LISTS[r.below(LISTS.len())];
  let columns = list.first..list.first + list.width;
  if r.coin(0.7) {
    for column in columns {
      p[column].clear();
    }
    return;
  }
  let length = limit(list.first) + r.below(2);
  for column in columns {
    let last = p[column].last().copied().unwrap_or(0);
    p[column].resize(length, last);
  }
}

/// Two rows of a list that must rise change places.
fn swap_rows(r: &mut Random, p: &mut Project) {
  let first = r.pick(&[RECORD_MODULE, STATEMENT_MODULE, MEMBER_CHUNK, IMPORT_CHUNK]);
  let list = LISTS.iter().find(|list| list.first == first).unwrap();
  let columns = list.first..list.first + list.width;
  let length = columns.clone().map(|column| p[column].len()).min().unwrap();
  if length > 1 {
    let at = r.below(length - 1);
    for column in columns {
      p[column].swap(at, at + 1);
    }
  }
}

/// A row once more, beside itself.
fn again(r: &mut Random, p: &mut Project, first: usize, width: usize) {
  let length = (first..first + width).map(|column| p[column].len()).min().unwrap();
  if length > 0 {
    let row = r.below(length);
    for column in first..first + width {
      let value = p[column][row];
      p[column].insert(row, value);
    }
    if first == ENTRY && r.coin(0.5) {
      p[ENTRY_CHUNK][row] = MARK;
    }
  }
}
