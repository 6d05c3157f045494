//! "Each list: its line of names, its rows, an empty line. One space between fields, LF line ends, no leading zeros."
use crate::{LISTS, MARK, NAMES, Project, SETTINGS};

/// The longest text that is read.
pub const LONGEST: usize = 65_536;

/// The listing of a project whose columns have equal lengths in each list, with the list of names where it has names.
pub fn render(project: &Project) -> Vec<u8> {
  let mut out = lists(project).into_bytes();
  if project.is_named() {
    out.extend([NAMES.as_bytes(), b"\n", &project.names, b"\n"].concat());
  }
  out
}

/// The settings and the row lists.
fn lists(project: &Project) -> String {
  let mut out = String::new();
  out.push_str(SETTINGS);
  out.push('\n');
  row(&mut out, [project.runtime, project.dynamic]);
  out.push('\n');
  for list in &LISTS {
    out.push_str(list.names);
    out.push('\n');
    for at in 0..project[list.first].len() {
      row(&mut out, (list.first..list.first + list.width).map(|column| project[column][at]));
    }
    out.push('\n');
  }
  out
}

fn row(out: &mut String, values: impl IntoIterator<Item = u32>) {
  for (at, value) in values.into_iter().enumerate() {
    if at > 0 {
      out.push(' ');
    }
    field(out, value);
  }
  out.push('\n');
}

/// A result line: its words, its numbers.
pub fn line(out: &mut String, words: &str, values: &[u32]) {
  out.push_str(words);
  for &value in values {
    out.push(' ');
    field(out, value);
  }
  out.push('\n');
}

/// A number, or `-` for the mark.
pub fn field(out: &mut String, value: u32) {
  if value == MARK {
    out.push('-');
  } else {
    out.push_str(&value.to_string());
  }
}

/// The project of a listing of any length, and what stands after it; none where it isn't the form.
pub fn read_head(text: &[u8]) -> Option<(Project, &[u8])> {
  let mut project = Project::default();
  let mut rest = line_of(text, SETTINGS)?;
  let settings;
  (settings, rest) = rows(rest, 2)?;
  let [runtime, dynamic] = settings[..] else { return None };
  (project.runtime, project.dynamic) = (runtime, dynamic);
  for list in &LISTS {
    rest = line_of(rest, list.names)?;
    let values;
    (values, rest) = rows(rest, list.width)?;
    for (at, value) in values.into_iter().enumerate() {
      project[list.first + at % list.width].push(value);
    }
  }
  if let Some(lines) = line_of(rest, NAMES) {
    let end = names_end(lines)?;
    if !names_fit(project.modules(), &lines[..end]) {
      return None;
    }
    project.names = lines[..end].to_vec();
    rest = &lines[end + 1..];
  }
  Some((project, rest))
}

/// Where the empty line after some lines begins.
fn names_end(lines: &[u8]) -> Option<usize> {
  let begins = |at: &usize| (*at == 0 || lines[*at - 1] == b'\n') && lines[*at] == b'\n';
  (0..lines.len()).find(begins)
}

/// Whether there is "one line of 1 to 64 printable bytes a module", an LF after each.
pub fn names_fit(modules: usize, names: &[u8]) -> bool {
  let name = |line: &[u8]| match line {
    [name @ .., b'\n'] => (1..=64).contains(&name.len()) && name.iter().all(|byte| (33..=126).contains(byte)),
    _ => false,
  };
  names.split_inclusive(|&byte| byte == b'\n').count() == modules && names.split_inclusive(|&byte| byte == b'\n').all(name)
}

/// The project of a text, or none: refusal 7.
pub fn read(text: &[u8]) -> Option<Project> {
  if text.len() > LONGEST {
    return None;
  }
  read_head(text).filter(|(_, rest)| rest.is_empty()).map(|(project, _)| project)
}

/// What stands after the line `words`.
fn line_of<'a>(text: &'a [u8], words: &str) -> Option<&'a [u8]> {
  text.strip_prefix(words.as_bytes())?.strip_prefix(b"\n")
}

/// The values of rows up to and including the empty line, row after row.
fn rows(mut text: &[u8], width: usize) -> Option<(Vec<u32>, &[u8])> {
  let mut values = Vec::new();
  loop {
    let end = text.iter().position(|&byte| byte == b'\n')?;
    let (line, rest) = (&text[..end], &text[end + 1..]);
    text = rest;
    if line.is_empty() {
      return Some((values, text));
    }
    let fields: Vec<&[u8]> = line.split(|&byte| byte == b' ').collect();
    if fields.len() != width {
      return None;
    }
    for field in fields {
      values.push(value(field)?);
    }
  }
}

/// `-`, or a decimal number without leading zeros below the mark.
fn value(field: &[u8]) -> Option<u32> {
  if field == b"-" {
    return Some(MARK);
  }
  if field.is_empty() || (field.len() > 1 && field[0] == b'0') || field.len() > 10 {
    return None;
  }
  let mut number = 0u64;
  for &digit in field {
    if !digit.is_ascii_digit() {
      return None;
    }
    number = number * 10 + u64::from(digit - b'0');
  }
  u32::try_from(number).ok().filter(|&number| number != MARK)
}
