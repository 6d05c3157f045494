//! Each function on document 01's listing, with the answers that it marks.
use jolmuqter::{COLUMNS, Judgement, MISSING, Refused, Step, Table};

/// How many columns each list has.
const WIDTHS: [usize; 14] = [8, 3, 2, 2, 2, 2, 2, 3, 2, 1, 2, 2, 2, 1];

/// The rows of each list.
type Lists = Vec<Vec<Vec<u32>>>;

/// The listing.
fn listing() -> Lists {
  let modules = vec![
    vec![1, 1, 0, 0, 1, 0, 1, MISSING],
    vec![1, 1, 1, 0, 1, 0, 0, MISSING],
    vec![1, 1, 1, 0, 1, 0, 0, MISSING],
    vec![1, 1, 1, 0, 1, 0, 1, MISSING],
  ];
  let mut lists = vec![modules, vec![vec![1, 0, 2], vec![1, 0, 3]], vec![vec![1, 2], vec![1, 3]]];
  lists.extend(vec![Vec::new(); 6]);
  lists.push(vec![vec![1], vec![0]]);
  lists.push(vec![vec![0, 2], vec![0, 1], vec![1, 0], vec![1, 3]]);
  lists.push(vec![vec![0, 1]]);
  lists.push(vec![vec![1, 0]]);
  lists.push(Vec::new());
  lists
}

/// Their bounds and columns.
fn table(lists: &Lists) -> (Vec<u32>, Vec<u32>) {
  let (mut bounds, mut columns) = (vec![0], Vec::new());
  for (rows, width) in lists.iter().zip(WIDTHS) {
    for column in 0..width {
      columns.extend(rows.iter().map(|row| row[column]));
      bounds.push(columns.len() as u32);
    }
  }
  assert_eq!(bounds.len(), COLUMNS + 1);
  (bounds, columns)
}

fn with<T>(change: impl FnOnce(&mut Lists), ask: impl FnOnce(Table) -> T) -> T {
  let mut lists = listing();
  change(&mut lists);
  let (bounds, columns) = table(&lists);
  ask(Table { runtime: 0, dynamic: 0, bounds: &bounds, columns: &columns, names: &[] })
}

fn unchanged(_: &mut Lists) {}

/// The edge from chunk 1 to 0 added.
fn back(lists: &mut Lists) {
  lists[IMPORTS].push(vec![1, 0]);
}

/// The edge from chunk 0 to 0 added.
fn to_itself(lists: &mut Lists) {
  lists[IMPORTS].insert(0, vec![0, 0]);
}

const MODULES: usize = 0;
const RECORDS: usize = 1;
const CHUNKS: usize = 9;
const MEMBERS: usize = 10;
const IMPORTS: usize = 11;
const ENTRIES: usize = 12;

#[test]
fn tests_the_tables() {
  let ask = |change: fn(&mut Lists)| with(change, |table| table.refusal());
  assert_eq!(ask(unchanged), Ok(0));
  assert_eq!(ask(|lists| lists[MODULES].clear()), Err(Refused(1)));
  assert_eq!(ask(|lists| lists[MODULES][2][4] = 3), Err(Refused(2)));
  assert_eq!(ask(|lists| lists[IMPORTS] = vec![vec![1, 0], vec![0, 1]]), Err(Refused(3)));
  assert_eq!(ask(|lists| lists[ENTRIES].push(vec![1, 1])), Err(Refused(4)));
}

#[test]
fn sorts() {
  let mut numbers = [9; 5];
  let mut sorted = [9; 4];
  assert_eq!(with(unchanged, |table| table.sort_modules(&mut numbers, &mut sorted)), Ok(4));
  assert_eq!((numbers, sorted), ([0, 3, 1, 2, 9], [0, 2, 3, 1]));
  let mut short = [9; 3];
  assert_eq!(with(unchanged, |table| table.sort_modules(&mut sorted, &mut short)), Err(Refused(6)));
  assert_eq!((sorted, short), ([0, 2, 3, 1], [9; 3]));
}

#[test]
fn finds_circles() {
  let mut paths = [9; 4];
  let mut lengths = [9; 2];
  assert_eq!(with(unchanged, |table| table.import_circles(&mut paths, &mut lengths)), Ok(0));
  // modules 1 and 2 import each other
  let ring = |lists: &mut Lists| lists[RECORDS][1] = vec![2, 0, 1];
  assert_eq!(with(ring, |table| table.import_circles(&mut paths[..2], &mut lengths)), Err(Refused(8)));
  assert_eq!(with(ring, |table| table.import_circles(&mut paths, &mut [])), Err(Refused(8)));
  assert_eq!((paths, lengths), ([9; 4], [9; 2]));
  assert_eq!(with(ring, |table| table.import_circles(&mut paths, &mut lengths)), Ok(1));
  assert_eq!((paths, lengths), ([1, 2, 1, 9], [3, 9]));
}

#[test]
fn gives_the_expected_order() {
  let mut order = [9; 4];
  assert_eq!(with(unchanged, |table| table.expected_order(1, &mut order)), Ok(3));
  assert_eq!(order, [2, 3, 1, 9]);
  assert_eq!(with(unchanged, |table| table.expected_order(4, &mut order)), Err(Refused(5)));
  assert_eq!(with(unchanged, |table| table.expected_order(1, &mut order[..3])), Err(Refused(6)));
  assert_eq!(with(|lists| lists[MODULES][3][0] = 0, |table| table.expected_order(3, &mut order)), Ok(0));
  assert_eq!(order, [2, 3, 1, 9]);
}

#[test]
fn walks_entries_together() {
  let mut order = [9; 5];
  assert_eq!(with(unchanged, |table| table.entries_order(&[3, 1, 3, 0], &mut order)), Ok(4));
  assert_eq!(order, [3, 2, 1, 0, 9]);
  assert_eq!(with(unchanged, |table| table.entries_order(&[1], &mut order)), Ok(3));
  assert_eq!(order, [2, 3, 1, 0, 9]);
  // an entry that isn't included is passed over, and so is an external one
  assert_eq!(with(|lists| lists[MODULES][1][1] = 0, |table| table.entries_order(&[1, 3], &mut order)), Ok(1));
  assert_eq!(with(|lists| lists[MODULES][3][0] = 0, |table| table.entries_order(&[3, 2], &mut order)), Ok(1));
  assert_eq!(order, [2, 3, 1, 0, 9]);
  assert_eq!(with(unchanged, |table| table.entries_order(&[], &mut order)), Ok(0));
  assert_eq!(with(unchanged, |table| table.entries_order(&[0, 4], &mut order)), Err(Refused(5)));
  assert_eq!(with(|lists| lists[MODULES][1][1] = 0, |table| table.entries_order(&[1, MISSING], &mut order)), Err(Refused(5)));
  assert_eq!(with(unchanged, |table| table.entries_order(&[1], &mut order[..3])), Err(Refused(6)));
  assert_eq!(order, [2, 3, 1, 0, 9]);
}

#[test]
fn gives_the_actual_order() {
  let mut order = [9; 4];
  let mut hosts = [9; 4];
  assert_eq!(with(unchanged, |table| table.actual_order(0, &mut order, &mut hosts)), Err(Refused(5)));
  assert_eq!(with(unchanged, |table| table.actual_order(1, &mut order, &mut hosts[..3])), Err(Refused(6)));
  assert_eq!((order, hosts), ([9; 4], [9; 4]));
  assert_eq!(with(unchanged, |table| table.actual_order(1, &mut order, &mut hosts)), Ok(4));
  assert_eq!((order, hosts), ([0, 3, 2, 1], [MISSING; 4]));
  // modules 2 and 3 wrapped: both run under module 1
  let wrapped = |lists: &mut Lists| (lists[MODULES][2][5], lists[MODULES][3][5]) = (2, 2);
  assert_eq!(with(wrapped, |table| table.actual_order(1, &mut order, &mut hosts)), Ok(4));
  assert_eq!((order, hosts), ([0, 2, 3, 1], [MISSING, MISSING, 1, 1]));
}

/// Names of the four modules, the last that of a runtime module.
const NAMES: &[u8] = b"a\nb\nc\nrolldown:d\n";

#[test]
fn arranges_members() {
  let mut members = [9; 5];
  let mut ask = |names: &[u8], room: usize| with(unchanged, |table| Table { names, ..table }.sort_chunk_modules(&mut members[..room])).map(|count| (count, members));
  assert_eq!(ask(b"", 3), Err(Refused(2)));
  assert_eq!(ask(NAMES, 3), Err(Refused(6)));
  assert_eq!(ask(b"a\nb\nc\nd\n", 4), Ok((4, [2, 1, 0, 3, 9])));
  assert_eq!(ask(NAMES, 5), Ok((4, [2, 1, 3, 0, 9])));
}

#[test]
fn reads_members_as_they_are_arranged() {
  let (mut order, mut hosts) = ([9; 4], [9; 4]);
  assert_eq!(with(unchanged, |table| Table { names: NAMES, ..table }.actual_order(1, &mut order, &mut hosts)), Ok(4));
  assert_eq!((order, hosts), ([3, 0, 2, 1], [MISSING; 4]));
}

/// As many modules as there are names, all in one chunk, their rows falling, without records and without the sensitive flag; the first is the runtime.
fn leaves(names: &[u8]) -> (Vec<u32>, Vec<u32>) {
  let modules = names.split(|&byte| byte == b'\n').count() - 1;
  let mut lists: Lists = vec![Vec::new(); 14];
  lists[MODULES] = vec![vec![1, 1, 0, 0, 1, 0, 0, MISSING]; modules];
  lists[CHUNKS] = vec![vec![0]];
  lists[MEMBERS] = (0..modules as u32).rev().map(|module| vec![0, module]).collect();
  table(&lists)
}

/// The arrangement of such modules.
fn arranged(names: &[u8]) -> Vec<u32> {
  let (bounds, columns) = leaves(names);
  let table = Table { runtime: 0, dynamic: 0, bounds: &bounds, columns: &columns, names };
  let mut members = vec![9; names.iter().filter(|&&byte| byte == b'\n').count() + 1];
  assert_eq!(table.sort_chunk_modules(&mut members), Ok(members.len() - 1));
  assert_eq!(members.pop(), Some(9));
  members
}

#[test]
fn sorts_leaves_by_their_bytes() {
  // `~` at the start is byte 0, before `!`; inside it is itself, behind `}`
  assert_eq!(arranged(b"!\n~\na\n"), [1, 0, 2]);
  assert_eq!(arranged(b"a~\na!\na}\na\n~a\n~\n"), [5, 4, 3, 1, 2, 0]);
  // rolldown's own come first, by number; here all but the runtime are unreached, and tie
  assert_eq!(arranged(b"a\n~rolldown/b\nrolldown/b\nrolldown:a\n~rolldown:\nrolldown\n"), [1, 3, 4, 0, 5, 2]);
}

#[test]
fn takes_names_of_64_bytes() {
  let long = |last: u8| [&[b'x'; 63][..], &[last, b'\n']].concat();
  assert_eq!(arranged(&[long(b'c'), long(b'~'), long(b'a'), long(b'!')].concat()), [3, 2, 0, 1]);
  let over = [&b"a\nb\nc\n"[..], &[b'x'; 65], b"\n"].concat();
  assert_eq!(with(unchanged, |table| Table { names: &over, ..table }.refusal()), Err(Refused(2)));
  assert_eq!(with(unchanged, |table| Table { names: &[&over[..70], b"\n"].concat(), ..table }.refusal()), Ok(0));
}

#[test]
fn takes_4096_names() {
  // equal in their first 60 bytes; the last four are the rows, falling
  let names: Vec<u8> = (0..4096).flat_map(|row| format!("{:x>60}{:04}\n", "", 4095 - row).into_bytes()).collect();
  assert_eq!(names.len(), 4096 * 65);
  assert_eq!(arranged(&names), (0..4096).rev().collect::<Vec<u32>>());
  // one more is a list over its limit
  let (bounds, columns) = leaves(&[&names[..], b"x\n"].concat());
  let names = [&names[..], b"x\n"].concat();
  assert_eq!(Table { runtime: 0, dynamic: 0, bounds: &bounds, columns: &columns, names: &names }.refusal(), Err(Refused(1)));
}

#[test]
fn reads_a_project_without_names() {
  let mut order = [9; 4];
  with(unchanged, |table| {
    assert_eq!(table.refusal(), Ok(0));
    assert_eq!(table.actual_order(1, &mut order, &mut [9; 4]), Ok(4));
    assert_eq!(table.sort_chunk_modules(&mut [9; 4]), Err(Refused(2)));
    // the tests of the table come first
    assert_eq!(Table { dynamic: 2, ..table }.sort_chunk_modules(&mut []), Err(Refused(2)));
    assert_eq!(Table { bounds: &[], ..table }.sort_chunk_modules(&mut []), Err(Refused(1)));
  });
  assert_eq!(order, [0, 3, 2, 1]);
}

#[test]
fn refuses_names_that_break_the_form() {
  let ask = |names: &[u8]| with(unchanged, |table| Table { names, ..table }.refusal());
  assert_eq!(ask(NAMES), Ok(0));
  for names in [&b"a\nb\nc\n"[..], b"a\nb\nc\nd", b"a\nb\n\nd\n", b"a\nb\nc \nd\n", b"a\nb\nc\nd\ne\n", &[10; 16384]] {
    assert_eq!(ask(names), Err(Refused(2)));
  }
  assert_eq!(ask(&[10; 16385]), Err(Refused(1)));
}

#[test]
fn labels_chunks() {
  let mut labels = [9; 3];
  assert_eq!(with(unchanged, |table| table.labels(&mut labels[..1])), Err(Refused(6)));
  assert_eq!(with(unchanged, |table| table.labels(&mut labels)), Ok(0));
  assert_eq!(labels, [MISSING, MISSING, 9]);
  assert_eq!(with(back, |table| table.labels(&mut labels)), Ok(2));
  assert_eq!(labels, [0, 0, 9]);
  assert_eq!(with(to_itself, |table| table.labels(&mut labels)), Ok(1));
  assert_eq!(labels, [0, MISSING, 9]);
}

#[test]
fn reaches_cyclic_chunks() {
  assert_eq!(with(unchanged, |table| table.chunk_reach(0)), Ok(0));
  assert_eq!(with(to_itself, |table| table.chunk_reach(0)), Ok(1));
  assert_eq!(with(to_itself, |table| table.chunk_reach(1)), Ok(0));
  assert_eq!(with(unchanged, |table| table.chunk_reach(2)), Err(Refused(5)));
}

#[test]
fn gives_the_order_risk() {
  let mut risk = [9; 4];
  assert_eq!(with(unchanged, |table| table.order_risk(2, &mut risk)), Err(Refused(5)));
  assert_eq!(with(unchanged, |table| table.order_risk(1, &mut risk[..3])), Err(Refused(6)));
  assert_eq!(risk, [9; 4]);
  assert_eq!(with(unchanged, |table| table.order_risk(1, &mut risk)), Ok(1));
  assert_eq!(risk, [0, 0, 0, 1]);
}

#[test]
fn gives_a_page_line() {
  let mut line = [b'.'; 42];
  assert_eq!(with(unchanged, |table| table.page_line(2, 0, &mut line)), Err(Refused(5)));
  assert_eq!(with(unchanged, |table| table.page_line(1, 0, &mut line[..40])), Err(Refused(6)));
  assert_eq!(with(unchanged, |table| table.page_line(1, 3, &mut line[..40])), Err(Refused(6)));
  assert_eq!(with(unchanged, |table| table.page_line(1, 3, &mut line)), Ok(0));
  assert_eq!(line, [b'.'; 42]);
  assert_eq!(with(unchanged, |table| table.page_line(1, 1, &mut line)), Ok(41));
  assert_eq!(&line, b"       3       1       0      -1     yes\n.");
}

#[test]
fn gives_an_entry_page() {
  let mut page = [b'.'; 164];
  assert_eq!(with(unchanged, |table| table.entry_page(2, &[0, 1, 1, 1], &[0, 1, 0, 1], &mut page)), Err(Refused(5)));
  assert_eq!(with(unchanged, |table| table.entry_page(1, &[0, 1, 1], &[0, 1, 0, 1], &mut page)), Err(Refused(6)));
  assert_eq!(with(unchanged, |table| table.entry_page(1, &[0, 1, 1, 1], &[0, 1, 0], &mut page)), Err(Refused(6)));
  assert_eq!(with(unchanged, |table| table.entry_page(1, &[0, 1, 1, 1], &[0, 1, 0, 1], &mut page[..163])), Err(Refused(6)));
  assert_eq!(page, [b'.'; 164]);
  assert_eq!(with(unchanged, |table| table.entry_page(1, &[0, 1, 1, 1], &[0, 1, 0, 1], &mut page)), Ok(123));
  assert_eq!(&page[41..82], b"       3       1       0      -1     yes\n");
  assert_eq!(&page[122..125], b"\n..");
}

#[test]
fn gives_the_cycle_risk() {
  let mut risk = [9; 4];
  assert_eq!(with(unchanged, |table| table.cycle_risk(2, &mut risk)), Err(Refused(5)));
  assert_eq!(with(unchanged, |table| table.cycle_risk(1, &mut risk[..3])), Err(Refused(6)));
  assert_eq!(risk, [9; 4]);
  assert_eq!(with(unchanged, |table| table.cycle_risk(1, &mut risk)), Ok(0));
  assert_eq!(risk, [0; 4]);
  assert_eq!(with(back, |table| table.cycle_risk(1, &mut risk)), Ok(3));
  assert_eq!(risk, [0, 1, 1, 1]);
}

#[test]
fn gives_the_grounds() {
  let mut grounds = [9; 5];
  assert_eq!(with(unchanged, |table| table.grounds(&mut grounds[..3])), Err(Refused(6)));
  assert_eq!(grounds, [9; 5]);
  assert_eq!(with(unchanged, |table| table.grounds(&mut grounds)), Ok(3));
  assert_eq!(grounds, [0, 1, 1, 1, 9]);
  // module 3 isn't included, its flag is set
  let excluded = |lists: &mut Lists| lists[MODULES][3][1] = 0;
  assert_eq!(with(excluded, |table| table.grounds(&mut grounds)), Ok(2));
  assert_eq!(grounds, [0, 1, 1, 0, 9]);
}

#[test]
fn plans_from_seeds() {
  let mut plan = [9; 4];
  let mut ask = |change: fn(&mut Lists), seeds: &[u32]| {
    with(change, |table| table.plan_from_seeds(seeds, &mut plan)).map(|count| (count, plan))
  };
  assert_eq!(ask(unchanged, &[]), Ok((0, [0; 4])));
  assert_eq!(ask(unchanged, &[0]), Ok((0, [0; 4])));
  assert_eq!(ask(unchanged, &[1]), Ok((1, [0, 1, 0, 0])));
  assert_eq!(ask(unchanged, &[2]), Ok((3, [0, 1, 1, 1])));
  assert_eq!(ask(back, &[1]), Ok((3, [0, 1, 1, 1])));
  assert_eq!(ask(unchanged, &[1; 16384]), Ok((1, [0, 1, 0, 0])));
  assert_eq!(ask(unchanged, &[1; 16385]), Err(Refused(5)));
  assert_eq!(ask(unchanged, &[4]), Err(Refused(5)));
  assert_eq!(with(unchanged, |table| table.plan_from_seeds(&[1], &mut [9; 3])), Err(Refused(6)));
}

/// On a thread with the stack that the header says: the standard library's have 2 MiB.
#[test]
fn plans_by_a_worklist() {
  let calls = || {
    let mut plan = [9; 4];
    let mut ask = |change: fn(&mut Lists), seeds: &[u32]| {
      with(change, |table| table.plan_by_worklist(seeds, &mut plan)).map(|count| (count, plan))
    };
    assert_eq!(ask(unchanged, &[]), Ok((0, [0; 4])));
    assert_eq!(ask(unchanged, &[0]), Ok((0, [0; 4])));
    assert_eq!(ask(unchanged, &[1]), Ok((1, [0, 1, 0, 0])));
    assert_eq!(ask(unchanged, &[2]), Ok((3, [0, 1, 1, 1])));
    assert_eq!(ask(back, &[1]), Ok((3, [0, 1, 1, 1])));
    assert_eq!(ask(unchanged, &[1; 16384]), Ok((1, [0, 1, 0, 0])));
    assert_eq!(ask(unchanged, &[1; 16385]), Err(Refused(5)));
    assert_eq!(ask(unchanged, &[4]), Err(Refused(5)));
    assert_eq!(with(unchanged, |table| table.plan_by_worklist(&[1], &mut [9; 3])), Err(Refused(6)));
  };
  std::thread::Builder::new().stack_size(5 << 20).spawn(calls).unwrap().join().unwrap();
}

/// The order of what one taking lists is free.
#[test]
fn shows_worklists() {
  let calls = || {
    let (mut list, mut lengths) = ([9; 4], [9; 5]);
    assert_eq!(with(unchanged, |table| table.takings_from_seeds(&[0, 2, 2], &mut list, &mut lengths)), Ok(3));
    list[1..3].sort_unstable();
    assert_eq!((list, lengths), ([2, 1, 3, 9], [1, 3, 3, 9, 9]));
    assert_eq!(with(unchanged, |table| table.takings_from_seeds(&[4], &mut list, &mut lengths)), Err(Refused(5)));
    assert_eq!(with(unchanged, |table| table.takings_from_seeds(&[1], &mut [9; 3], &mut lengths)), Err(Refused(6)));
    assert_eq!(lengths, [1, 3, 3, 9, 9]);
  };
  std::thread::Builder::new().stack_size(5 << 20).spawn(calls).unwrap().join().unwrap();
}

#[test]
fn checks_plans() {
  use Judgement::{Accepted, Broken};
  let ask = |change: fn(&mut Lists), seeds: &[u32], plan: &[u32]| with(change, |table| table.check_plan(seeds, plan));
  assert_eq!(ask(unchanged, &[2], &[0, 1, 1, 1]), Ok(Accepted));
  assert_eq!(ask(unchanged, &[1], &[0, 1, 0, 1]), Ok(Accepted));
  assert_eq!(ask(unchanged, &[2], &[1, 1, 1, 1]), Ok(Broken(1, 0)));
  assert_eq!(ask(unchanged, &[2], &[0, 1, 0, 1]), Ok(Broken(2, 2)));
  assert_eq!(ask(unchanged, &[2], &[0, 0, 1, 0]), Ok(Broken(3, 1)));
  assert_eq!(ask(back, &[1], &[0, 1, 0, 0]), Ok(Broken(4, 2)));
  assert_eq!(ask(unchanged, &[2], &[0, 1, 2, 1]), Err(Refused(9)));
  assert_eq!(ask(unchanged, &[2], &[0, 1, 1, 1, 0]), Err(Refused(9)));
  assert_eq!(ask(unchanged, &[2], &[]), Err(Refused(9)));
  assert_eq!(ask(unchanged, &[4], &[2]), Err(Refused(5)));
}

#[test]
fn tries_a_plan() {
  use Step::{Done, Listed};
  let ask = |root, number, plan: &[u32]| with(unchanged, |table| table.load_step(root, number, plan));
  let shown: Vec<_> = (0..6).map(|number| ask(1, number, &[0, 1, 0, 1])).collect();
  assert_eq!(shown, [Ok(Listed(0, 0)), Ok(Listed(2, 2)), Ok(Listed(3, 1)), Ok(Listed(1, 1)), Ok(Done), Ok(Done)]);
  assert_eq!(ask(1, u32::MAX, &[0; 4]), Ok(Done));
  assert_eq!(ask(0, 0, &[2]), Err(Refused(5)));
  assert_eq!(ask(1, 0, &[]), Err(Refused(9)));
  let (mut steps, mut hosts) = ([9; 5], [9; 5]);
  let mut run = |plan: &[u32], room: usize| with(unchanged, |table| table.load_run(1, plan, &mut steps[..room], &mut hosts)).map(|count| (count, steps, hosts));
  assert_eq!(run(&[0, 1, 0], 3), Err(Refused(9)));
  assert_eq!(run(&[0, 1, 0, 1], 3), Err(Refused(6)));
  assert_eq!(run(&[0, 1, 0, 1], 5), Ok((4, [0, 2, 3, 1, 9], [0, 2, 1, 1, 9])));
  // with the empty plan the actual order, each its own host
  assert_eq!(run(&[0; 4], 4), Ok((4, [0, 3, 2, 1, 9], [0, 3, 2, 1, 9])));
}

#[test]
fn plans_the_whole() {
  let mut plan = [9; 4];
  assert_eq!(with(unchanged, |table| table.plan(&mut plan[..3])), Err(Refused(6)));
  assert_eq!(plan, [9; 4]);
  assert_eq!(with(unchanged, |table| table.plan(&mut plan)), Ok(2));
  assert_eq!(plan, [0, 1, 0, 1]);
}

#[test]
fn gives_the_share() {
  let mut share = [9; 5];
  assert_eq!(with(unchanged, |table| table.share(&mut share[..3])), Err(Refused(6)));
  assert_eq!(share, [9; 5]);
  assert_eq!(with(unchanged, |table| table.share(&mut share)), Ok(4));
  assert_eq!(share, [3, 2, 666, 2, 9]);
}

#[test]
fn refuses_bounds_that_do_not_fit() {
  let mut order = [9; 4];
  let mut ask = |table: Table| table.expected_order(1, &mut order);
  assert_eq!(with(unchanged, |table| ask(Table { bounds: &[], ..table })), Err(Refused(1)));
  assert_eq!(with(unchanged, |table| ask(Table { bounds: &table.bounds[..34], ..table })), Err(Refused(1)));
  for (bound, value) in [(0, 1), (7, 0), (7, MISSING), (34, 55), (34, 57)] {
    let mut bounds = with(unchanged, |table| table.bounds.to_vec());
    bounds[bound] = value;
    assert_eq!(with(unchanged, |table| ask(Table { bounds: &bounds, ..table })), Err(Refused(1)));
  }
  assert_eq!(with(unchanged, |table| ask(Table { columns: &[], ..table })), Err(Refused(1)));
  assert_eq!(with(unchanged, |table| ask(Table { columns: &table.columns[1..], ..table })), Err(Refused(1)));
  assert_eq!(with(unchanged, |table| ask(Table { dynamic: MISSING, ..table })), Err(Refused(2)));
  assert_eq!(order, [9; 4]);
}

#[test]
fn refuses_columns_of_one_list_that_differ_in_length() {
  for column in 0..COLUMNS {
    // The column has a value less, and the next one a value more.
    let mut bounds = with(unchanged, |table| table.bounds.to_vec());
    if bounds[column] < bounds[column + 1] && column + 1 < COLUMNS {
      bounds[column + 1] -= 1;
      assert_eq!(with(unchanged, |table| Table { bounds: &bounds, ..table }.refusal()), Err(Refused(1)));
    }
  }
}

/// Module 2 superseded by a module.
fn newer(module: u32) -> impl Fn(&mut Lists) {
  move |lists| lists[MODULES][2][7] = module
}

#[test]
fn reads_through_replacements() {
  let mut order = [9; 4];
  assert_eq!(with(newer(3), |table| table.expected_order(1, &mut order)), Ok(2));
  assert_eq!(order, [3, 1, 9, 9]);
  let (mut numbers, mut sorted) = ([9; 4], [9; 4]);
  assert_eq!(with(newer(3), |table| table.sort_modules(&mut numbers, &mut sorted)), Ok(3));
  assert_eq!((numbers, sorted), ([0, 2, MISSING, 1], [0, 3, 1, 9]));
}

#[test]
fn refuses_a_newer_that_is_no_later_row() {
  for module in [2, 1, 0, 4, MISSING - 1] {
    let mut order = [9; 3];
    assert_eq!(with(newer(module), |table| table.refusal()), Err(Refused(10)));
    assert_eq!(with(newer(module), |table| table.expected_order(4, &mut order)), Err(Refused(10)));
    assert_eq!(order, [9; 3]);
  }
}
