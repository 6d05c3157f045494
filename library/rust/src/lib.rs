//! The order planner's operations for Rust, over `target/staticlib/libjolmuqter.a`. `../jolmuqter.h` says what each argument and answer is.
//! A call uses less than 2 MiB of stack.

/// The missing mark.
pub const MISSING: u32 = u32::MAX;

/// How many columns a table has.
pub const COLUMNS: usize = 34;

/// A project: the two settings, where each column starts, with where the last ends, all columns one after the other, and the modules' names, a line each, or
/// none at all.
#[derive(Clone, Copy, Debug)]
pub struct Table<'a> {
  pub runtime: u32,
  pub dynamic: u32,
  pub bounds: &'a [u32],
  pub columns: &'a [u32],
  pub names: &'a [u8],
}

/// The number of a refusal, 1 to 6 or 8 to 10. No output was changed.
#[derive(Clone, Copy, Debug, PartialEq, Eq)]
pub struct Refused(pub u32);

/// The count of an accepted call.
pub type Answer = Result<usize, Refused>;

fn answer(coded: u64) -> Answer {
  match coded.checked_sub(1 << 32) {
    None => Ok(coded as usize),
    Some(number) => Err(Refused(number as u32)),
  }
}

/// What is said of a plan that was made elsewhere.
#[derive(Clone, Copy, Debug, PartialEq, Eq)]
pub enum Judgement {
  Accepted,
  /// The first broken condition, 1 to 6 (eligible, seeds, rules (i) to (iv)), and the lowest module that is wrong or lacking.
  Broken(u32, u32),
}

fn judgement(coded: u64) -> Result<Judgement, Refused> {
  match coded.checked_sub(1 << 32) {
    Some(number) => Err(Refused(number as u32)),
    None if coded == 0 => Ok(Judgement::Accepted),
    None => Ok(Judgement::Broken((coded >> 16) as u32, (coded & 65535) as u32)),
  }
}

/// A step of a tried load.
#[derive(Clone, Copy, Debug, PartialEq, Eq)]
pub enum Step {
  /// The module that is listed next, and its host.
  Listed(u32, u32),
  /// None is left.
  Done,
}

fn step(coded: u64) -> Result<Step, Refused> {
  match coded.checked_sub(1 << 32) {
    Some(number) => Err(Refused(number as u32)),
    None if coded == 1 << 31 => Ok(Step::Done),
    None => Ok(Step::Listed((coded >> 16) as u32, (coded & 65535) as u32)),
  }
}

/// Declares exported functions, and beside each a safe one. A slice goes over as its pointer and its length.
macro_rules! operations {
  ($answer:ident $result:ty, $element:ty; $($(#[$about:meta])* $safe:ident = $name:ident [$($value:ident)*] [$($list:ident)*] [$($output:ident)*];)*) => {
    unsafe extern "C" {
      $(fn $name(
        runtime: u32, dynamic: u32, bounds: *const u32, _: usize, columns: *const u32, _: usize, names: *const u8, _: usize,
        $($value: u32,)* $($list: *const u32, _: usize,)* $($output: *mut $element, _: usize,)*
      ) -> u64;)*
    }

    impl Table<'_> {
      $($(#[$about])*
      pub fn $safe(&self, $($value: u32,)* $($list: &[u32],)* $($output: &mut [$element],)*) -> $result {
        // SAFETY: each pointer and length is a live slice's, and what is lent by `&mut` overlaps nothing else.
        $answer(unsafe {
          $name(
            self.runtime, self.dynamic,
            self.bounds.as_ptr(), self.bounds.len(), self.columns.as_ptr(), self.columns.len(),
            self.names.as_ptr(), self.names.len(),
            $($value,)* $($list.as_ptr(), $list.len(),)* $($output.as_mut_ptr(), $output.len(),)*
          )
        })
      })*
    }
  };
}

operations! {
  answer Answer, u32;
  /// The test of the tables alone, which every other call makes first. Counts 0.
  refusal = jolmuqter_refusal [] [] [];
  /// The number of each module, and the sorted list. Counts the listed modules.
  sort_modules = jolmuqter_sort_modules [] [] [numbers sorted];
  /// The import circles one after the other, and the length of each. Counts the circles.
  import_circles = jolmuqter_import_circles [] [] [paths lengths];
  /// The expected order of any module row. Counts the listed modules.
  expected_order = jolmuqter_expected_order [root] [] [order];
  /// The expected order of any module rows, walked one after the other, each module listed once. Counts the listed modules.
  entries_order = jolmuqter_entries_order [] [entries] [order];
  /// The actual order of an analysed entry, and the hosts. Counts the listed modules.
  actual_order = jolmuqter_actual_order [root] [] [order hosts];
  /// The members of each chunk as rolldown arranges them, at the chunk's member rows. Counts the member rows.
  sort_chunk_modules = jolmuqter_sort_chunk_modules [] [] [members];
  /// The label of each chunk. Counts the cyclic chunks.
  labels = jolmuqter_labels [] [] [labels];
  /// Counts 1 if the chunk reaches a cyclic one, else 0.
  chunk_reach = jolmuqter_chunk_reach [chunk] [] [];
  /// The order risk of an analysed entry, 0 or 1 for each module. Counts the ones.
  order_risk = jolmuqter_order_risk [root] [] [risk];
  /// The cycle risk of an analysed entry, 0 or 1 for each module. Counts the ones.
  cycle_risk = jolmuqter_cycle_risk [root] [] [risk];
  /// The ground of each module's sensitivity, 0 to 3. Counts those above 0.
  grounds = jolmuqter_grounds [] [] [grounds];
  /// The plan from these seeds, 0 or 1 for each module. Counts the ones.
  plan_from_seeds = jolmuqter_plan_from_seeds [] [seeds] [plan];
  /// The same plan, made by a worklist. Counts the ones. It needs up to 4 MiB of stack; a thread of the standard library has 2, unless it is asked for more.
  plan_by_worklist = jolmuqter_plan_by_worklist [] [seeds] [plan];
  /// That worklist, its modules in the order in which they are taken, and how many of them were listed after each number of takings below the count. Counts the list.
  /// It needs as much stack.
  takings_from_seeds = jolmuqter_takings_from_seeds [] [seeds] [list lengths];
  /// The plan of the whole analysis, 0 or 1 for each module. Counts the ones.
  plan = jolmuqter_plan [] [] [plan];
  /// How many modules are eligible, how many of them are planned, and the quotient and the remainder of 1,000 times the second by the first. Counts 4.
  share = jolmuqter_share [] [] [share];
  /// The steps of an analysed entry's load with a plan, 0 or 1 for each module: their modules, and their hosts. Counts the steps.
  load_run = jolmuqter_load_run [root] [plan] [steps hosts];
}

operations! {
  answer Answer, u8;
  /// One line of an analysed entry's page, by its number from 0: 40 characters and an LF. Counts 41, or 0 past the last, where nothing is written.
  page_line = jolmuqter_page_line [root number] [] [line];
  /// The page of an analysed entry, by grounds and a plan that were made before. Counts its bytes.
  entry_page = jolmuqter_entry_page [root] [grounds plan] [page];
}

operations! {
  judgement Result<Judgement, Refused>, u32;
  /// Whether a plan made elsewhere, 0 or 1 for each module, is accepted with these seeds, or what it breaks first.
  check_plan = jolmuqter_check_plan [] [seeds plan] [];
}

operations! {
  step Result<Step, Refused>, u32;
  /// A step of an analysed entry's load with a plan, 0 or 1 for each module, by its number from 0.
  load_step = jolmuqter_load_step [root number] [plan] [];
}
