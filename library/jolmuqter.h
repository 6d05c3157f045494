/* The order planner's operations, from target/staticlib/libjolmuqter.a (`library/build`, x86-64 Linux).
 *
 * A slice is a pointer and a length in elements, in this order; a pointer is aligned and isn't null, even where the length is 0. Outputs overlap
 * neither each other nor the inputs. A call uses less than 2 MiB of stack (measured: up to 1.30 MiB), jolmuqter_plan_by_worklist
 * and jolmuqter_takings_from_seeds less than 4 MiB (3.34), keeps nothing, and may run in several threads at once.
 *
 * Inputs of every call:
 *   runtime   the runtime module
 *   dynamic   1 if `code_splitting` is disabled, else 0
 *   columns   the 34 columns of the lists below one after the other, list by list in this order
 *   bounds    35 places: where each column starts in `columns`, and where the last ends. The first is 0, none is below the one before, and the last is
 *             the length of `columns`. The columns of a list have as many values as it has rows.
 *   names     the modules' names in bytes, a line a module, each line 1 to 64 bytes of 33 to 126 and then an LF (10); `~` at the start of a line stands for
 *             byte 0. Or no byte at all, JOLMUQTER_NO_NAMES: a project without names.
 *
 *   modules        normal (1, external 0), included, sensitive, reads (0 or 1 each), exports (0 None, 1 Esm, 2 CommonJs),
 *                  wrap (0 None, 1 Cjs, 2 Esm), chunk or the mark,
 *                  newer: the later module that supersedes it, or the mark                                               1 to 4,096 rows
 *   records        module, kind (0 Import, 1 Require, 2 dynamic import, 3 other), target module or the mark              sorted by module
 *   dependencies   module, dependency
 *   statements     module, included (0 or 1)                                                                             sorted by module
 *   uses           statement, record
 *   symbols        owner (a module), canonical (a symbol)
 *   chains         symbol, link (a symbol)
 *   references     statement, form (0 symbol, 1 member without resolution, 2 with), symbol or the mark
 *   depended       reference, symbol
 *   chunks         order                                                                                                 0 to 1,024 rows
 *   members        chunk, member (a module)                                                                              sorted by chunk
 *   imports        chunk, imported chunk; a chunk's rows in the order in which imported chunks of equal order load       sorted by chunk
 *   entries        module, chunk or the mark
 *   seeds          module                                                          0 to 16,384 rows, as any list with no other limit
 *
 * Record targets and dependencies are read through `newer` until a module without one is reached. In actual order, tried loads, order risk, whole analysis, share and
 * pages the members of a project with names are read as jolmuqter_sort_chunk_modules arranges them. All else is read as written.
 *
 * Rows count from 0. The mark, JOLMUQTER_MISSING, stands for a value that is missing.
 *
 * Answers: below 2^32 the count, and the outputs are written from place 0; places past what is written stay as they were. Else 2^32 plus the
 * number of a refusal, and no output is changed; the first number that applies, in this order:
 *   1  bounds that don't fit, a list over its limit, over 16,384 lines of names, columns of one list that differ in length, or no module
 *   2  a value outside its column, or names that break the form; for the arrangement no name at all too
 *   3  records, statements, members or imports not sorted by their first column
 *   4  an external with a record or a statement; a use of another module's record; a depended row for form 0 or 1; form 0 or 1 without a symbol;
 *      an entry or an import pair twice
 *  10  a `newer` that is neither the mark nor a later module row (2 isn't given for it)
 *   5  a root, entry, chunk or seed without a row, a root for risk or actual order that isn't an analysed entry (included, with a chunk), or over
 *      16,384 seeds
 *   6  an output that is too short: every output needs a place for each module, labels one for each chunk, the
 *      arrangement one for each member row, a share four, a page line 41, a page 41 for each module
 *   8  for the circles alone, in the place of 6: paths or lengths too short for all paths
 *   9  a plan that isn't one mark for each module, or holds a mark other than 0 and 1; after 5, before 6
 */
#ifndef JOLMUQTER_H
#define JOLMUQTER_H
#include <stddef.h>
#include <stdint.h>

#define JOLMUQTER_MISSING UINT32_C(4294967295)
#define JOLMUQTER_REFUSED UINT64_C(4294967296)
#define JOLMUQTER_BOUNDS 35
#define JOLMUQTER_CONDITION(answer) ((uint32_t)((answer) >> 16))
#define JOLMUQTER_MODULE(answer) ((uint32_t)((answer) & 65535))
#define JOLMUQTER_DONE UINT64_C(2147483648)
#define JOLMUQTER_STEP_MODULE(answer) ((uint32_t)((answer) >> 16))
#define JOLMUQTER_STEP_HOST(answer) ((uint32_t)((answer) & 65535))
#define JOLMUQTER_NO_NAMES (const uint8_t *)"", 0
#define JOLMUQTER_TABLE                                                                                                \
  uint32_t runtime, uint32_t dynamic, const uint32_t *bounds, size_t bounds_len, const uint32_t *columns, size_t columns_len,   \
      const uint8_t *names, size_t names_len

#ifdef __cplusplus
extern "C" {
#endif

/* The test of the tables alone, which every other call makes first. Count: 0. */
uint64_t jolmuqter_refusal(JOLMUQTER_TABLE);

/* numbers: a place a module, the mark where it is unreached. sorted: the listed modules. Count: that of listed modules. */
uint64_t jolmuqter_sort_modules(JOLMUQTER_TABLE, uint32_t *numbers, size_t numbers_len, uint32_t *sorted, size_t sorted_len);

/* paths: the import circles that the sort meets, one after the other in the order of finding: the modules of each, and then its first again; equal
 * ones once. lengths: how many places each takes. Count: that of circles. */
uint64_t jolmuqter_import_circles(JOLMUQTER_TABLE, uint32_t *paths, size_t paths_len, uint32_t *lengths, size_t lengths_len);

/* order: the expected order of any module row. Count: that of listed modules. */
uint64_t jolmuqter_expected_order(JOLMUQTER_TABLE, uint32_t root, uint32_t *order, size_t order_len);

/* order: the expected order of any module rows, walked one after the other: a module that an earlier one listed isn't listed again, and rows that are external
 * or aren't included are passed over. Any number of entries, repeats too; the table's entry rows aren't used. Count: that of listed modules. */
uint64_t jolmuqter_entries_order(JOLMUQTER_TABLE, const uint32_t *entries, size_t entries_len, uint32_t *order, size_t order_len);

/* order: the actual order of an analysed entry. hosts: a place a module, the mark where none is noted. Count: that of listed modules. */
uint64_t jolmuqter_actual_order(JOLMUQTER_TABLE, uint32_t root, uint32_t *order, size_t order_len, uint32_t *hosts, size_t hosts_len);

/* members: the members of each chunk as rolldown's `sort_chunk_modules` arranges them, at the chunk's member rows. First come modules whose names begin with
 * `rolldown:` or with byte 0 and `rolldown/`, by their number from the sort; then normal modules without records and without the sensitive flag, by name;
 * then the others by number; ties by the lower row. Count: that of member rows. */
uint64_t jolmuqter_sort_chunk_modules(JOLMUQTER_TABLE, uint32_t *members, size_t members_len);

/* labels: a place a chunk, the lowest chunk row of its cyclic component, else the mark. Count: that of cyclic chunks. */
uint64_t jolmuqter_labels(JOLMUQTER_TABLE, uint32_t *labels, size_t labels_len);

/* Count: 1 if the chunk reaches a cyclic one, itself counted, else 0. */
uint64_t jolmuqter_chunk_reach(JOLMUQTER_TABLE, uint32_t chunk);

/* risk: 0 or 1 for each module, of an analysed entry: the modules that stand in just one of its orders or run early, and the hosts that stand in
 * for those that can't be wrapped. Reordering scripts lessens it. Count: that of ones. */
uint64_t jolmuqter_order_risk(JOLMUQTER_TABLE, uint32_t root, uint32_t *risk, size_t risk_len);

/* risk: 0 or 1 for each module, of an analysed entry: all eligible modules of its expected order if its chunk reaches a cyclic one, else none.
 * Packing chunks anew lessens it. A module may be in both risks; the whole analysis takes the two together. Count: that of ones. */
uint64_t jolmuqter_cycle_risk(JOLMUQTER_TABLE, uint32_t root, uint32_t *risk, size_t risk_len);

/* grounds: why each module is sensitive: 1 for its own flag, 2 for a use that triggers a wrapped module, 3 for both; 0 for one that isn't sensitive, as
 * the runtime, an external and one that isn't included. Count: that of the grounds above 0. */
uint64_t jolmuqter_grounds(JOLMUQTER_TABLE, uint32_t *grounds, size_t grounds_len);

/* plan: 0 or 1 for each module, from these seeds (the table's seed rows aren't used). Count: that of ones. */
uint64_t jolmuqter_plan_from_seeds(JOLMUQTER_TABLE, const uint32_t *seeds, size_t seeds_len, uint32_t *plan, size_t plan_len);

/* plan: the same for every table and every seeds, made by a worklist: each planned module is taken once, and the rules are applied only where it can matter.
 * Long chains of modules that join one after the other take a hundredth of the time and less; the least call takes about 0.1 ms, and the stack is larger (above). */
uint64_t jolmuqter_plan_by_worklist(JOLMUQTER_TABLE, const uint32_t *seeds, size_t seeds_len, uint32_t *plan, size_t plan_len);

/* list: that worklist, its modules in the order in which they are taken. lengths: how many of them were listed after 0, 1, 2 and more takings, a number for
 * each member of the list; after the last taking all are. Each list has, each once, the eligible seeds and what a rule asks for with just the taken modules planned. Count:
 * that of the list, whose members are the plan from these seeds. The order of what one taking lists is free. */
uint64_t jolmuqter_takings_from_seeds(JOLMUQTER_TABLE, const uint32_t *seeds, size_t seeds_len, uint32_t *list, size_t list_len, uint32_t *lengths, size_t lengths_len);

/* plan: a plan made elsewhere, 0 or 1 for each module, with these seeds. The answer isn't a count: 0 if the plan is accepted; JOLMUQTER_CONDITION(answer), 1 to
 * 6, and JOLMUQTER_MODULE(answer) if a condition is broken; else 2^32 plus the number of a refusal, as above. The conditions, of which the first broken one is
 * given with the lowest module that is wrong or lacking:
 *   1  only eligible modules are in the plan
 *   2  every eligible seed is in it
 *   3  to 6  every module that rule (i), (ii), (iii), (iv) asks for with the plan as it is given is in it */
uint64_t jolmuqter_check_plan(JOLMUQTER_TABLE, const uint32_t *seeds, size_t seeds_len, const uint32_t *plan, size_t plan_len);

/* plan: 0 or 1 for each module, of the whole analysis: from all analysed entries' risks and the seed rows. Count: that of ones. */
uint64_t jolmuqter_plan(JOLMUQTER_TABLE, uint32_t *plan, size_t plan_len);

/* A step of the load of an analysed entry with a plan carried out: the actual order with the wrap of every planned module read as 2. plan: 0 or 1 for each
 * module; it may hold any modules. number: from 0. The answer isn't a count: JOLMUQTER_STEP_MODULE(answer), the module at that place, and
 * JOLMUQTER_STEP_HOST(answer), its host, itself where it is its own; JOLMUQTER_DONE where none is left; else 2^32 plus the number of a refusal, as above. */
uint64_t jolmuqter_load_step(JOLMUQTER_TABLE, uint32_t root, uint32_t number, const uint32_t *plan, size_t plan_len);

/* All steps of such a load: place n of steps is step n's module, and place n of hosts its host. Count: that of steps. */
uint64_t jolmuqter_load_run(JOLMUQTER_TABLE, uint32_t root, const uint32_t *plan, size_t plan_len, uint32_t *steps, size_t steps_len, uint32_t *hosts, size_t hosts_len);

/* share: four numbers: how many modules are eligible, how many of them the whole analysis plans, and the quotient and the remainder of 1,000 times the
 * second by the first, both 0 where the first is 0. 6 where it has less than 4 places. Count: 4. */
uint64_t jolmuqter_share(JOLMUQTER_TABLE, uint32_t *share, size_t share_len);

/* line: one line of an analysed entry's page, by its number from 0: 40 characters and an LF (10). Module, expected place, actual place and shift, each
 * right-aligned in 8; five spaces; `yes` or ` no` for planned by the whole analysis. Places count from 0 within the entry's expected and actual order with all
 * but the sensitive modules left out, `-` where there is none; the shift is the actual place minus the expected one, `-` where either is missing. The modules
 * of the expected order come first, in that order, then the others by actual place. 6 where it has less than 41 bytes, also past the last line. Count: 41, or
 * 0 past the last, where nothing is written. */
uint64_t jolmuqter_page_line(JOLMUQTER_TABLE, uint32_t root, uint32_t number, uint8_t *line, size_t line_len);

/* page: the page of an analysed entry, its lines in turn as jolmuqter_page_line gives them, where `grounds`, as jolmuqter_grounds gives them, say which modules
 * are sensitive (above 0), and `plan`, as jolmuqter_plan gives it, which are planned (not 0); so both are made once for all entries. 6 where either has less than
 * a place for each module, or the page less than 41 bytes for each. Count: that of the page's bytes. */
uint64_t jolmuqter_entry_page(JOLMUQTER_TABLE, uint32_t root, const uint32_t *grounds, size_t grounds_len, const uint32_t *plan, size_t plan_len, uint8_t *page, size_t page_len);

#ifdef __cplusplus
}
#endif
#endif
