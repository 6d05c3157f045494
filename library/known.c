/* Each function from C on document 01's listing, with known answers, and how much stack the deepest projects take. */
#define _GNU_SOURCE
#include "jolmuqter.h"
#include <pthread.h>
#include <stdio.h>
#include <stdlib.h>
#include <string.h>

#define NO JOLMUQTER_MISSING
#define LENGTH(a) (sizeof(a) / sizeof *(a))
#define REFUSED(n) (JOLMUQTER_REFUSED + (n))
#define LIST(...) ((const uint32_t[]){__VA_ARGS__})

static int failures, checks;

static void expect(int line, uint64_t answer, uint64_t known) {
  checks++;
  if (answer == known) return;
  failures++;
  printf("known.c:%d: %llu, not %llu\n", line, (unsigned long long)answer, (unsigned long long)known);
}

static void hold(int line, const uint32_t *slice, const uint32_t *known, size_t n) {
  for (size_t i = 0; i < n; i++) expect(line, slice[i], known[i]);
}
#define EXPECT(answer, known) expect(__LINE__, answer, known)
#define HOLD(slice, ...) hold(__LINE__, slice, LIST(__VA_ARGS__), LENGTH(LIST(__VA_ARGS__)))

/* A table that grows column by column. */
typedef struct {
  uint32_t bounds[JOLMUQTER_BOUNDS], *columns;
  size_t length;
  int next;
  const uint8_t *names;
  size_t names_length;
} Table;
#define TABLE(t) 0, 0, (t).bounds, JOLMUQTER_BOUNDS, (t).columns, (t).length, (t).names, (t).names_length

static void column(Table *t, const uint32_t *values, size_t n) {
  t->columns = realloc(t->columns, (t->length + n + 1) * sizeof *values);
  if (n) memcpy(t->columns + t->length, values, n * sizeof *values);
  t->length += n;
  t->bounds[++t->next] = (uint32_t)t->length;
}
#define COLUMN(t, ...) column(t, LIST(__VA_ARGS__), LENGTH(LIST(__VA_ARGS__)))

/* Columns without a row. */
static void empty(Table *t, int columns) {
  for (int i = 0; i < columns; i++) column(t, NULL, 0);
}

/* Document 01's listing, with other `normal` and `newer` values and imports. */
static Table replaced(const uint32_t normal[4], const uint32_t newer[4], const uint32_t *from, const uint32_t *to, size_t imports) {
  Table t = {{0}, NULL, 0, 0, JOLMUQTER_NO_NAMES};
  column(&t, normal, 4);
  COLUMN(&t, 1, 1, 1, 1), COLUMN(&t, 0, 1, 1, 1), COLUMN(&t, 0, 0, 0, 0);
  COLUMN(&t, 1, 1, 1, 1), COLUMN(&t, 0, 0, 0, 0), COLUMN(&t, 1, 0, 0, 1);
  column(&t, newer, 4);
  COLUMN(&t, 1, 1), COLUMN(&t, 0, 0), COLUMN(&t, 2, 3);
  COLUMN(&t, 1, 1), COLUMN(&t, 2, 3);
  empty(&t, 13);
  COLUMN(&t, 1, 0);
  COLUMN(&t, 0, 0, 1, 1), COLUMN(&t, 2, 1, 0, 3);
  column(&t, from, imports), column(&t, to, imports);
  COLUMN(&t, 1), COLUMN(&t, 0);
  empty(&t, 1);
  return t;
}

/* The same, with no module superseded. */
static Table listing(const uint32_t normal[4], const uint32_t *from, const uint32_t *to, size_t imports) {
  return replaced(normal, LIST(NO, NO, NO, NO), from, to, imports);
}

/* The same table with names. */
static Table named(Table t, const char *names) {
  t.names = (const uint8_t *)names, t.names_length = strlen(names);
  return t;
}

/* A line of a page as text. */
static void holds(int line, const uint8_t *slice, const char *known) {
  checks++;
  if (!memcmp(slice, known, strlen(known))) return;
  failures++;
  printf("known.c:%d: %.41s, not %s\n", line, slice, known);
}
#define HOLDS(slice, known) holds(__LINE__, slice, known)

static void answers(void) {
  const uint32_t *normal = LIST(1, 1, 1, 1);
  Table t = listing(normal, LIST(0), LIST(1), 1);
  Table back = listing(normal, LIST(0, 1), LIST(1, 0), 2);
  Table self = listing(normal, LIST(0, 0), LIST(0, 1), 2);
  Table external = listing(LIST(1, 1, 1, 0), LIST(0), LIST(1), 1);
  Table twice = listing(normal, LIST(0, 0), LIST(1, 1), 2);
  Table fallen = listing(normal, LIST(1, 0), LIST(0, 1), 2);
  uint32_t a[5] = {9, 9, 9, 9, 9}, b[5] = {9, 9, 9, 9, 9};

  EXPECT(jolmuqter_refusal(TABLE(t)), 0);
  EXPECT(jolmuqter_refusal(0, 0, t.bounds, 34, t.columns, t.length, JOLMUQTER_NO_NAMES), REFUSED(1));
  EXPECT(jolmuqter_refusal(0, 0, t.bounds, 35, t.columns, t.length - 1, JOLMUQTER_NO_NAMES), REFUSED(1));
  EXPECT(jolmuqter_refusal(0, 0, t.bounds, 35, t.columns, t.length + 1, JOLMUQTER_NO_NAMES), REFUSED(1));
  EXPECT(jolmuqter_refusal(0, 0, t.bounds + 1, 34, t.columns, t.length, JOLMUQTER_NO_NAMES), REFUSED(1));
  Table uneven = listing(normal, LIST(0), LIST(1), 1);
  uneven.bounds[30]++; /* two rows of importing chunks, none of imported ones */
  EXPECT(jolmuqter_refusal(TABLE(uneven)), REFUSED(1));
  uneven.bounds[30] = 0; /* below the bound before */
  EXPECT(jolmuqter_refusal(TABLE(uneven)), REFUSED(1));
  EXPECT(jolmuqter_refusal(4, 0, t.bounds, 35, t.columns, t.length, JOLMUQTER_NO_NAMES), REFUSED(2));
  EXPECT(jolmuqter_refusal(0, 2, t.bounds, 35, t.columns, t.length, JOLMUQTER_NO_NAMES), REFUSED(2));
  EXPECT(jolmuqter_refusal(TABLE(fallen)), REFUSED(3));
  EXPECT(jolmuqter_refusal(TABLE(twice)), REFUSED(4));
  Table later = replaced(normal, LIST(NO, NO, 3, NO), LIST(0), LIST(1), 1);
  Table same = replaced(normal, LIST(NO, NO, 2, NO), LIST(0), LIST(1), 1);
  Table earlier = replaced(normal, LIST(NO, NO, 1, NO), LIST(0), LIST(1), 1);
  Table past = replaced(normal, LIST(4, NO, NO, NO), LIST(0), LIST(1), 1);
  Table largest = replaced(normal, LIST(NO, NO, NO, NO - 1), LIST(0), LIST(1), 1);
  Table also_twice = replaced(normal, LIST(NO, NO, 2, NO), LIST(0, 0), LIST(1, 1), 2);
  EXPECT(jolmuqter_refusal(TABLE(later)), 0);
  EXPECT(jolmuqter_refusal(TABLE(same)), REFUSED(10));
  EXPECT(jolmuqter_refusal(TABLE(earlier)), REFUSED(10));
  EXPECT(jolmuqter_refusal(TABLE(past)), REFUSED(10));
  EXPECT(jolmuqter_refusal(TABLE(largest)), REFUSED(10));
  EXPECT(jolmuqter_refusal(TABLE(also_twice)), REFUSED(4));
  EXPECT(jolmuqter_expected_order(TABLE(same), 4, a, 3), REFUSED(10));
  EXPECT(jolmuqter_expected_order(TABLE(later), 1, a, 4), 2);
  HOLD(a, 3, 1, 9, 9, 9);
  EXPECT(jolmuqter_sort_modules(TABLE(later), a, 4, b, 4), 3);
  HOLD(a, 0, 2, NO, 1, 9), HOLD(b, 0, 3, 1, 9, 9);
  for (int i = 0; i < 5; i++) a[i] = b[i] = 9;

  EXPECT(jolmuqter_sort_modules(TABLE(t), a, 3, b, 4), REFUSED(6));
  EXPECT(jolmuqter_sort_modules(TABLE(t), a, 4, b, 3), REFUSED(6));
  EXPECT(jolmuqter_sort_modules(0, 0, t.bounds, 35, t.columns, 0, JOLMUQTER_NO_NAMES, a, 4, b, 4), REFUSED(1));
  HOLD(a, 9, 9, 9, 9, 9), HOLD(b, 9, 9, 9, 9, 9);
  EXPECT(jolmuqter_sort_modules(TABLE(t), a, 4, b, 4), 4);
  HOLD(a, 0, 3, 1, 2, 9), HOLD(b, 0, 2, 3, 1, 9);

  Table ring = listing(normal, LIST(0), LIST(1), 1);
  ring.columns[ring.bounds[10] + 1] = 1; /* module 1 imports itself in the place of module 3 */
  memset(a, 0, sizeof a), memset(b, 0, sizeof b);
  EXPECT(jolmuqter_import_circles(TABLE(t), a, 0, b, 0), 0);
  EXPECT(jolmuqter_import_circles(TABLE(ring), a, 1, b, 5), REFUSED(8));
  EXPECT(jolmuqter_import_circles(TABLE(ring), a, 5, b, 0), REFUSED(8));
  EXPECT(jolmuqter_import_circles(TABLE(twice), a, 0, b, 0), REFUSED(4));
  HOLD(a, 0, 0, 0, 0, 0), HOLD(b, 0, 0, 0, 0, 0);
  EXPECT(jolmuqter_import_circles(TABLE(ring), a, 2, b, 1), 1);
  HOLD(a, 1, 1, 0, 0, 0), HOLD(b, 2, 0, 0, 0, 0);
  EXPECT(jolmuqter_sort_modules(TABLE(t), a, 4, b, 4), 4);

  memset(a, 0, sizeof a);
  EXPECT(jolmuqter_expected_order(TABLE(t), 1, a, 5), 3);
  HOLD(a, 2, 3, 1, 0, 0);
  EXPECT(jolmuqter_expected_order(TABLE(external), 3, a, 5), 0);
  EXPECT(jolmuqter_expected_order(TABLE(t), 4, a, 5), REFUSED(5));
  EXPECT(jolmuqter_expected_order(TABLE(t), 1, a, 3), REFUSED(6));
  HOLD(a, 2, 3, 1, 0, 0);

  EXPECT(jolmuqter_entries_order(TABLE(t), LIST(3, 1, 3, 0), 4, a, 5), 4);
  HOLD(a, 3, 2, 1, 0, 0);
  EXPECT(jolmuqter_entries_order(TABLE(t), LIST(1), 1, a, 4), 3);
  HOLD(a, 2, 3, 1, 0, 0);
  EXPECT(jolmuqter_entries_order(TABLE(external), LIST(3, 2), 2, a, 4), 1);
  HOLD(a, 2, 3, 1, 0, 0);
  EXPECT(jolmuqter_entries_order(TABLE(t), LIST(9), 0, a, 4), 0);
  EXPECT(jolmuqter_entries_order(TABLE(t), LIST(1, 4), 2, a, 4), REFUSED(5));
  EXPECT(jolmuqter_entries_order(TABLE(t), LIST(1), 1, a, 3), REFUSED(6));
  HOLD(a, 2, 3, 1, 0, 0);

  EXPECT(jolmuqter_actual_order(TABLE(t), 0, a, 4, b, 4), REFUSED(5));
  EXPECT(jolmuqter_actual_order(TABLE(t), 1, a, 4, b, 3), REFUSED(6));
  HOLD(a, 2, 3, 1, 0), HOLD(b, 0, 2, 3, 1);
  EXPECT(jolmuqter_actual_order(TABLE(t), 1, a, 4, b, 4), 4);
  HOLD(a, 0, 3, 2, 1), HOLD(b, NO, NO, NO, NO);

  EXPECT(jolmuqter_labels(TABLE(t), a, 1), REFUSED(6));
  EXPECT(jolmuqter_labels(TABLE(t), a, 2), 0);
  HOLD(a, NO, NO, 2);
  EXPECT(jolmuqter_labels(TABLE(back), a, 2), 2);
  HOLD(a, 0, 0, 2);
  EXPECT(jolmuqter_labels(TABLE(self), a, 2), 1);
  HOLD(a, 0, NO, 2);

  EXPECT(jolmuqter_chunk_reach(TABLE(t), 0), 0);
  EXPECT(jolmuqter_chunk_reach(TABLE(self), 0), 1);
  EXPECT(jolmuqter_chunk_reach(TABLE(self), 1), 0);
  EXPECT(jolmuqter_chunk_reach(TABLE(t), 2), REFUSED(5));

  EXPECT(jolmuqter_order_risk(TABLE(t), 1, a, 4), 1);
  HOLD(a, 0, 0, 0, 1);
  EXPECT(jolmuqter_order_risk(TABLE(t), 2, a, 4), REFUSED(5));
  EXPECT(jolmuqter_order_risk(TABLE(t), 1, a, 3), REFUSED(6));
  HOLD(a, 0, 0, 0, 1);

  EXPECT(jolmuqter_cycle_risk(TABLE(t), 2, a, 4), REFUSED(5));
  EXPECT(jolmuqter_cycle_risk(TABLE(t), 1, a, 3), REFUSED(6));
  HOLD(a, 0, 0, 0, 1);
  EXPECT(jolmuqter_cycle_risk(TABLE(t), 1, a, 4), 0);
  HOLD(a, 0, 0, 0, 0);
  EXPECT(jolmuqter_cycle_risk(TABLE(back), 1, a, 4), 3);
  HOLD(a, 0, 1, 1, 1);

  EXPECT(jolmuqter_grounds(TABLE(t), a, 3), REFUSED(6));
  HOLD(a, 0, 1, 1, 1);
  EXPECT(jolmuqter_grounds(TABLE(t), a, 4), 3);
  HOLD(a, 0, 1, 1, 1);

  uint64_t (*planners[])(JOLMUQTER_TABLE, const uint32_t *, size_t, uint32_t *, size_t) = {jolmuqter_plan_from_seeds, jolmuqter_plan_by_worklist};
  for (size_t i = 0; i < LENGTH(planners); i++) {
    EXPECT(planners[i](TABLE(t), LIST(9), 0, a, 4), 0);
    HOLD(a, 0, 0, 0, 0);
    EXPECT(planners[i](TABLE(t), LIST(0), 1, a, 4), 0);
    HOLD(a, 0, 0, 0, 0);
    EXPECT(planners[i](TABLE(t), LIST(1), 1, a, 4), 1);
    HOLD(a, 0, 1, 0, 0);
    EXPECT(planners[i](TABLE(t), LIST(2), 1, a, 4), 3);
    HOLD(a, 0, 1, 1, 1);
    EXPECT(planners[i](TABLE(back), LIST(1), 1, a, 4), 3);
    HOLD(a, 0, 1, 1, 1);
    EXPECT(planners[i](TABLE(t), LIST(1, 4), 2, a, 4), REFUSED(5));
    EXPECT(planners[i](TABLE(t), LIST(1), 1, a, 3), REFUSED(6));
    HOLD(a, 0, 1, 1, 1);
  }

  uint32_t list[4] = {9, 9, 9, 9}, lengths[4] = {9, 9, 9, 9};
  EXPECT(jolmuqter_takings_from_seeds(TABLE(t), LIST(9), 0, list, 4, lengths, 4), 0);
  HOLD(list, 9, 9, 9, 9);
  EXPECT(jolmuqter_takings_from_seeds(TABLE(t), LIST(0, 2, 2), 3, list, 4, lengths, 4), 3);
  EXPECT(list[0], 2), EXPECT(list[1] + list[2], 4), EXPECT(list[1] == 2, 0), EXPECT(list[3], 9);
  HOLD(lengths, 1, 3, 3, 9);
  EXPECT(jolmuqter_takings_from_seeds(TABLE(t), LIST(4), 1, list, 4, lengths, 4), REFUSED(5));
  EXPECT(jolmuqter_takings_from_seeds(TABLE(t), LIST(1), 1, list, 3, lengths, 4), REFUSED(6));
  EXPECT(jolmuqter_takings_from_seeds(TABLE(t), LIST(1), 1, list, 4, lengths, 3), REFUSED(6));
  EXPECT(list[0], 2);
  HOLD(lengths, 1, 3, 3, 9);

  EXPECT(jolmuqter_check_plan(TABLE(t), LIST(2), 1, LIST(0, 1, 1, 1), 4), 0);
  EXPECT(jolmuqter_check_plan(TABLE(t), LIST(1), 1, LIST(0, 1, 0, 1), 4), 0);
  EXPECT(jolmuqter_check_plan(TABLE(t), LIST(0), 1, LIST(0, 0, 0, 0), 4), 0);
  EXPECT(jolmuqter_check_plan(TABLE(t), LIST(2), 1, LIST(1, 1, 1, 1), 4), 65536);
  EXPECT(jolmuqter_check_plan(TABLE(t), LIST(2), 1, LIST(0, 1, 0, 1), 4), 2 * 65536 + 2);
  EXPECT(jolmuqter_check_plan(TABLE(t), LIST(2), 1, LIST(0, 0, 1, 0), 4), 3 * 65536 + 1);
  EXPECT(jolmuqter_check_plan(TABLE(back), LIST(1), 1, LIST(0, 1, 0, 0), 4), 4 * 65536 + 2);
  EXPECT(JOLMUQTER_CONDITION(UINT64_C(262146)), 4), EXPECT(JOLMUQTER_MODULE(UINT64_C(262146)), 2);
  EXPECT(jolmuqter_check_plan(TABLE(t), LIST(2), 1, LIST(0, 1, 2, 1), 4), REFUSED(9));
  EXPECT(jolmuqter_check_plan(TABLE(t), LIST(2), 1, LIST(0, 1, 1, 1, 0), 5), REFUSED(9));
  EXPECT(jolmuqter_check_plan(TABLE(t), LIST(2), 1, LIST(0, 1, 1), 3), REFUSED(9));
  EXPECT(jolmuqter_check_plan(TABLE(t), LIST(4), 1, LIST(2), 1), REFUSED(5));
  EXPECT(jolmuqter_check_plan(TABLE(twice), LIST(4), 1, LIST(2), 1), REFUSED(4));

  EXPECT(jolmuqter_plan(TABLE(t), a, 3), REFUSED(6));
  HOLD(a, 0, 1, 1, 1);
  EXPECT(jolmuqter_plan(TABLE(t), a, 4), 2);
  HOLD(a, 0, 1, 0, 1);

  for (uint32_t n = 0; n < 6; n++) {
    static const uint64_t steps[6] = {0, 2 * 65536 + 2, 3 * 65536 + 1, 65536 + 1, JOLMUQTER_DONE, JOLMUQTER_DONE};
    EXPECT(jolmuqter_load_step(TABLE(t), 1, n, LIST(0, 1, 0, 1), 4), steps[n]);
  }
  EXPECT(JOLMUQTER_STEP_MODULE(UINT64_C(196609)), 3), EXPECT(JOLMUQTER_STEP_HOST(UINT64_C(196609)), 1);
  EXPECT(jolmuqter_load_step(TABLE(t), 0, 0, LIST(2), 1), REFUSED(5));
  EXPECT(jolmuqter_load_step(TABLE(t), 1, 0, LIST(0, 1, 0, 2), 4), REFUSED(9));
  EXPECT(jolmuqter_load_step(TABLE(twice), 0, 0, LIST(2), 1), REFUSED(4));
  EXPECT(jolmuqter_load_run(TABLE(t), 1, LIST(0, 1, 0), 3, a, 3, b, 3), REFUSED(9));
  EXPECT(jolmuqter_load_run(TABLE(t), 1, LIST(0, 1, 0, 1), 4, a, 4, b, 3), REFUSED(6));
  HOLD(a, 0, 1, 0, 1);
  EXPECT(jolmuqter_load_run(TABLE(t), 1, LIST(0, 1, 0, 1), 4, a, 4, b, 4), 4);
  HOLD(a, 0, 2, 3, 1), HOLD(b, 0, 2, 1, 1);
  EXPECT(jolmuqter_load_run(TABLE(t), 1, LIST(0, 0, 0, 0), 4, a, 4, b, 4), 4);
  HOLD(a, 0, 3, 2, 1), HOLD(b, 0, 3, 2, 1);
  EXPECT(jolmuqter_plan(TABLE(t), a, 4), 2);
  HOLD(a, 0, 1, 0, 1);

  EXPECT(jolmuqter_share(TABLE(t), a, 3), REFUSED(6));
  HOLD(a, 0, 1, 0, 1);
  EXPECT(jolmuqter_share(TABLE(t), a, 4), 4);
  HOLD(a, 3, 2, 666, 2);

  uint8_t line[42];
  memset(line, '.', sizeof line);
  EXPECT(jolmuqter_page_line(TABLE(twice), 2, 0, line, 40), REFUSED(4));
  EXPECT(jolmuqter_page_line(TABLE(t), 2, 0, line, 40), REFUSED(5));
  EXPECT(jolmuqter_page_line(TABLE(t), 4, 0, line, 42), REFUSED(5));
  EXPECT(jolmuqter_page_line(TABLE(t), 1, 0, line, 40), REFUSED(6));
  EXPECT(jolmuqter_page_line(TABLE(t), 1, 3, line, 40), REFUSED(6));
  EXPECT(jolmuqter_page_line(TABLE(t), 1, 3, line, 41), 0);
  EXPECT(jolmuqter_page_line(TABLE(t), 1, NO, line, 41), 0);
  HOLDS(line, "..........................................");
  EXPECT(jolmuqter_page_line(TABLE(t), 1, 0, line, 42), 41);
  HOLDS(line, "       2       0       1       1      no\n.");
  EXPECT(jolmuqter_page_line(TABLE(t), 1, 1, line, 41), 41);
  HOLDS(line, "       3       1       0      -1     yes\n.");
  EXPECT(jolmuqter_page_line(TABLE(t), 1, 2, line, 41), 41);
  HOLDS(line, "       1       2       2       0     yes\n.");

  uint8_t page[164];
  memset(page, '.', sizeof page);
  EXPECT(jolmuqter_entry_page(TABLE(t), 2, LIST(0, 1, 1, 1), 4, LIST(0, 1, 0, 1), 4, page, 164), REFUSED(5));
  EXPECT(jolmuqter_entry_page(TABLE(t), 1, LIST(0, 1, 1), 3, LIST(0, 1, 0, 1), 4, page, 164), REFUSED(6));
  EXPECT(jolmuqter_entry_page(TABLE(t), 1, LIST(0, 1, 1, 1), 4, LIST(0, 1, 0), 3, page, 164), REFUSED(6));
  EXPECT(jolmuqter_entry_page(TABLE(t), 1, LIST(0, 1, 1, 1), 4, LIST(0, 1, 0, 1), 4, page, 163), REFUSED(6));
  HOLDS(page, ".........................................");
  EXPECT(jolmuqter_entry_page(TABLE(t), 1, LIST(0, 1, 1, 1), 4, LIST(0, 1, 0, 1), 4, page, 164), 123);
  HOLDS(page, "       2       0       1       1      no\n       3       1       0      -1     yes\n       1       2       2       0     yes\n..");
  EXPECT(jolmuqter_entry_page(TABLE(t), 1, LIST(0, 0, 3, 0), 4, LIST(0, 0, 9, 0), 4, page, 164), 41);
  HOLDS(page, "       2       0       0       0     yes\n       3");

  for (int i = 0; i < 5; i++) a[i] = 9;
  Table plain = named(t, "a\nb\nc\nd\n"), runtime = named(t, "a\nb\nc\n~rolldown/d\n");
  EXPECT(jolmuqter_refusal(TABLE(plain)), 0);
  EXPECT(jolmuqter_refusal(TABLE(named(t, "a\nb\nc\n"))), REFUSED(2));
  EXPECT(jolmuqter_refusal(TABLE(named(t, "a\nb\nc\nd"))), REFUSED(2));
  EXPECT(jolmuqter_refusal(TABLE(named(t, "a\nb\n\nd\n"))), REFUSED(2));
  EXPECT(jolmuqter_refusal(TABLE(named(t, "a\nb \nc\nd\n"))), REFUSED(2));
  static char lines[16386];
  memset(lines, '\n', 16385);
  EXPECT(jolmuqter_refusal(TABLE(named(t, lines))), REFUSED(1));
  EXPECT(jolmuqter_refusal(TABLE(named(t, lines + 1))), REFUSED(2));
  EXPECT(jolmuqter_sort_chunk_modules(TABLE(t), a, 3), REFUSED(2));
  EXPECT(jolmuqter_sort_chunk_modules(TABLE(plain), a, 3), REFUSED(6));
  HOLD(a, 9, 9, 9, 9, 9);
  EXPECT(jolmuqter_sort_chunk_modules(TABLE(plain), a, 4), 4);
  HOLD(a, 2, 1, 0, 3, 9);
  EXPECT(jolmuqter_sort_chunk_modules(TABLE(runtime), a, 5), 4);
  HOLD(a, 2, 1, 3, 0, 9);
  EXPECT(jolmuqter_actual_order(TABLE(plain), 1, a, 4, b, 4), 4);
  HOLD(a, 0, 3, 2, 1);
  EXPECT(jolmuqter_actual_order(TABLE(runtime), 1, a, 4, b, 4), 4);
  HOLD(a, 3, 0, 2, 1);
}

enum { MODULES = 4096, CHUNKS = 1024, STACK = 16 << 20 };

/* A name for each of 4,096 modules. */
static const char *all_names(void) {
  static char names[MODULES * 6 + 1];
  for (int i = 0; i < MODULES; i++) sprintf(names + i * 6, "m%04d\n", i);
  return names;
}

/* A chain of 4,096 modules and one of 1,024 chunks; the first module stands in the last chunk, and the other modules have this wrap. */
static Table chains(uint32_t wrap) {
  static uint32_t up[MODULES], next[MODULES], zero[MODULES], one[MODULES], wraps[MODULES], in[MODULES], none[MODULES];
  for (uint32_t i = 0; i < MODULES; i++) up[i] = i, next[i] = i + 1, one[i] = 1, wraps[i] = i ? wrap : 0, in[i] = CHUNKS - 1, none[i] = NO;
  Table t = {{0}, NULL, 0, 0, JOLMUQTER_NO_NAMES};
  column(&t, one, MODULES), column(&t, one, MODULES), column(&t, one, MODULES), column(&t, zero, MODULES);
  column(&t, one, MODULES), column(&t, wraps, MODULES), column(&t, in, MODULES), column(&t, none, MODULES);
  column(&t, up, MODULES - 1), column(&t, zero, MODULES - 1), column(&t, next, MODULES - 1);
  column(&t, up, MODULES - 1), column(&t, next, MODULES - 1);
  empty(&t, 13);
  column(&t, zero, CHUNKS);
  column(&t, in, wrap ? 1 : MODULES), column(&t, up, wrap ? 1 : MODULES);
  column(&t, up, CHUNKS - 1), column(&t, next, CHUNKS - 1);
  COLUMN(&t, 0), COLUMN(&t, 0);
  empty(&t, 1);
  return t;
}

/* The last module imports all others but the runtime, 0; its chunk has the modules from the last to the first. */
static Table reversed(void) {
  static uint32_t up[MODULES], down[MODULES], zero[MODULES], one[MODULES], none[MODULES], last[MODULES];
  for (uint32_t i = 0; i < MODULES; i++) up[i] = i + 1, down[i] = MODULES - 1 - i, one[i] = 1, none[i] = NO, last[i] = MODULES - 1;
  Table t = {{0}, NULL, 0, 0, JOLMUQTER_NO_NAMES};
  column(&t, one, MODULES), column(&t, one, MODULES), column(&t, one, MODULES), column(&t, zero, MODULES);
  column(&t, one, MODULES), column(&t, zero, MODULES), column(&t, zero, MODULES), column(&t, none, MODULES);
  column(&t, last, MODULES - 2), column(&t, zero, MODULES - 2), column(&t, up, MODULES - 2);
  empty(&t, 2 + 13);
  COLUMN(&t, 0);
  column(&t, zero, MODULES), column(&t, down, MODULES);
  empty(&t, 2);
  COLUMN(&t, MODULES - 1), COLUMN(&t, 0);
  empty(&t, 1);
  return t;
}

/* The two ends of a shift, which no text has room for. */
static void ends(void) {
  Table t = reversed();
  uint8_t line[41];
  EXPECT(jolmuqter_page_line(TABLE(t), MODULES - 1, 0, line, 41), 41);
  HOLDS(line, "       1       0    4094    4094      no\n");
  EXPECT(jolmuqter_page_line(TABLE(t), MODULES - 1, 2047, line, 41), 41);
  HOLDS(line, "    2048    2047    2047       0     yes\n");
  EXPECT(jolmuqter_page_line(TABLE(t), MODULES - 1, 4094, line, 41), 41);
  HOLDS(line, "    4095    4094       0   -4094     yes\n");
  EXPECT(jolmuqter_page_line(TABLE(t), MODULES - 1, 4095, line, 41), 0);
}

static uint32_t first[MODULES], second[MODULES];
static Table deep;

static void sort_modules(void) { EXPECT(jolmuqter_sort_modules(TABLE(deep), first, MODULES, second, MODULES), MODULES); }
static void import_circles(void) { EXPECT(jolmuqter_import_circles(TABLE(deep), first, MODULES, second, MODULES), 0); }
static void expected_order(void) { EXPECT(jolmuqter_expected_order(TABLE(deep), 0, first, MODULES), MODULES); }
static void entries_order(void) { EXPECT(jolmuqter_entries_order(TABLE(deep), LIST(MODULES - 1, 0), 2, first, MODULES), MODULES); }
static void actual_order(void) { EXPECT(jolmuqter_actual_order(TABLE(deep), 0, first, MODULES, second, MODULES), MODULES); }
static void sort_chunk_modules(void) { EXPECT(jolmuqter_sort_chunk_modules(TABLE(named(deep, all_names())), first, MODULES) < JOLMUQTER_REFUSED, 1); }
static void labels(void) { EXPECT(jolmuqter_labels(TABLE(deep), first, CHUNKS), 0); }
static void chunk_reach(void) { EXPECT(jolmuqter_chunk_reach(TABLE(deep), 0), 0); }
static void order_risk(void) { EXPECT(jolmuqter_order_risk(TABLE(deep), 0, first, MODULES) < JOLMUQTER_REFUSED, 1); }
static void cycle_risk(void) { EXPECT(jolmuqter_cycle_risk(TABLE(deep), 0, first, MODULES), 0); }
static void grounds(void) { EXPECT(jolmuqter_grounds(TABLE(deep), first, MODULES), MODULES - 1); }
static void check_plan(void) { EXPECT(jolmuqter_check_plan(TABLE(deep), LIST(MODULES - 1), 1, first, MODULES) < JOLMUQTER_REFUSED, 1); }
static void plan_from_seeds(void) { EXPECT(jolmuqter_plan_from_seeds(TABLE(deep), LIST(MODULES - 1), 1, first, MODULES) < JOLMUQTER_REFUSED, 1); }
static void plan_by_worklist(void) { EXPECT(jolmuqter_plan_by_worklist(TABLE(deep), LIST(MODULES - 1), 1, first, MODULES) < JOLMUQTER_REFUSED, 1); }
static void takings_from_seeds(void) { EXPECT(jolmuqter_takings_from_seeds(TABLE(deep), LIST(MODULES - 1), 1, first, MODULES, second, MODULES) < JOLMUQTER_REFUSED, 1); }
static void share(void) { EXPECT(jolmuqter_share(TABLE(deep), first, MODULES), 4); }
static void page_line(void) { EXPECT(jolmuqter_page_line(TABLE(deep), 0, 0, (uint8_t *)first, 41), 41); }
static uint8_t all_lines[41 * MODULES];
static void entry_page(void) { EXPECT(jolmuqter_entry_page(TABLE(deep), 0, deep.columns, MODULES, deep.columns, MODULES, all_lines, sizeof all_lines) < JOLMUQTER_REFUSED, 1); }
static void plan(void) { EXPECT(jolmuqter_plan(TABLE(deep), first, MODULES) < JOLMUQTER_REFUSED, 1); }

static void *run(void *call) { return (*(void (**)(void))call)(), NULL; }

/* How many bytes of a stack a call touches. */
static size_t stack_of(void (*call)(void)) {
  unsigned char *stack = aligned_alloc(4096, STACK);
  pthread_attr_t attributes;
  pthread_t thread;
  memset(stack, 0xa5, STACK);
  if (pthread_attr_init(&attributes) || pthread_attr_setstack(&attributes, stack, STACK) || pthread_create(&thread, &attributes, run, &call)) abort();
  pthread_join(thread, NULL);
  size_t untouched = 0;
  while (untouched < STACK && stack[untouched] == 0xa5) untouched++;
  free(stack);
  return STACK - untouched;
}

int main(void) {
  answers();
  ends();
  void (*calls[])(void) = {sort_modules, import_circles, expected_order, entries_order, actual_order, sort_chunk_modules, labels, chunk_reach, order_risk, cycle_risk, grounds, plan_from_seeds, plan_by_worklist, check_plan, takings_from_seeds, plan, share, page_line, entry_page};
  const char *names[] = {"sort_modules", "import_circles", "expected_order", "entries_order", "actual_order", "sort_chunk_modules", "labels", "chunk_reach", "order_risk", "cycle_risk", "grounds", "plan_from_seeds", "plan_by_worklist", "check_plan", "takings_from_seeds", "plan", "share", "page_line", "entry_page"};
  for (uint32_t way = 0; way < 4; way++) {
    deep = named(chains(way & 2), way & 1 ? all_names() : "");
    for (size_t i = 0; i < LENGTH(calls); i++) {
      size_t bytes = stack_of(calls[i]);
      printf("stack of %s, wrap %u, %s names: %zu KB\n", names[i], way & 2, way & 1 ? "with" : "without", bytes >> 10);
      EXPECT(bytes < (calls[i] == plan_by_worklist || calls[i] == takings_from_seeds ? 4 : 2) << 20, 1);
    }
  }
  printf("from C: %d checks, %d failed\n", checks, failures);
  return failures != 0;
}
