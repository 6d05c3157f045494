/* The plan of document 01's listing: prints "2 modules to wrap: 1 3". */
#include "jolmuqter.h"
#include <stdio.h>

int main(void) {
  const uint32_t columns[] = {1, 1, 1, 1, 1, 1, 1, 1, 0, 1, 1, 1, 0, 0, 0, 0, 1, 1, 1, 1, 0, 0, 0, 0, 1, 0, 0, 1, /* modules */
                              JOLMUQTER_MISSING, JOLMUQTER_MISSING, JOLMUQTER_MISSING, JOLMUQTER_MISSING, /* newer: none */
                              1, 1, 0, 0, 2, 3, /* records */ 1, 1, 2, 3, /* dependencies */ 1, 0, /* order */
                              0, 0, 1, 1, 2, 1, 0, 3, /* members */ 0, 1, /* imports */ 1, 0 /* entries */};
  const uint32_t bounds[JOLMUQTER_BOUNDS] = {0, 4, 8, 12, 16, 20, 24, 28, /* modules */ 32, 34, 36, /* records */ 38, 40, /* dependencies */
                                             42, 42, 42, 42, 42, 42, 42, 42, 42, 42, 42, 42, 42, /* six lists without a row */ 42, /* order */
                                             44, 48, /* members */ 52, 53, /* imports */ 54, 55, /* entries */ 56, /* seeds */ 56};
  uint32_t plan[4];
  uint64_t answer = jolmuqter_plan(0, 0, bounds, JOLMUQTER_BOUNDS, columns, sizeof columns / 4, JOLMUQTER_NO_NAMES, plan, 4);
  if (answer >= JOLMUQTER_REFUSED) return printf("refused %d\n", (int)(answer - JOLMUQTER_REFUSED)), 1;
  printf("%d modules to wrap:", (int)answer);
  for (int module = 0; module < 4; module++) if (plan[module]) printf(" %d", module);
  return puts("") < 0;
}
