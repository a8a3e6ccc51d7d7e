/* What the tests share. */
#ifndef CHECK_H
#define CHECK_H
#include "camlheap.h"
#include <stdatomic.h>
#include <stdio.h>

static atomic_int failures;

#define CHECK(fact) \
  do { \
    if (!(fact)) { \
      fprintf(stderr, "%s:%d: %s\n", __FILE__, __LINE__, #fact); \
      failures++; \
    } \
  } while (0)

/* Makes a command that has to be taken. */
static inline camlheap_reply done(camlheap_domain *domain, camlheap_command command) {
  camlheap_reply reply = {.kind = 99};
  uint32_t told = camlheap_perform(domain, &command, &reply);
  if (told != CAMLHEAP_DONE) {
    fprintf(stderr, "command %u is refused: %u\n", command.op, told);
    failures++;
  }
  return reply;
}

/* What a register holds. */
static inline camlheap_reply shown(camlheap_domain *domain, uint8_t reg) {
  camlheap_reply reply = {.kind = 99};
  CHECK(camlheap_show(domain, reg, &reply) == CAMLHEAP_DONE);
  return reply;
}

/* How many finalisers ran that weren't taken yet, and the last of them. All are taken. */
static inline size_t count_ran(camlheap_domain *domain, camlheap_reply *last) {
  size_t count = 0;
  while (camlheap_take_ran(domain, last) == CAMLHEAP_DONE) count++;
  return count;
}

/* The status of the test. */
static inline int ended(void) {
  puts(failures ? "FAILED" : "ok");
  return failures != 0;
}
#endif
