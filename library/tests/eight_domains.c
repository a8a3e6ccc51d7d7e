/* Eight threads, a domain each. They count in one block by compare-and-set, hand blocks round through the shared block,
 * collect, lose weak keys and run finalisers, and end early, one after the other. Ends with 0 where all is as it should be. */
#include "check.h"
#include <pthread.h>

enum { THREADS = 8, ROUNDS = 400, COUNTER = 8 };

static camlheap_domain heap[THREADS];
static atomic_int counted;

static void go(camlheap_domain *domain, camlheap_command command) { done(domain, command); }

/* The first domain makes the counter, in a field of the shared block; each loads it into register 1. */
static void share(camlheap_domain *domain, int me) {
  if (me == 0) {
    go(domain, (camlheap_command){.op = CAMLHEAP_ALLOC, .dst = 1, .n = 1});
    go(domain, (camlheap_command){.op = CAMLHEAP_STORE, .a = 0, .n = COUNTER, .b = 1});
  }
  while (done(domain, (camlheap_command){.op = CAMLHEAP_LOAD, .dst = 1, .a = 0, .n = COUNTER}).kind != CAMLHEAP_BLOCK) CAMLHEAP_PAUSE();
}

static void count(camlheap_domain *domain) {
  for (bool won = false; !won;) {
    camlheap_reply read = done(domain, (camlheap_command){.op = CAMLHEAP_LOAD, .dst = 2, .a = 1, .n = 0});
    go(domain, (camlheap_command){.op = CAMLHEAP_PUT_INT, .dst = 3, .value = read.value + 1});
    won = done(domain, (camlheap_command){.op = CAMLHEAP_CAS, .a = 1, .n = 0, .dst = 2, .b = 3}).kind == CAMLHEAP_YES;
  }
}

/* A new block with the same number in both fields, in this domain's field of the shared block, at times with one before it. */
static void hand_out(camlheap_domain *domain, int me, int round) {
  go(domain, (camlheap_command){.op = round % 7 ? CAMLHEAP_ALLOC : CAMLHEAP_ALLOC_MAJOR, .dst = 4, .n = 3});
  go(domain, (camlheap_command){.op = CAMLHEAP_PUT_INT, .dst = 5, .value = me * ROUNDS * THREADS + round});
  for (uint16_t field = 0; field < 2; field++) go(domain, (camlheap_command){.op = CAMLHEAP_STORE, .a = 4, .n = field, .b = 5});
  if (round % 20) {
    go(domain, (camlheap_command){.op = CAMLHEAP_LOAD, .dst = 6, .a = 0, .n = (uint16_t)me});
    go(domain, (camlheap_command){.op = CAMLHEAP_STORE, .a = 4, .n = 2, .b = 6});
  }
  go(domain, (camlheap_command){.op = CAMLHEAP_STORE, .a = 0, .n = (uint16_t)me, .b = 4});
}

/* Another domain's blocks are whole, down to the last. */
static void look(camlheap_domain *domain, int other) {
  camlheap_reply at = done(domain, (camlheap_command){.op = CAMLHEAP_LOAD, .dst = 7, .a = 0, .n = (uint16_t)other});
  for (int count = 0; at.kind == CAMLHEAP_BLOCK && count < 30; count++) {
    int64_t first = done(domain, (camlheap_command){.op = CAMLHEAP_LOAD, .dst = 8, .a = 7, .n = 0}).value;
    CHECK(done(domain, (camlheap_command){.op = CAMLHEAP_LOAD, .dst = 8, .a = 7, .n = 1}).value == first && first / (ROUNDS * THREADS) == other);
    at = done(domain, (camlheap_command){.op = CAMLHEAP_LOAD, .dst = 7, .a = 7, .n = 2});
  }
}

/* A key whose block is dropped is gone after a complete collection, and its finaliser runs once: before the next command, or
 * before that of the collection already, where another domain made one first. */
static void lose(camlheap_domain *domain) {
  camlheap_reply ran = {0};
  go(domain, (camlheap_command){.op = CAMLHEAP_ALLOC, .dst = 9, .n = 1});
  go(domain, (camlheap_command){.op = CAMLHEAP_EPHE, .dst = 10, .n = 1});
  go(domain, (camlheap_command){.op = CAMLHEAP_SET_KEY, .a = 10, .n = 0, .b = 9});
  go(domain, (camlheap_command){.op = CAMLHEAP_FINALISE_LAST, .a = 9, .number = 5});
  go(domain, (camlheap_command){.op = CAMLHEAP_FORGET, .dst = 9});
  go(domain, (camlheap_command){.op = CAMLHEAP_FULL_MAJOR});
  size_t count = count_ran(domain, &ran);
  CHECK(done(domain, (camlheap_command){.op = CAMLHEAP_CHECK_KEY, .a = 10, .n = 0}).kind == CAMLHEAP_NO);
  count += count_ran(domain, &ran);
  CHECK(count == 1 && ran.kind == CAMLHEAP_LAST && ran.number == 5);
}

/* The first ends after an eighth of the rounds, and the last after all of them. Those who have ended go on turning. */
static void *drive(void *number) {
  int me = (int)(intptr_t)number, rounds = ROUNDS * (me + 1) / THREADS;
  camlheap_domain *domain = &heap[me];
  share(domain, me);
  for (int round = 0; round < rounds; round++) {
    count(domain);
    counted++;
    hand_out(domain, me, round);
    look(domain, (me + round) % THREADS);
    if (round % 100 == 50) lose(domain);
    if (round % 40 == 20) go(domain, (camlheap_command){.op = CAMLHEAP_MINOR});
    if (round % 80 == 60) go(domain, (camlheap_command){.op = CAMLHEAP_MAJOR});
  }
  if (me == THREADS - 1) {
    int all = 0;
    for (int i = 0; i < THREADS; i++) all += ROUNDS * (i + 1) / THREADS;
    while (counted < all) camlheap_turn(domain);
    CHECK(done(domain, (camlheap_command){.op = CAMLHEAP_LOAD, .dst = 2, .a = 1, .n = 0}).value == all);
  }
  CHECK(camlheap_finish(domain) == CAMLHEAP_ENDED);
  return NULL;
}

int main(void) {
  pthread_t threads[THREADS];
  CHECK(camlheap_start(&(camlheap_config){THREADS, 4096, 400, 8, 64}, heap, THREADS) == CAMLHEAP_DONE);
  for (int i = 0; i < THREADS; i++) pthread_create(&threads[i], NULL, drive, (void *)(intptr_t)i);
  for (int i = 0; i < THREADS; i++) pthread_join(threads[i], NULL);
  return ended();
}
