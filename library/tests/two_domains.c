/* Two threads, a domain each: they share a block and count in it by compare-and-set, collect, lose a weak key and run a
 * finaliser. Ends with 0 where all is as it should be. */
#include "check.h"
#include <pthread.h>

enum { ROUNDS = 2000 };

static camlheap_domain heap[2];
static atomic_int ready;

/* The first domain shares a block through the first field of the shared block; the second takes it from there. */
static void share(camlheap_domain *domain, int me) {
  if (me == 0) {
    done(domain, (camlheap_command){.op = CAMLHEAP_ALLOC, .dst = 1, .n = 2});
    done(domain, (camlheap_command){.op = CAMLHEAP_STORE, .a = 0, .n = 0, .b = 1});
    return;
  }
  while (done(domain, (camlheap_command){.op = CAMLHEAP_LOAD, .dst = 1, .a = 0, .n = 0}).kind != CAMLHEAP_BLOCK)
    CAMLHEAP_PAUSE();
}

/* Adds 1 to the field by compare-and-set, until it has won so often. */
static void count(camlheap_domain *domain) {
  for (int won = 0; won < ROUNDS;) {
    camlheap_reply read = done(domain, (camlheap_command){.op = CAMLHEAP_LOAD, .dst = 2, .a = 1, .n = 0});
    done(domain, (camlheap_command){.op = CAMLHEAP_PUT_INT, .dst = 3, .value = read.value + 1});
    if (done(domain, (camlheap_command){.op = CAMLHEAP_CAS, .a = 1, .n = 0, .dst = 2, .b = 3}).kind == CAMLHEAP_YES) won++;
    done(domain, (camlheap_command){.op = CAMLHEAP_ALLOC, .dst = 4, .n = 6});
    if (won % 500 == 250) done(domain, (camlheap_command){.op = CAMLHEAP_MINOR});
    if (won % 1000 == 999) CHECK(done(domain, (camlheap_command){.op = CAMLHEAP_FULL_MAJOR}).kind == CAMLHEAP_LIVE);
  }
}

/* A weak key whose block is dropped, with a finaliser. It runs before the next command, or before that of the collection
 * already, where the other domain made one first. */
static void lose(camlheap_domain *domain) {
  camlheap_reply ran;
  done(domain, (camlheap_command){.op = CAMLHEAP_ALLOC, .dst = 5, .n = 1});
  done(domain, (camlheap_command){.op = CAMLHEAP_EPHE, .dst = 6, .n = 1});
  done(domain, (camlheap_command){.op = CAMLHEAP_SET_KEY, .a = 6, .n = 0, .b = 5});
  done(domain, (camlheap_command){.op = CAMLHEAP_FINALISE_LAST, .a = 5, .number = 3});
  done(domain, (camlheap_command){.op = CAMLHEAP_FULL_MAJOR});
  CHECK(done(domain, (camlheap_command){.op = CAMLHEAP_CHECK_KEY, .a = 6, .n = 0}).kind == CAMLHEAP_YES);
  done(domain, (camlheap_command){.op = CAMLHEAP_FORGET, .dst = 5});
  done(domain, (camlheap_command){.op = CAMLHEAP_FULL_MAJOR});
  size_t count = count_ran(domain, &ran);
  CHECK(done(domain, (camlheap_command){.op = CAMLHEAP_CHECK_KEY, .a = 6, .n = 0}).kind == CAMLHEAP_NO);
  count += count_ran(domain, &ran);
  CHECK(count == 1 && ran.kind == CAMLHEAP_LAST && ran.number == 3);
}

static void *drive(void *number) {
  int me = (int)(intptr_t)number;
  camlheap_domain *domain = &heap[me];
  share(domain, me);
  count(domain);
  lose(domain);
  for (ready++; ready < 2;) camlheap_turn(domain);
  CHECK(done(domain, (camlheap_command){.op = CAMLHEAP_LOAD, .dst = 2, .a = 1, .n = 0}).value == 2 * ROUNDS);
  CHECK(camlheap_finish(domain) == CAMLHEAP_ENDED);
  return NULL;
}

int main(void) {
  pthread_t threads[2];
  CHECK(camlheap_start(&(camlheap_config){2, 4096, 256, 8, 64}, heap, 2) == CAMLHEAP_DONE);
  for (int i = 0; i < 2; i++) pthread_create(&threads[i], NULL, drive, (void *)(intptr_t)i);
  for (int i = 0; i < 2; i++) pthread_join(threads[i], NULL);
  return ended();
}
