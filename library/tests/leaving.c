/* Threads that go away in the middle of their work: what a key's destructor does leaves each domain in its bed, and those who stay
 * turn it to its end. Ends with 0 where all others end, whatever a thread that went had handed in, and nothing is lost. */
#include "check.h"
#include <pthread.h>

enum { MOST = 6, ROUNDS = 12 };

typedef struct { camlheap_domain domain; camlheap_bed bed; int me, rounds; bool is_busy, is_closed; } seat;
static seat seats[MOST];
static pthread_key_t seat_of;
static atomic_int left, over;

/* What a thread does with its seat before it goes away, whichever way it goes. */
static void leave(void *of) {
  seat *at = of;
  uint32_t told;
  while ((told = camlheap_leave(&at->domain, &at->bed)) == CAMLHEAP_AGAIN) CAMLHEAP_PAUSE();
  CHECK(told == CAMLHEAP_DONE && !at->domain.full && !at->bed.full);
  left++;
}

static void make(seat *at, uint8_t op, uint8_t dst, uint16_t n) {
  camlheap_reply reply;
  camlheap_command command = {.op = op, .dst = dst, .n = n};
  CHECK(camlheap_perform_beside(&at->domain, &at->bed, &command, &reply) == CAMLHEAP_DONE);
}

static void work(seat *at) {
  for (int round = 0; round < at->rounds; round++) {
    make(at, CAMLHEAP_ALLOC, (uint8_t)(1 + round % 8), 3);
    if (round % 7 == at->me) make(at, round % 2 ? CAMLHEAP_MINOR : CAMLHEAP_FULL_MAJOR, 0, 0);
  }
}

/* One that goes away: from the middle of a command, closed, or between two. */
static void *go(void *of) {
  seat *at = of;
  pthread_setspecific(seat_of, at);
  work(at);
  if (at->is_busy) CHECK(camlheap_submit(&at->domain, &(camlheap_command){.op = CAMLHEAP_FULL_MAJOR}) == CAMLHEAP_DONE);
  if (at->is_closed) CHECK(camlheap_close(&at->domain) == CAMLHEAP_DONE);
  pthread_exit(NULL);
}

/* One that stays until all have ended. */
static void *stay(void *of) {
  seat *at = of;
  work(at);
  CHECK(camlheap_finish_beside(&at->domain, &at->bed) == CAMLHEAP_ENDED);
  over++;
  return NULL;
}

static void run(int stays) {
  pthread_t threads[MOST];
  camlheap_domain domains[MOST] = {{0}};
  left = over = 0;
  CHECK(camlheap_start(&(camlheap_config){MOST, 4096, 400, 4, 4}, domains, MOST) == CAMLHEAP_DONE);
  CHECK(camlheap_first_bed(&seats[0].bed) == CAMLHEAP_DONE);
  for (int i = 0; i < MOST; i++) {
    if (i) CHECK(camlheap_another_bed(&seats[0].bed, &seats[i].bed) == CAMLHEAP_DONE);
    camlheap_move(&seats[i].domain, &domains[i]);
    seats[i].me = i, seats[i].rounds = i < stays ? ROUNDS : ROUNDS / 4 * i, seats[i].is_busy = i % 3 == 1, seats[i].is_closed = i % 3 == 2;
  }
  for (int i = 0; i < MOST; i++) pthread_create(&threads[i], NULL, i < stays ? stay : go, &seats[i]);
  for (int i = 0; i < MOST; i++) pthread_join(threads[i], NULL);
  CHECK(over == stays && left == MOST - stays);
  for (int i = 0; i < stays; i++) CHECK(!seats[i].domain.full && camlheap_free_bed(&seats[i].bed) == CAMLHEAP_DONE);
}

/* Each call on what has left, or can't leave. */
static void refusals(void) {
  camlheap_domain domain = {0}, other = {0};
  camlheap_bed bed = {0}, second = {0};
  CHECK(camlheap_leave(&domain, &bed) == CAMLHEAP_NO_BED && camlheap_first_bed(&bed) == CAMLHEAP_DONE);
  CHECK(camlheap_leave(&domain, &bed) == CAMLHEAP_NO_DOMAIN && bed.full && camlheap_another_bed(&bed, &second) == CAMLHEAP_DONE);
  CHECK(camlheap_start(&(camlheap_config){1, 4096, 32, 1, 1}, &domain, 1) == CAMLHEAP_DONE);
  CHECK(camlheap_start(&(camlheap_config){1, 4096, 32, 1, 1}, &other, 1) == CAMLHEAP_DONE);
  CHECK(camlheap_rest(&domain, &bed) == CAMLHEAP_DONE && camlheap_leave(&other, &bed) == CAMLHEAP_BED_FULL && other.full && bed.full);
  CHECK(camlheap_turn(&other) == CAMLHEAP_HUNGRY && camlheap_leave(&other, &second) == CAMLHEAP_DONE && !other.full && !second.full);
  CHECK(camlheap_leave(&other, &second) == CAMLHEAP_NO_BED && camlheap_resume(&domain, &bed) == CAMLHEAP_DONE);
  for (int i = 0; i < 9; i++) camlheap_attend(&bed);
  CHECK(camlheap_attend(&bed) == CAMLHEAP_WAITING && camlheap_finish_beside(&domain, &bed) == CAMLHEAP_ENDED);
  CHECK(camlheap_start(&(camlheap_config){1, 4096, 32, 1, 1}, &domain, 1) == CAMLHEAP_DONE && camlheap_close(&domain) == CAMLHEAP_DONE);
  while (camlheap_turn(&domain) != CAMLHEAP_ENDED) {}
  CHECK(camlheap_leave(&domain, &bed) == CAMLHEAP_DONE && !bed.full);
}

int main(void) {
  CHECK(pthread_key_create(&seat_of, leave) == 0);
  refusals();
  for (int stays = 1; stays <= MOST; stays++) run(stays);
  return ended();
}
