/* Threads that put their domains to rest: two and eight, which count in a shared block, rest while the others collect, come
 * back and end; finalisers that run meanwhile; and hostile calls in every state. Ends with 0 where all is as it should be. */
#include "check.h"
#include <pthread.h>

enum { MOST = 8, ROUNDS = 60 };

typedef struct { camlheap_domain domain; camlheap_bed bed; int me, threads; } seat;
static seat seats[MOST];
static atomic_int counted;

static camlheap_reply make(seat *at, camlheap_command command) {
  camlheap_reply reply = {.kind = 99};
  CHECK(camlheap_perform_beside(&at->domain, &at->bed, &command, &reply) == CAMLHEAP_DONE);
  return reply;
}

static void rest(seat *at) {
  uint32_t told;
  while ((told = camlheap_rest(&at->domain, &at->bed)) == CAMLHEAP_AGAIN) CAMLHEAP_PAUSE();
  CHECK(told == CAMLHEAP_DONE && !at->domain.full);
}

static void come_back(seat *at) { CHECK(camlheap_come_back(&at->domain, &at->bed) == CAMLHEAP_DONE && at->domain.full); }

static void count(seat *at) {
  for (bool won = false; !won;) {
    camlheap_reply read = make(at, (camlheap_command){.op = CAMLHEAP_LOAD, .dst = 2, .a = 0, .n = 0});
    make(at, (camlheap_command){.op = CAMLHEAP_PUT_INT, .dst = 3, .value = read.kind == CAMLHEAP_INT ? read.value + 1 : 1});
    won = make(at, (camlheap_command){.op = CAMLHEAP_CAS, .a = 0, .n = 0, .dst = 2, .b = 3}).kind == CAMLHEAP_YES;
  }
}

/* Each rests between its rounds; in turn one collects while the others may rest. What a register held is there afterwards. */
static void *drive(void *of) {
  seat *at = of;
  come_back(at);
  camlheap_reply kept = make(at, (camlheap_command){.op = CAMLHEAP_ALLOC, .dst = 1, .n = 2});
  for (int round = 0; round < ROUNDS; round++) {
    count(at);
    if (round % at->threads == at->me) make(at, (camlheap_command){.op = round % 3 ? CAMLHEAP_MINOR : CAMLHEAP_FULL_MAJOR});
    rest(at);
    CAMLHEAP_PAUSE();
    come_back(at);
    camlheap_reply now = shown(&at->domain, 1);
    CHECK(now.kind == CAMLHEAP_BLOCK && now.serial == kept.serial && now.domain == kept.domain);
  }
  counted++;
  /* The last to come counts; the others rest meanwhile. */
  if (at->me == 0) {
    while (counted < at->threads) camlheap_turn(&at->domain), camlheap_attend(&at->bed);
    CHECK(make(at, (camlheap_command){.op = CAMLHEAP_LOAD, .dst = 2, .a = 0, .n = 0}).value == at->threads * ROUNDS);
  }
  rest(at);
  return NULL;
}

/* One thread ends all domains of a heap. */
static void end_all(int threads) {
  for (int i = 0; i < threads; i++) {
    come_back(&seats[i]);
    CHECK(camlheap_close(&seats[i].domain) == CAMLHEAP_DONE);
    CHECK(camlheap_rest(&seats[i].domain, &seats[i].bed) == CAMLHEAP_CLOSED);
  }
  for (int ended = 0; ended < threads;) {
    ended = 0;
    for (int i = 0; i < threads; i++) ended += camlheap_turn(&seats[i].domain) == CAMLHEAP_ENDED;
  }
  for (int i = 0; i < threads; i++) camlheap_free(&seats[i].domain), camlheap_free_bed(&seats[i].bed);
}

static void start(int threads) {
  camlheap_domain domains[MOST] = {0};
  CHECK(camlheap_start(&(camlheap_config){(uint32_t)threads, 4096, 400, 8, 8}, domains, (size_t)threads) == CAMLHEAP_DONE);
  CHECK(camlheap_first_bed(&seats[0].bed) == CAMLHEAP_DONE);
  for (int i = 0; i < threads; i++) {
    if (i) CHECK(camlheap_another_bed(&seats[0].bed, &seats[i].bed) == CAMLHEAP_DONE);
    seats[i].domain = domains[i], seats[i].me = i, seats[i].threads = threads;
    rest(&seats[i]);
  }
}

static void several(int threads) {
  pthread_t all[MOST];
  counted = 0;
  start(threads);
  for (int i = 0; i < threads; i++) pthread_create(&all[i], NULL, drive, &seats[i]);
  for (int i = 0; i < threads; i++) pthread_join(all[i], NULL);
  end_all(threads);
}

/* While a domain rests its finaliser runs, and is told once it is back. */
static void finalised(void) {
  camlheap_reply ran;
  start(2);
  come_back(&seats[0]), come_back(&seats[1]);
  make(&seats[1], (camlheap_command){.op = CAMLHEAP_POLL});
  rest(&seats[1]);
  make(&seats[0], (camlheap_command){.op = CAMLHEAP_ALLOC, .dst = 1, .n = 1});
  make(&seats[0], (camlheap_command){.op = CAMLHEAP_FINALISE_LAST, .a = 1, .number = 9});
  make(&seats[0], (camlheap_command){.op = CAMLHEAP_FORGET, .dst = 1});
  rest(&seats[0]);
  come_back(&seats[1]);
  make(&seats[1], (camlheap_command){.op = CAMLHEAP_FULL_MAJOR});
  /* It is answered in the middle of the pause, which ends in later turns of both. */
  for (int i = 0; i < 8; i++) camlheap_turn(&seats[1].domain), camlheap_attend(&seats[1].bed);
  come_back(&seats[0]);
  CHECK(camlheap_take_ran(&seats[0].domain, &ran) == CAMLHEAP_DONE && ran.kind == CAMLHEAP_LAST && ran.number == 9);
  rest(&seats[0]), rest(&seats[1]);
  end_all(2);
}

/* Each call where what it wants isn't there, and in a room that is full. */
static void hostile(void) {
  camlheap_bed beds[65] = {{0}}, none = {0};
  camlheap_domain domain = {0}, other[1] = {{0}};
  camlheap_reply reply;
  CHECK(camlheap_rest(&domain, &none) == CAMLHEAP_NO_BED && camlheap_resume(&domain, &none) == CAMLHEAP_NO_BED);
  CHECK(camlheap_attend(&none) == CAMLHEAP_NO_BED && camlheap_another_bed(&none, &beds[1]) == CAMLHEAP_NO_BED && !beds[1].full);
  camlheap_free_bed(&none);
  CHECK(camlheap_first_bed(beds) == CAMLHEAP_DONE);
  for (int i = 1; i < 64; i++) CHECK(camlheap_another_bed(beds, beds + i) == CAMLHEAP_DONE);
  CHECK(camlheap_another_bed(beds, beds + 64) == CAMLHEAP_NO_MORE && !beds[64].full);
  CHECK(camlheap_another_bed(beds + 1, beds + 64) == CAMLHEAP_UNFIT && !beds[64].full);
  CHECK(camlheap_another_bed(beds + 1, beds) == CAMLHEAP_UNFIT && beds[0].full);
  CHECK(camlheap_another_bed(beds, beds) == CAMLHEAP_UNFIT && beds[0].full && camlheap_another_bed(&none, &none) == CAMLHEAP_NO_BED);
  CHECK(camlheap_rest(&domain, beds) == CAMLHEAP_NO_DOMAIN && camlheap_resume(&domain, beds) == CAMLHEAP_BED_EMPTY);
  CHECK(camlheap_attend(beds) == CAMLHEAP_WAITING);
  CHECK(camlheap_start(&(camlheap_config){1, 4096, 64, 1, 1}, &domain, 1) == CAMLHEAP_DONE);
  CHECK(camlheap_start(&(camlheap_config){1, 4096, 64, 1, 1}, other, 1) == CAMLHEAP_DONE);
  CHECK(camlheap_resume(&domain, beds) == CAMLHEAP_HAS_DOMAIN && camlheap_resume(&domain, &none) == CAMLHEAP_HAS_DOMAIN);
  CHECK(camlheap_submit(&domain, &(camlheap_command){.op = CAMLHEAP_POLL}) == CAMLHEAP_DONE);
  CHECK(camlheap_rest(&domain, beds) == CAMLHEAP_BUSY && domain.full);
  CHECK(camlheap_run(&domain, 64, &reply) == CAMLHEAP_DONE);
  CHECK(camlheap_rest(&domain, beds) == CAMLHEAP_DONE && !domain.full && camlheap_turn(&domain) == CAMLHEAP_NO_DOMAIN);
  CHECK(camlheap_rest(other, beds) == CAMLHEAP_BED_FULL && other[0].full && camlheap_rest(&domain, beds) == CAMLHEAP_NO_DOMAIN);
  CHECK(camlheap_resume(&domain, beds + 1) == CAMLHEAP_BED_EMPTY && camlheap_resume(other, beds) == CAMLHEAP_HAS_DOMAIN);
  /* A domain of another heap rests in the same room. */
  CHECK(camlheap_rest(other, beds + 63) == CAMLHEAP_DONE);
  for (int i = 0; i < 200; i++) CHECK(camlheap_attend(beds + 5) < CAMLHEAP_HUNGRY);
  CHECK(camlheap_come_back(&domain, beds) == CAMLHEAP_DONE && camlheap_come_back(other, beds + 63) == CAMLHEAP_DONE);
  CHECK(camlheap_finish(&domain) == CAMLHEAP_ENDED);
  /* A bed is freed in which a domain rests. */
  CHECK(camlheap_rest(other, beds + 63) == CAMLHEAP_DONE);
  for (int i = 0; i < 65; i++) camlheap_free_bed(beds + i), camlheap_free_bed(beds + i);
  CHECK(!beds[0].full && camlheap_resume(other, beds) == CAMLHEAP_NO_BED);
}

int main(void) {
  hostile();
  finalised();
  several(2);
  several(MOST);
  return ended();
}
