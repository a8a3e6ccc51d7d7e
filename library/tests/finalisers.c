/* Finalisers that ran are kept until they are taken, whatever is called between: commands at once and handed in, turns, weak maps,
 * the way to a block, a rest in a bed, and the end of the trace. Ends with 0 where each is told once, in order. */
#include "check.h"

enum { COUNT = 40 };

static camlheap_domain heap;

static void go(uint8_t op, uint8_t dst, uint8_t a) { done(&heap, (camlheap_command){.op = op, .dst = dst, .a = a, .n = 1}); }

/* A block dies whose finaliser has this number, and a collection finds it. */
static void dies(uint32_t number) {
  go(CAMLHEAP_ALLOC, 6, 0);
  done(&heap, (camlheap_command){.op = CAMLHEAP_FINALISE_LAST, .a = 6, .number = number});
  go(CAMLHEAP_FORGET, 6, 0);
  go(CAMLHEAP_FULL_MAJOR, 0, 0);
}

static void turn(void) {
  while (camlheap_turn(&heap) == CAMLHEAP_AGAIN) {}
}

/* One call of each kind, which may have a finaliser run before it, or put off until it has. */
static void calls(uint32_t kind, camlheap_bed *bed) {
  camlheap_reply reply;
  camlheap_way way;
  camlheap_counts counts;
  uint16_t fields[4];
  switch (kind % 10) {
    case 0: while (camlheap_map_get(&heap, 4, 1, 2, &reply) == CAMLHEAP_AGAIN) turn(); break;
    case 1: CHECK(camlheap_map_bind(&heap, 1, 2, 3, &reply) == CAMLHEAP_DONE); break;
    case 2: while (camlheap_map_take(&heap, 1, 2, &reply) == CAMLHEAP_AGAIN) turn(); break;
    case 3: while (camlheap_why(&heap, 0, 1, 100, &way, fields, 4) == CAMLHEAP_AGAIN) turn(); break;
    case 4: turn(); break;
    case 5: CHECK(camlheap_submit(&heap, &(camlheap_command){.op = CAMLHEAP_POLL}) == CAMLHEAP_DONE); turn(); break;
    case 6: CHECK(camlheap_rest(&heap, bed) == CAMLHEAP_DONE && camlheap_attend(bed) <= CAMLHEAP_WAITING && camlheap_come_back(&heap, bed) == CAMLHEAP_DONE); break;
    case 7: go(CAMLHEAP_MINOR, 0, 0); break;
    case 8: CHECK(camlheap_map_count(&heap, 1, &reply) == CAMLHEAP_DONE && camlheap_map_sweep(&heap, 1, &reply) == CAMLHEAP_DONE); break;
    default: CHECK(camlheap_stats(&heap, &counts) == CAMLHEAP_DONE && camlheap_put_int(&heap, 7, 1, &reply) < CAMLHEAP_NO_DOMAIN); turn();
  }
}

/* What was told so far is 0, 1, 2 .. */
static uint32_t takes(uint32_t from) {
  camlheap_reply look, reply;
  turn();
  while (camlheap_ran(&heap, 0, &look) == CAMLHEAP_DONE) {
    CHECK(camlheap_take_ran(&heap, &reply) == CAMLHEAP_DONE && reply.kind == CAMLHEAP_LAST && reply.number == from && look.number == from);
    from++;
  }
  CHECK(camlheap_take_ran(&heap, &reply) == CAMLHEAP_NO_MORE);
  return from;
}

int main(void) {
  camlheap_bed bed = {0};
  camlheap_reply reply;
  uint32_t told = 0;
  CHECK(camlheap_start(&(camlheap_config){1, 4096, 64, COUNT, 64}, &heap, 1) == CAMLHEAP_DONE && camlheap_first_bed(&bed) == CAMLHEAP_DONE);
  CHECK(camlheap_map_make(&heap, 1, &reply) == CAMLHEAP_DONE);
  go(CAMLHEAP_ALLOC, 2, 0);
  go(CAMLHEAP_PUT_INT, 3, 0);
  /* none is taken between, and all room is used up; then each is taken at once */
  for (uint32_t number = 0; number < COUNT; number++) dies(number), calls(number, &bed), calls(number * 7 + 3, &bed);
  go(CAMLHEAP_ALLOC, 6, 0);
  CHECK(camlheap_call(&heap, &(camlheap_command){.op = CAMLHEAP_FINALISE_LAST, .a = 6}, 64, &reply) == CAMLHEAP_NO_FINALISER);
  CHECK(camlheap_ran(&heap, COUNT - 1, &reply) == CAMLHEAP_DONE && reply.number == COUNT - 1 && camlheap_ran(&heap, COUNT, &reply) == CAMLHEAP_NO_MORE);
  CHECK((told = takes(0)) == COUNT);
  for (uint32_t number = COUNT; number < 2 * COUNT; number++) {
    dies(number), calls(number, &bed);
    if (number % 3 == 0) told = takes(told);
  }
  /* the last ones run as the trace ends, and are taken behind it */
  dies(2 * COUNT);
  CHECK(camlheap_close(&heap) == CAMLHEAP_DONE);
  while (camlheap_turn(&heap) != CAMLHEAP_ENDED) {}
  CHECK(takes(told) == 2 * COUNT + 1);
  camlheap_free(&heap);
  CHECK(camlheap_take_ran(&heap, &reply) == CAMLHEAP_NO_DOMAIN && camlheap_free_bed(&bed) == CAMLHEAP_DONE);
  return ended();
}
