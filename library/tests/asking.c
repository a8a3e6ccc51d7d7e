/* Asks of a block why it is still there. Ends with 0 where all is as it should be. */
#include "check.h"

static camlheap_domain heap;

static void go(camlheap_command command) { done(&heap, command); }

/* Asks, in turns, into how many blocks at most. */
static uint32_t why_within(uint32_t serial, uint32_t most, camlheap_way *way, uint16_t *fields, size_t room) {
  uint32_t told;
  while ((told = camlheap_why(&heap, 0, serial, most, way, fields, room)) == CAMLHEAP_AGAIN) camlheap_turn(&heap);
  return told;
}

/* What leads to the block of domain 0 with this serial. */
static uint32_t why(uint32_t serial, camlheap_way *way, uint16_t *fields, size_t room) {
  return why_within(serial, 100, way, fields, room);
}

static bool leads(uint32_t serial, uint32_t reg, size_t count, const uint16_t *wanted) {
  camlheap_way way;
  uint16_t fields[8] = {0};
  if (why(serial, &way, fields, 8) != CAMLHEAP_DONE || way.kind != CAMLHEAP_WAY || way.reg != reg || way.fields != count) return false;
  for (size_t i = 0; i < count; i++)
    if (fields[i] != wanted[i]) return false;
  return true;
}

static bool is_left_by(uint32_t serial, uint32_t kind) {
  camlheap_way way;
  uint16_t field = 77;
  return why(serial, &way, &field, 1) == CAMLHEAP_DONE && way.kind == kind && way.fields == 0 && field == 77;
}

/* Block 1 refers to block 2, which refers to block 3, and to itself. */
static void chain(void) {
  go((camlheap_command){.op = CAMLHEAP_ALLOC, .dst = 1, .n = 3});
  go((camlheap_command){.op = CAMLHEAP_ALLOC_MAJOR, .dst = 2, .n = 2});
  go((camlheap_command){.op = CAMLHEAP_ALLOC, .dst = 3, .n = 1});
  go((camlheap_command){.op = CAMLHEAP_STORE, .a = 1, .n = 2, .b = 2});
  go((camlheap_command){.op = CAMLHEAP_STORE, .a = 2, .n = 0, .b = 2});
  go((camlheap_command){.op = CAMLHEAP_STORE, .a = 2, .n = 1, .b = 3});
}

static void finds(void) {
  CHECK(leads(3, 3, 0, NULL));
  go((camlheap_command){.op = CAMLHEAP_FORGET, .dst = 2});
  go((camlheap_command){.op = CAMLHEAP_FORGET, .dst = 3});
  CHECK(leads(0, 0, 0, NULL) && leads(1, 1, 0, NULL) && leads(2, 1, 1, (uint16_t[]){2}) && leads(3, 1, 2, (uint16_t[]){2, 1}));
  CHECK(shown(&heap, 2).kind == CAMLHEAP_NONE && shown(&heap, 1).serial == 1);
  go((camlheap_command){.op = CAMLHEAP_FORGET, .dst = 14});
  go((camlheap_command){.op = CAMLHEAP_FORGET, .dst = 15});
  go((camlheap_command){.op = CAMLHEAP_FULL_MAJOR});
  CHECK(leads(3, 1, 2, (uint16_t[]){2, 1}));
}

/* Fields that don't fit aren't written, and a search that stops tells nothing. */
static void bounds(void) {
  camlheap_way way;
  uint16_t fields[2] = {77, 77};
  CHECK(why(3, &way, fields, 1) == CAMLHEAP_DONE && way.fields == 2 && fields[0] == 2 && fields[1] == 77);
  CHECK(why(3, &way, NULL, 0) == CAMLHEAP_DONE && way.kind == CAMLHEAP_WAY && way.fields == 2);
  way.kind = 99;
  CHECK(why_within(3, 2, &way, fields, 2) == CAMLHEAP_NO_MORE && way.kind == 99 && fields[1] == 77);
}

static void misses(void) {
  CHECK(is_left_by(4, CAMLHEAP_NOTHING) && is_left_by(UINT32_MAX, CAMLHEAP_NOTHING));
  go((camlheap_command){.op = CAMLHEAP_PUT_INT, .dst = 4, .value = 5});
  go((camlheap_command){.op = CAMLHEAP_STORE, .a = 1, .n = 2, .b = 4});
  CHECK(is_left_by(2, CAMLHEAP_NOTHING) && is_left_by(3, CAMLHEAP_NOTHING));
  go((camlheap_command){.op = CAMLHEAP_EPHE, .dst = 5, .n = 1});
  go((camlheap_command){.op = CAMLHEAP_SET_DATA, .a = 5, .b = 1});
  go((camlheap_command){.op = CAMLHEAP_FORGET, .dst = 1});
  CHECK(is_left_by(1, CAMLHEAP_NO_FIELD) && leads(4, 5, 0, NULL));
}

/* A finaliser that waits comes first. */
static void waits(void) {
  camlheap_way way;
  camlheap_reply reply;
  go((camlheap_command){.op = CAMLHEAP_ALLOC, .dst = 6, .n = 1});
  go((camlheap_command){.op = CAMLHEAP_FINALISE_LAST, .a = 6, .number = 1});
  go((camlheap_command){.op = CAMLHEAP_FORGET, .dst = 6});
  go((camlheap_command){.op = CAMLHEAP_FULL_MAJOR});
  CHECK(camlheap_why(&heap, 0, 5, 100, &way, NULL, 0) == CAMLHEAP_AGAIN);
  while (camlheap_ran(&heap, 0, &reply) == CAMLHEAP_NO_MORE) CHECK(camlheap_turn(&heap) == CAMLHEAP_AGAIN);
  CHECK(reply.kind == CAMLHEAP_LAST && reply.number == 1);
  CHECK(why(5, &way, NULL, 0) == CAMLHEAP_DONE && way.kind == CAMLHEAP_NO_FIELD);
  CHECK(camlheap_take_ran(&heap, &reply) == CAMLHEAP_DONE && reply.kind == CAMLHEAP_LAST && reply.number == 1);
  CHECK(camlheap_ran(&heap, 0, &reply) == CAMLHEAP_NO_MORE);
}

static void refusals(void) {
  camlheap_way way = {.kind = 99};
  camlheap_domain none = {0};
  CHECK(camlheap_why(&none, 0, 0, 100, &way, NULL, 0) == CAMLHEAP_NO_DOMAIN);
  CHECK(camlheap_submit(&heap, &(camlheap_command){.op = CAMLHEAP_POLL}) == CAMLHEAP_DONE);
  CHECK(why(0, &way, NULL, 0) == CAMLHEAP_BUSY);
  while (camlheap_turn(&heap) == CAMLHEAP_AGAIN) {}
  CHECK(camlheap_close(&heap) == CAMLHEAP_DONE);
  CHECK(why(0, &way, NULL, 0) == CAMLHEAP_CLOSED && way.kind == 99);
}

int main(void) {
  CHECK(camlheap_start(&(camlheap_config){1, 4096, 64, 8, 8}, &heap, 1) == CAMLHEAP_DONE);
  chain();
  finds();
  bounds();
  misses();
  waits();
  refusals();
  camlheap_finish(&heap);
  return ended();
}
