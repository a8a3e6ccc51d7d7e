/* A weak map with few keys that live and many that have lived: it never fills up. A million new keys, or as many as are named,
 * come one after the other, of which the last ten thousand live, in a heap whose list has room for twice as many ephemerons. Ends
 * with 0 where each is bound, those that live are found, and a sweep and a clean leave what they should. */
#include "check.h"
#include <stdlib.h>

enum { WINDOW = 10000, ROW = 1000, MAP = 1, KEY = 2, DATUM = 3, FOUND = 4, KEPT = 5, PART = 6 };

static camlheap_domain heap;

static camlheap_reply go(uint8_t op, uint8_t dst, uint8_t a, uint8_t b, uint16_t n) {
  return done(&heap, (camlheap_command){.op = op, .dst = dst, .a = a, .b = b, .n = n});
}

/* The block that holds the keys whose numbers are these, into PART. */
static uint16_t place(long number) {
  go(CAMLHEAP_LOAD, PART, KEPT, 0, (uint16_t)(number % WINDOW / ROW));
  return (uint16_t)(number % ROW);
}

static void begin(void) {
  camlheap_reply reply;
  CHECK(camlheap_map_make(&heap, MAP, &reply) == CAMLHEAP_DONE);
  go(CAMLHEAP_ALLOC, KEPT, 0, 0, WINDOW / ROW);
  for (uint16_t at = 0; at < WINDOW / ROW; at++) {
    go(CAMLHEAP_ALLOC, PART, 0, 0, ROW);
    go(CAMLHEAP_STORE, 0, KEPT, PART, at);
  }
}

/* Makes a new key with its number as datum, in place of the oldest. */
static void bind(long number) {
  camlheap_reply reply = {.kind = 99};
  go(CAMLHEAP_ALLOC, KEY, 0, 0, 1);
  done(&heap, (camlheap_command){.op = CAMLHEAP_PUT_INT, .dst = DATUM, .value = number});
  uint32_t told = camlheap_map_bind(&heap, MAP, KEY, DATUM, &reply);
  CHECK(told == CAMLHEAP_DONE && reply.kind == CAMLHEAP_OK);
  uint16_t index = place(number);
  go(CAMLHEAP_STORE, 0, PART, KEY, index);
}

/* The key with a number is bound to it. */
static void find(long number) {
  camlheap_reply reply = {.kind = 99};
  uint32_t told;
  uint16_t index = place(number);
  go(CAMLHEAP_LOAD, KEY, PART, 0, index);
  while ((told = camlheap_map_get(&heap, FOUND, MAP, KEY, &reply)) == CAMLHEAP_AGAIN) camlheap_turn(&heap);
  CHECK(told == CAMLHEAP_DONE && reply.kind == CAMLHEAP_INT && reply.value == number);
}

static void end(long keys) {
  camlheap_reply reply;
  for (uint8_t reg = 2; reg < 5; reg++) go(CAMLHEAP_FORGET, reg, 0, 0, 0);
  go(CAMLHEAP_FULL_MAJOR, 0, 0, 0, 0);
  int64_t live = keys < WINDOW ? keys : WINDOW;
  CHECK(camlheap_map_count(&heap, MAP, &reply) == CAMLHEAP_DONE && reply.kind == CAMLHEAP_INT && reply.value == live);
  CHECK(camlheap_map_sweep(&heap, MAP, &reply) == CAMLHEAP_DONE && reply.kind == CAMLHEAP_INT && reply.value >= 0);
  CHECK(camlheap_map_sweep(&heap, MAP, &reply) == CAMLHEAP_DONE && reply.value == 0);
  CHECK(camlheap_map_clean(&heap, MAP, &reply) == CAMLHEAP_DONE && reply.kind == CAMLHEAP_NO);
  CHECK(camlheap_map_count(&heap, MAP, &reply) == CAMLHEAP_DONE && reply.value == live);
  for (long number = keys - live; number < keys; number += 97) find(number);
  for (uint8_t reg = 2; reg < 7; reg++) go(CAMLHEAP_FORGET, reg, 0, 0, 0);
  go(CAMLHEAP_FULL_MAJOR, 0, 0, 0, 0);
  CHECK(camlheap_map_clean(&heap, MAP, &reply) == CAMLHEAP_DONE && reply.kind == CAMLHEAP_YES);
  CHECK(camlheap_map_count(&heap, MAP, &reply) == CAMLHEAP_DONE && reply.value == 0);
  for (uint8_t reg = 8; reg < 16; reg++) CHECK(shown(&heap, reg).kind == CAMLHEAP_NONE);
  CHECK(camlheap_map_sweep(&heap, 7, &reply) == CAMLHEAP_DONE && reply.kind == CAMLHEAP_BAD_TYPE);
  CHECK(camlheap_map_sweep(&heap, 0, &reply) == CAMLHEAP_DONE && reply.kind == CAMLHEAP_BAD_TYPE);
  CHECK(camlheap_map_count(&heap, 8, &reply) == CAMLHEAP_NO_REGISTER && camlheap_map_clean(&heap, 255, &reply) == CAMLHEAP_NO_REGISTER);
  CHECK(camlheap_finish(&heap) == CAMLHEAP_ENDED);
  CHECK(camlheap_map_sweep(&heap, 1, &reply) == CAMLHEAP_NO_DOMAIN);
}

int main(int count, char **words) {
  long keys = count > 1 ? atol(words[1]) : 1000000;
  CHECK(camlheap_start(&(camlheap_config){1, 65536, 512, 8, 2 * WINDOW}, &heap, 1) == CAMLHEAP_DONE);
  begin();
  for (long number = 0; number < keys; number++) {
    bind(number);
    if (number % 1009 == 1008) find(number - (number < WINDOW ? number : WINDOW - 1));
  }
  end(keys);
  return ended();
}
