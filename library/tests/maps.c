/* Weak maps. Ends with 0 where all is as it should be. */
#include "check.h"

static camlheap_domain heap;

static void go(camlheap_command command) { done(&heap, command); }

/* Asks for a binding, in turns. */
static camlheap_reply get(uint8_t dst, uint8_t map, uint8_t key) {
  camlheap_reply reply = {.kind = 99};
  uint32_t told;
  while ((told = camlheap_map_get(&heap, dst, map, key, &reply)) == CAMLHEAP_AGAIN) camlheap_turn(&heap);
  CHECK(told == CAMLHEAP_DONE);
  return reply;
}

/* Takes a binding out, in turns. */
static camlheap_reply take(uint8_t map, uint8_t key) {
  camlheap_reply reply = {.kind = 99};
  uint32_t told;
  while ((told = camlheap_map_take(&heap, map, key, &reply)) == CAMLHEAP_AGAIN) camlheap_turn(&heap);
  CHECK(told == CAMLHEAP_DONE);
  return reply;
}

/* Puts a binding, until it is answered. */
static camlheap_reply put(uint8_t map, uint8_t key, uint8_t item) {
  camlheap_reply reply = {.kind = 99};
  CHECK(camlheap_map_bind(&heap, map, key, item, &reply) == CAMLHEAP_DONE);
  return reply;
}

/* How often a put is asked until it is done, with a turn behind each. */
static int asked(uint8_t map, uint8_t key, uint8_t item) {
  camlheap_reply reply = {.kind = 99};
  for (int count = 1; count < 100; count++) {
    uint32_t told = camlheap_map_put(&heap, map, key, item, &reply);
    if (told == CAMLHEAP_DONE) return reply.kind == CAMLHEAP_OK ? count : -1;
    CHECK(told == CAMLHEAP_AGAIN && reply.kind == 99);
    camlheap_turn(&heap);
  }
  return 0;
}

static void put_int(uint8_t dst, int64_t value) { go((camlheap_command){.op = CAMLHEAP_PUT_INT, .dst = dst, .value = value}); }

/* Binds the block in register 2 to what register 3 holds, in the empty map in register 1, by commands: a leaf in the field of
 * the root that the key's number chooses. */
static void bind(uint32_t serial) {
  go((camlheap_command){.op = CAMLHEAP_EPHE, .dst = 5, .n = 1});
  go((camlheap_command){.op = CAMLHEAP_SET_DATA, .a = 5, .b = 3});
  go((camlheap_command){.op = CAMLHEAP_SET_KEY, .a = 5, .n = 0, .b = 2});
  go((camlheap_command){.op = CAMLHEAP_STORE, .a = 1, .n = (uint16_t)(serial % 512), .b = 5});
  go((camlheap_command){.op = CAMLHEAP_FORGET, .dst = 5});
}

static uint32_t make_key(void) {
  go((camlheap_command){.op = CAMLHEAP_ALLOC, .dst = 2, .n = 1});
  return shown(&heap, 2).serial;
}

static void makes(void) {
  camlheap_reply reply = {.kind = 99};
  CHECK(camlheap_map_make(&heap, 1, &reply) == CAMLHEAP_DONE && reply.kind == CAMLHEAP_BLOCK);
  CHECK(shown(&heap, 1).kind == CAMLHEAP_BLOCK && shown(&heap, 1).serial == reply.serial);
}

static void finds(void) {
  uint32_t serial = make_key();
  go((camlheap_command){.op = CAMLHEAP_PUT_INT, .dst = 3, .value = 42});
  CHECK(get(4, 1, 2).kind == CAMLHEAP_NONE && shown(&heap, 4).kind == CAMLHEAP_NONE);
  bind(serial);
  CHECK(get(4, 1, 2).value == 42 && shown(&heap, 4).kind == CAMLHEAP_INT && shown(&heap, 4).value == 42);
  for (uint8_t reg = 8; reg < 12; reg++) CHECK(shown(&heap, reg).kind == CAMLHEAP_NONE);
  go((camlheap_command){.op = CAMLHEAP_FULL_MAJOR});
  CHECK(get(2, 1, 2).value == 42 && shown(&heap, 2).kind == CAMLHEAP_INT);
  CHECK(get(4, 1, 2).kind == CAMLHEAP_BAD_TYPE && take(1, 2).kind == CAMLHEAP_BAD_TYPE && shown(&heap, 4).value == 42);
}

static void takes(void) {
  bind(make_key());
  CHECK(get(4, 1, 2).value == 42);
  CHECK(take(1, 2).kind == CAMLHEAP_OK && take(1, 2).kind == CAMLHEAP_NONE && get(4, 1, 2).kind == CAMLHEAP_NONE);
}

/* A put binds, and binds anew. */
static void puts_and_gets(void) {
  make_key();
  put_int(3, 7);
  CHECK(put(1, 2, 3).kind == CAMLHEAP_OK && get(4, 1, 2).value == 7);
  put_int(3, 8);
  CHECK(put(1, 2, 3).kind == CAMLHEAP_OK && get(4, 1, 2).value == 8 && shown(&heap, 3).value == 8);
  for (uint8_t reg = 8; reg < 12; reg++) CHECK(shown(&heap, reg).kind == CAMLHEAP_NONE);
  go((camlheap_command){.op = CAMLHEAP_FULL_MAJOR});
  CHECK(get(4, 1, 2).value == 8 && take(1, 2).kind == CAMLHEAP_OK && get(4, 1, 2).kind == CAMLHEAP_NONE);
  go((camlheap_command){.op = CAMLHEAP_FORGET, .dst = 4});
  CHECK(put(1, 3, 2).kind == CAMLHEAP_BAD_TYPE && put(1, 4, 2).kind == CAMLHEAP_BAD_TYPE && put(1, 2, 4).kind == CAMLHEAP_BAD_TYPE);
  CHECK(get(4, 1, 2).kind == CAMLHEAP_NONE);
}

/* A binding goes with its key: then nothing leads to the datum. */
static void dies(void) {
  camlheap_reply last = {.kind = 99};
  make_key();
  go((camlheap_command){.op = CAMLHEAP_ALLOC, .dst = 3, .n = 2});
  uint32_t datum = shown(&heap, 3).serial;
  go((camlheap_command){.op = CAMLHEAP_FINALISE_LAST, .a = 3, .number = 7});
  CHECK(put(1, 2, 3).kind == CAMLHEAP_OK);
  go((camlheap_command){.op = CAMLHEAP_FORGET, .dst = 3});
  go((camlheap_command){.op = CAMLHEAP_FULL_MAJOR});
  go((camlheap_command){.op = CAMLHEAP_POLL});
  CHECK(count_ran(&heap, &last) == 0 && get(4, 1, 2).serial == datum);
  go((camlheap_command){.op = CAMLHEAP_FORGET, .dst = 4});
  go((camlheap_command){.op = CAMLHEAP_FORGET, .dst = 2});
  go((camlheap_command){.op = CAMLHEAP_FULL_MAJOR});
  go((camlheap_command){.op = CAMLHEAP_POLL});
  CHECK(count_ran(&heap, &last) == 1 && last.kind == CAMLHEAP_LAST && last.number == 7);
}

/* Makes blocks until the next one has this number. */
static void skip_to(uint32_t serial) {
  while (make_key() + 1 < serial) {}
}

/* Keys that meet: 512 apart in the root, and 16384 apart one level deeper still. Each level is made by a put of its own. */
static void meets(void) {
  uint32_t first = make_key();
  go((camlheap_command){.op = CAMLHEAP_COPY, .dst = 5, .a = 2});
  skip_to(first + 512);
  CHECK(make_key() == first + 512);
  go((camlheap_command){.op = CAMLHEAP_COPY, .dst = 6, .a = 2});
  skip_to(first + 16384);
  CHECK(make_key() == first + 16384);
  go((camlheap_command){.op = CAMLHEAP_FULL_MAJOR});
  put_int(3, 1);
  CHECK(asked(1, 5, 3) == 1);
  put_int(3, 2);
  CHECK(asked(1, 6, 3) == 2);
  CHECK(get(4, 1, 5).value == 1 && get(4, 1, 6).value == 2 && get(4, 1, 2).kind == CAMLHEAP_NONE);
  put_int(3, 3);
  CHECK(asked(1, 2, 3) == 2);
  CHECK(get(4, 1, 5).value == 1 && get(4, 1, 6).value == 2 && get(4, 1, 2).value == 3);
  CHECK(take(1, 6).kind == CAMLHEAP_OK && get(4, 1, 6).kind == CAMLHEAP_NONE && get(4, 1, 5).value == 1 && get(4, 1, 2).value == 3);
}

/* Fills the minor area with blocks. */
static void fill(void) {
  camlheap_counts counts;
  while (camlheap_stats(&heap, &counts) == CAMLHEAP_DONE && counts.young_words + 1 < 4096) {
    uint32_t left = 4095 - counts.young_words;
    go((camlheap_command){.op = CAMLHEAP_ALLOC, .dst = 7, .n = (uint16_t)(left < 1022 ? left : 1022)});
  }
}

/* Where the minor area is full a put goes on behind a collection, and so it does where the list of ephemerons is. */
static void lacks(void) {
  camlheap_reply reply = {.kind = 99};
  camlheap_counts counts;
  uint32_t told, first = make_key();
  go((camlheap_command){.op = CAMLHEAP_COPY, .dst = 5, .a = 2});
  skip_to(first + 512);
  make_key();
  put_int(3, 4);
  CHECK(put(1, 5, 3).kind == CAMLHEAP_OK);
  go((camlheap_command){.op = CAMLHEAP_FULL_MAJOR});
  fill();
  for (int count = 0; count < 4; count++) {
    CHECK(camlheap_map_put(&heap, 1, 2, 3, &reply) == CAMLHEAP_AGAIN);
    CHECK(camlheap_turn(&heap) == CAMLHEAP_HUNGRY && reply.kind == 99);
  }
  CHECK(put(1, 2, 3).kind == CAMLHEAP_OK && get(4, 1, 2).value == 4 && get(4, 1, 5).value == 4);
  do {
    reply.kind = 99;
    while ((told = camlheap_map_put(&heap, 1, 2, 3, &reply)) == CAMLHEAP_AGAIN) camlheap_turn(&heap);
  } while (told == CAMLHEAP_DONE);
  CHECK(told == CAMLHEAP_NO_EPHEMERON && reply.kind == 99);
  CHECK(camlheap_stats(&heap, &counts) == CAMLHEAP_DONE && counts.ephemerons == 64);
  for (int64_t value = 0; value < 50; value++) {
    put_int(3, value);
    CHECK(put(1, 2, 3).kind == CAMLHEAP_OK && get(4, 1, 2).value == value);
  }
}

/* A finaliser that waits comes first. */
static void waits(void) {
  camlheap_reply reply = {.kind = 99};
  go((camlheap_command){.op = CAMLHEAP_ALLOC, .dst = 6, .n = 1});
  go((camlheap_command){.op = CAMLHEAP_FINALISE_LAST, .a = 6, .number = 1});
  go((camlheap_command){.op = CAMLHEAP_FORGET, .dst = 6});
  go((camlheap_command){.op = CAMLHEAP_FULL_MAJOR});
  CHECK(camlheap_map_get(&heap, 4, 1, 2, &reply) == CAMLHEAP_AGAIN && camlheap_map_take(&heap, 1, 2, &reply) == CAMLHEAP_AGAIN);
  CHECK(camlheap_map_put(&heap, 1, 2, 3, &reply) == CAMLHEAP_AGAIN && camlheap_map_make(&heap, 7, &reply) == CAMLHEAP_AGAIN && reply.kind == 99);
  CHECK(get(4, 1, 2).value == 49 && take(1, 2).kind == CAMLHEAP_OK);
}

static void refusals(void) {
  camlheap_reply reply = {.kind = 99};
  camlheap_domain none = {0};
  CHECK(camlheap_map_make(&none, 1, &reply) == CAMLHEAP_NO_DOMAIN && camlheap_map_get(&none, 4, 1, 2, &reply) == CAMLHEAP_NO_DOMAIN);
  CHECK(camlheap_map_take(&none, 1, 2, &reply) == CAMLHEAP_NO_DOMAIN && camlheap_map_put(&none, 1, 2, 3, &reply) == CAMLHEAP_NO_DOMAIN);
  for (int reg = 8; reg < 256; reg++) {
    uint8_t r = (uint8_t)reg;
    CHECK(camlheap_map_make(&heap, r, &reply) == CAMLHEAP_NO_REGISTER && camlheap_map_get(&heap, r, 1, 2, &reply) == CAMLHEAP_NO_REGISTER);
    CHECK(camlheap_map_get(&heap, 4, r, 2, &reply) == CAMLHEAP_NO_REGISTER && camlheap_map_get(&heap, 4, 1, r, &reply) == CAMLHEAP_NO_REGISTER);
    CHECK(camlheap_map_put(&heap, r, 2, 3, &reply) == CAMLHEAP_NO_REGISTER && camlheap_map_put(&heap, 1, r, 3, &reply) == CAMLHEAP_NO_REGISTER);
    CHECK(camlheap_map_put(&heap, 1, 2, r, &reply) == CAMLHEAP_NO_REGISTER);
    CHECK(camlheap_map_take(&heap, r, 2, &reply) == CAMLHEAP_NO_REGISTER && camlheap_map_take(&heap, 1, r, &reply) == CAMLHEAP_NO_REGISTER);
  }
  CHECK(camlheap_submit(&heap, &(camlheap_command){.op = CAMLHEAP_POLL}) == CAMLHEAP_DONE);
  CHECK(camlheap_map_make(&heap, 1, &reply) == CAMLHEAP_BUSY && camlheap_map_get(&heap, 4, 1, 2, &reply) == CAMLHEAP_BUSY);
  CHECK(camlheap_map_put(&heap, 1, 2, 3, &reply) == CAMLHEAP_BUSY && camlheap_map_bind(&heap, 1, 2, 3, &reply) == CAMLHEAP_BUSY);
  while (camlheap_turn(&heap) == CAMLHEAP_AGAIN) {}
  CHECK(camlheap_close(&heap) == CAMLHEAP_DONE);
  CHECK(camlheap_map_take(&heap, 1, 2, &reply) == CAMLHEAP_CLOSED && reply.kind == 99);
  CHECK(camlheap_map_put(&heap, 1, 2, 3, &reply) == CAMLHEAP_CLOSED && camlheap_map_bind(&heap, 1, 2, 3, &reply) == CAMLHEAP_CLOSED && reply.kind == 99);
}

int main(void) {
  CHECK(camlheap_start(&(camlheap_config){1, 4096, 64, 8, 64}, &heap, 1) == CAMLHEAP_DONE);
  makes();
  finds();
  takes();
  puts_and_gets();
  dies();
  meets();
  lacks();
  waits();
  refusals();
  camlheap_finish(&heap);
  return ended();
}
