/* Each call with each wrong argument, in every state of a handle: empty, open, busy, stalled in a pause, closed, ended and
 * freed; and a million commands of random bytes, or as many as are named. Ends with 0 where every call answers what the header says and changes
 * nothing that it shouldn't. */
#include "check.h"
#include <stdlib.h>
#include <string.h>

static const camlheap_config SMALL = {1, 4096, 64, 2, 2};
static const camlheap_command POLL = {.op = CAMLHEAP_POLL};
static const camlheap_reply UNTOUCHED = {77, 77, 77, 77, -77, 77, 77};

static bool is_untouched(const camlheap_reply *reply) {
  return reply->kind == 77 && reply->domain == 77 && reply->serial == 77 && reply->number == 77 && reply->value == -77 && reply->blocks == 77 && reply->words == 77;
}

/* What a call answers, where it may not write its reply. */
static uint32_t called(camlheap_domain *domain, camlheap_command command) {
  camlheap_reply reply = UNTOUCHED;
  uint32_t told = camlheap_call(domain, &command, 64, &reply);
  CHECK(told == CAMLHEAP_DONE || is_untouched(&reply));
  return told;
}

/* Starts with one field wrong answer that field and fill nothing. */
static void starts(void) {
  static const struct { camlheap_config config; uint32_t told; } wrong[] = {
      {{0, 4096, 64, 2, 2}, CAMLHEAP_OUTSIDE + 1},           {{9, 4096, 2048, 2, 2}, CAMLHEAP_OUTSIDE + 1},
      {{1, 0, 64, 2, 2}, CAMLHEAP_OUTSIDE + 2},              {{1, 4095, 64, 2, 2}, CAMLHEAP_OUTSIDE + 2},
      {{1, 4097, 64, 2, 2}, CAMLHEAP_OUTSIDE + 2},           {{1, 69632, 2048, 2, 2}, CAMLHEAP_OUTSIDE + 2},
      {{1, UINT32_MAX, 64, 2, 2}, CAMLHEAP_OUTSIDE + 2},     {{1, 4096, 0, 2, 2}, CAMLHEAP_OUTSIDE + 3},
      {{1, 4096, 19, 2, 2}, CAMLHEAP_OUTSIDE + 3},           {{8, 65536, 272, 2, 2}, CAMLHEAP_OUTSIDE + 3},
      {{1, 4096, 2049, 2, 2}, CAMLHEAP_OUTSIDE + 3},         {{1, 4096, UINT32_MAX, 2, 2}, CAMLHEAP_OUTSIDE + 3},
      {{1, 4096, 64, 200001, 2}, CAMLHEAP_OUTSIDE + 4},      {{1, 4096, 64, UINT32_MAX, 2}, CAMLHEAP_OUTSIDE + 4},
      {{1, 4096, 64, 2, 200001}, CAMLHEAP_OUTSIDE + 5},      {{1, 4096, 64, 2, UINT32_MAX}, CAMLHEAP_OUTSIDE + 5},
      {{0, 0, 0, UINT32_MAX, UINT32_MAX}, CAMLHEAP_OUTSIDE + 1}, {{UINT32_MAX, 4096, 64, 2, 2}, CAMLHEAP_TOO_FEW_HANDLES},
      {{8, 4096, 512, 2, 2}, CAMLHEAP_TOO_FEW_HANDLES}};
  for (size_t i = 0; i < sizeof wrong / sizeof *wrong; i++) {
    camlheap_domain handles[9] = {{0}};
    size_t count = wrong[i].told == CAMLHEAP_TOO_FEW_HANDLES ? 7 : 9;
    CHECK(camlheap_start(&wrong[i].config, handles, count) == wrong[i].told);
    for (int at = 0; at < 9; at++) CHECK(camlheap_turn(&handles[at]) == CAMLHEAP_NO_DOMAIN);
  }
  camlheap_domain one = {0};
  CHECK(camlheap_start(&SMALL, &one, 0) == CAMLHEAP_TOO_FEW_HANDLES && camlheap_turn(&one) == CAMLHEAP_NO_DOMAIN);
}

/* The least heaps that there may be. */
static void least(void) {
  camlheap_domain handles[8] = {{0}};
  CHECK(camlheap_start(&(camlheap_config){1, 4096, 20, 0, 0}, handles, 8) == CAMLHEAP_DONE);
  CHECK(camlheap_turn(&handles[1]) == CAMLHEAP_NO_DOMAIN);
  CHECK(called(&handles[0], (camlheap_command){.op = CAMLHEAP_EPHE, .dst = 1, .n = 1}) == CAMLHEAP_NO_EPHEMERON);
  CHECK(called(&handles[0], (camlheap_command){.op = CAMLHEAP_FINALISE, .a = 0, .dst = 1}) == CAMLHEAP_NO_FINALISER);
  CHECK(camlheap_finish(&handles[0]) == CAMLHEAP_ENDED);
  CHECK(camlheap_start(&(camlheap_config){8, 4096, 153, 0, 0}, handles, 8) == CAMLHEAP_DONE);
  for (int i = 0; i < 8; i++) camlheap_free(&handles[i]);
}

/* The commands that no domain takes, with the code for one that is open. */
static const camlheap_command UNFIT[] = {
    {.op = CAMLHEAP_PUT_INT, .dst = 16}, {.op = CAMLHEAP_PUT_INT, .dst = 255}, {.op = CAMLHEAP_PUT_INT, .value = (int64_t)1 << 62},
    {.op = CAMLHEAP_PUT_INT, .value = -((int64_t)1 << 62) - 1}, {.op = CAMLHEAP_PUT_INT, .value = INT64_MAX}, {.op = CAMLHEAP_PUT_INT, .value = INT64_MIN},
    {.op = CAMLHEAP_COPY, .dst = 16}, {.op = CAMLHEAP_COPY, .a = 16}, {.op = CAMLHEAP_FORGET, .dst = 16},
    {.op = CAMLHEAP_ALLOC, .dst = 16, .n = 1}, {.op = CAMLHEAP_ALLOC}, {.op = CAMLHEAP_ALLOC, .n = 1023}, {.op = CAMLHEAP_ALLOC, .n = 65535},
    {.op = CAMLHEAP_ALLOC, .n = 1, .tag = 246}, {.op = CAMLHEAP_ALLOC, .n = 1, .tag = 255}, {.op = CAMLHEAP_ALLOC_MAJOR},
    {.op = CAMLHEAP_ALLOC_MAJOR, .n = 1023}, {.op = CAMLHEAP_ALLOC_MAJOR, .n = 1, .tag = 246}, {.op = CAMLHEAP_ALLOC_MAJOR, .n = 1, .dst = 16},
    {.op = CAMLHEAP_RAW, .n = 1, .tag = 250}, {.op = CAMLHEAP_RAW, .n = 1}, {.op = CAMLHEAP_RAW, .tag = 251}, {.op = CAMLHEAP_RAW, .n = 1023, .tag = 251},
    {.op = CAMLHEAP_RAW, .n = 1, .tag = 251, .dst = 16}, {.op = CAMLHEAP_LOAD, .dst = 16}, {.op = CAMLHEAP_LOAD, .a = 16},
    {.op = CAMLHEAP_STORE, .a = 16}, {.op = CAMLHEAP_STORE, .b = 16}, {.op = CAMLHEAP_CAS, .a = 16}, {.op = CAMLHEAP_CAS, .b = 16},
    {.op = CAMLHEAP_CAS, .dst = 16}, {.op = CAMLHEAP_EPHE}, {.op = CAMLHEAP_EPHE, .n = 9}, {.op = CAMLHEAP_EPHE, .n = 1, .dst = 16},
    {.op = CAMLHEAP_SET_KEY, .a = 16}, {.op = CAMLHEAP_SET_KEY, .b = 16}, {.op = CAMLHEAP_UNSET_KEY, .a = 16}, {.op = CAMLHEAP_GET_KEY, .dst = 16},
    {.op = CAMLHEAP_GET_KEY, .a = 16}, {.op = CAMLHEAP_CHECK_KEY, .a = 16}, {.op = CAMLHEAP_SET_DATA, .a = 16}, {.op = CAMLHEAP_SET_DATA, .b = 16},
    {.op = CAMLHEAP_UNSET_DATA, .a = 16}, {.op = CAMLHEAP_GET_DATA, .a = 16}, {.op = CAMLHEAP_GET_DATA, .dst = 16}, {.op = CAMLHEAP_CHECK_DATA, .a = 16},
    {.op = CAMLHEAP_FINALISE, .a = 16}, {.op = CAMLHEAP_FINALISE, .dst = 16}, {.op = CAMLHEAP_FINALISE_LAST, .a = 16}};
enum { UNFITS = sizeof UNFIT / sizeof *UNFIT };

/* Makes a command by the call of its own, where it has one, and else by the general call. */
static uint32_t own_call(camlheap_domain *domain, const camlheap_command *c, camlheap_reply *reply) {
  switch (c->op) {
    case CAMLHEAP_PUT_INT: return camlheap_put_int(domain, c->dst, c->value, reply);
    case CAMLHEAP_COPY: return camlheap_copy(domain, c->dst, c->a, reply);
    case CAMLHEAP_FORGET: return camlheap_forget(domain, c->dst, reply);
    case CAMLHEAP_ALLOC: return camlheap_alloc(domain, c->dst, c->tag, c->n, reply);
    case CAMLHEAP_LOAD: return camlheap_load(domain, c->dst, c->a, c->n, reply);
    case CAMLHEAP_STORE: return camlheap_store(domain, c->a, c->n, c->b, reply);
    case CAMLHEAP_CAS: return camlheap_cas(domain, c->a, c->n, c->dst, c->b, reply);
    case CAMLHEAP_SET_KEY: return camlheap_set_key(domain, c->a, c->n, c->b, reply);
    case CAMLHEAP_GET_KEY: return camlheap_get_key(domain, c->dst, c->a, c->n, reply);
    case CAMLHEAP_CHECK_KEY: return camlheap_check_key(domain, c->a, c->n, reply);
    case CAMLHEAP_SET_DATA: return camlheap_set_data(domain, c->a, c->b, reply);
    case CAMLHEAP_GET_DATA: return camlheap_get_data(domain, c->dst, c->a, reply);
    case CAMLHEAP_POLL: return camlheap_poll(domain, reply);
    default: return camlheap_call(domain, c, 0, reply);
  }
}

/* The calls on maps, of registers that they don't take. */
static void refuses_maps(camlheap_domain *domain, uint32_t told) {
  camlheap_reply reply = UNTOUCHED;
  for (int reg = 8; reg < 256; reg++) {
    uint8_t r = (uint8_t)reg;
    CHECK(camlheap_map_make(domain, r, &reply) == told && camlheap_map_get(domain, r, r, r, &reply) == told);
    CHECK(camlheap_map_take(domain, r, r, &reply) == told && camlheap_map_put(domain, r, r, r, &reply) == told);
    CHECK(camlheap_map_bind(domain, r, r, r, &reply) == told && is_untouched(&reply));
  }
}

/* Each of them is refused by all calls: with `told`, and one that is no command at all with UNFIT. */
static void refuses(camlheap_domain *domain, uint32_t told) {
  camlheap_reply reply = UNTOUCHED;
  for (int i = 0; i < UNFITS; i++) CHECK(camlheap_submit(domain, &UNFIT[i]) == told && called(domain, UNFIT[i]) == told);
  for (int i = 0; i < UNFITS; i++) CHECK(own_call(domain, &UNFIT[i], &reply) == told && is_untouched(&reply) && camlheap_wrong(&UNFIT[i]));
  for (uint8_t op = 0; told != CAMLHEAP_UNFIT && op < 24; op++)
    CHECK(own_call(domain, &(camlheap_command){.op = op, .n = 1, .tag = 251}, &reply) == told && is_untouched(&reply));
  camlheap_way way = {.kind = 77};
  uint16_t field = 77;
  if (told != CAMLHEAP_UNFIT) CHECK(camlheap_why(domain, UINT32_MAX, 0, UINT32_MAX, &way, &field, 1) == told && way.kind == 77 && field == 77);
  refuses_maps(domain, told == CAMLHEAP_UNFIT ? CAMLHEAP_NO_REGISTER : told);
  uint32_t unknown = told == CAMLHEAP_NO_DOMAIN ? told : CAMLHEAP_UNFIT;
  for (int op = 24; op < 256; op++) CHECK(camlheap_submit(domain, &(camlheap_command){.op = (uint8_t)op}) == unknown);
  for (int op = 24; op < 256; op++) CHECK(called(domain, (camlheap_command){.op = (uint8_t)op}) == unknown);
}

/* What a handle with no domain answers. */
static void empty(camlheap_domain *domain) {
  camlheap_reply reply = UNTOUCHED;
  camlheap_counts counts = {.labels = 77};
  CHECK(camlheap_submit(domain, &POLL) == CAMLHEAP_NO_DOMAIN && camlheap_turn(domain) == CAMLHEAP_NO_DOMAIN);
  CHECK(camlheap_run(domain, 9, &reply) == CAMLHEAP_NO_DOMAIN && camlheap_call(domain, &POLL, 9, &reply) == CAMLHEAP_NO_DOMAIN);
  CHECK(camlheap_answer(domain, &reply) == CAMLHEAP_NO_DOMAIN && camlheap_ran(domain, 0, &reply) == CAMLHEAP_NO_DOMAIN);
  CHECK(camlheap_take_ran(domain, &reply) == CAMLHEAP_NO_DOMAIN);
  CHECK(camlheap_show(domain, 0, &reply) == CAMLHEAP_NO_DOMAIN && camlheap_show(domain, 16, &reply) == CAMLHEAP_NO_DOMAIN);
  CHECK(camlheap_stats(domain, &counts) == CAMLHEAP_NO_DOMAIN && counts.labels == 77);
  CHECK(camlheap_close(domain) == CAMLHEAP_NO_DOMAIN && camlheap_finish(domain) == CAMLHEAP_NO_DOMAIN);
  CHECK(camlheap_perform(domain, &POLL, &reply) == CAMLHEAP_NO_DOMAIN && is_untouched(&reply));
  refuses(domain, CAMLHEAP_NO_DOMAIN);
  camlheap_free(domain);
  camlheap_free(domain);
}

/* What every handle with a domain answers, in whatever state. */
static void looks(camlheap_domain *domain) {
  camlheap_reply reply = UNTOUCHED;
  camlheap_counts counts = {.arrivals = UINT64_MAX};
  for (int reg = 16; reg < 256; reg++) CHECK(camlheap_show(domain, (uint8_t)reg, &reply) == CAMLHEAP_NO_REGISTER);
  CHECK(camlheap_ran(domain, SIZE_MAX, &reply) == CAMLHEAP_NO_MORE && camlheap_ran(domain, 100000, &reply) == CAMLHEAP_NO_MORE);
  CHECK(is_untouched(&reply));
  for (uint8_t reg = 0; reg < 16; reg++) CHECK(camlheap_show(domain, reg, &reply) == CAMLHEAP_DONE);
  CHECK(camlheap_stats(domain, &counts) == CAMLHEAP_DONE && counts.arrivals != UINT64_MAX);
}

static void opened(camlheap_domain *domain) {
  camlheap_reply reply = UNTOUCHED;
  CHECK(camlheap_answer(domain, &reply) == CAMLHEAP_AGAIN && camlheap_ran(domain, 0, &reply) == CAMLHEAP_NO_MORE);
  CHECK(camlheap_run(domain, 0, &reply) == CAMLHEAP_AGAIN && camlheap_run(domain, 9, &reply) == CAMLHEAP_HUNGRY);
  CHECK(camlheap_turn(domain) == CAMLHEAP_HUNGRY && is_untouched(&reply));
  refuses(domain, CAMLHEAP_UNFIT);
  looks(domain);
}

/* Fields and kinds that a command doesn't find are replies, and change nothing. */
static void misses(camlheap_domain *domain) {
  done(domain, (camlheap_command){.op = CAMLHEAP_PUT_INT, .dst = 2, .value = 5});
  for (uint8_t op = CAMLHEAP_LOAD; op <= CAMLHEAP_CHECK_DATA; op++)
    if (op != CAMLHEAP_EPHE) CHECK(done(domain, (camlheap_command){.op = op, .a = 2, .b = 2, .dst = 2}).kind == CAMLHEAP_BAD_TYPE);
  for (uint8_t op = CAMLHEAP_LOAD; op <= CAMLHEAP_CAS; op++)
    for (uint32_t n = 16; n <= 65535; n = n * 2 + 1)
      CHECK(done(domain, (camlheap_command){.op = op, .a = 0, .b = 2, .dst = 2, .n = (uint16_t)n}).kind == CAMLHEAP_BAD_INDEX);
  CHECK(done(domain, (camlheap_command){.op = CAMLHEAP_STORE, .a = 0, .b = 15}).kind == CAMLHEAP_BAD_TYPE);
  CHECK(done(domain, (camlheap_command){.op = CAMLHEAP_FINALISE, .a = 2, .dst = 3}).kind == CAMLHEAP_BAD_TYPE);
  CHECK(done(domain, (camlheap_command){.op = CAMLHEAP_FINALISE_LAST, .a = 15}).kind == CAMLHEAP_BAD_TYPE);
  CHECK(shown(domain, 2).value == 5 && shown(domain, 3).kind == CAMLHEAP_NONE);
}

static void busy(camlheap_domain *domain) {
  camlheap_reply reply = UNTOUCHED;
  CHECK(camlheap_submit(domain, &(camlheap_command){.op = CAMLHEAP_MINOR}) == CAMLHEAP_DONE);
  CHECK(camlheap_submit(domain, &POLL) == CAMLHEAP_BUSY && called(domain, POLL) == CAMLHEAP_BUSY);
  CHECK(camlheap_answer(domain, &reply) == CAMLHEAP_AGAIN && camlheap_close(domain) == CAMLHEAP_BUSY && camlheap_finish(domain) == CAMLHEAP_BUSY);
  CHECK(camlheap_run(domain, 0, &reply) == CAMLHEAP_AGAIN && is_untouched(&reply));
  refuses(domain, CAMLHEAP_BUSY);
  looks(domain);
  uint32_t told;
  while ((told = camlheap_run(domain, 1, &reply)) == CAMLHEAP_AGAIN) CHECK(is_untouched(&reply));
  CHECK(told == CAMLHEAP_DONE && reply.kind == CAMLHEAP_OK);
  CHECK(camlheap_answer(domain, &reply) == CAMLHEAP_DONE && reply.kind == CAMLHEAP_OK);
}

static void closed(camlheap_domain *domain) {
  camlheap_reply reply;
  CHECK(camlheap_close(domain) == CAMLHEAP_DONE && camlheap_close(domain) == CAMLHEAP_CLOSED);
  CHECK(camlheap_submit(domain, &POLL) == CAMLHEAP_CLOSED && called(domain, POLL) == CAMLHEAP_CLOSED);
  refuses(domain, CAMLHEAP_CLOSED);
  looks(domain);
  CHECK(camlheap_run(domain, 9, &reply) == CAMLHEAP_DONE && reply.kind == CAMLHEAP_OK);
  while (camlheap_turn(domain) == CAMLHEAP_AGAIN) {}
  for (int i = 0; i < 3; i++) CHECK(camlheap_turn(domain) == CAMLHEAP_ENDED);
  CHECK(camlheap_submit(domain, &POLL) == CAMLHEAP_CLOSED && called(domain, POLL) == CAMLHEAP_CLOSED && camlheap_close(domain) == CAMLHEAP_CLOSED);
  refuses(domain, CAMLHEAP_CLOSED);
  looks(domain);
  for (uint8_t reg = 0; reg < 16; reg++) CHECK(shown(domain, reg).kind == CAMLHEAP_NONE);
}

/* One domain of two waits for the other, in whose absence the pause can't begin. */
static void stalled(void) {
  camlheap_domain two[2] = {{0}};
  camlheap_reply reply = UNTOUCHED;
  camlheap_command minor = {.op = CAMLHEAP_MINOR};
  CHECK(camlheap_start(&(camlheap_config){2, 4096, 128, 1, 1}, two, 2) == CAMLHEAP_DONE);
  CHECK(camlheap_call(&two[0], &minor, 1000, &reply) == CAMLHEAP_WAITING);
  for (int i = 0; i < 100; i++) CHECK(camlheap_turn(&two[0]) == CAMLHEAP_WAITING && camlheap_run(&two[0], 9, &reply) == CAMLHEAP_WAITING);
  CHECK(camlheap_close(&two[0]) == CAMLHEAP_BUSY && is_untouched(&reply));
  refuses(&two[0], CAMLHEAP_BUSY);
  looks(&two[0]);
  looks(&two[1]);
  CHECK(camlheap_close(&two[1]) == CAMLHEAP_DONE);
  uint32_t told;
  while ((told = camlheap_run(&two[0], 1, &reply)) != CAMLHEAP_DONE && told < CAMLHEAP_NO_DOMAIN) camlheap_turn(&two[1]);
  CHECK(told == CAMLHEAP_DONE && reply.kind == CAMLHEAP_OK);
  CHECK(camlheap_turn(&two[1]) != CAMLHEAP_ENDED && camlheap_close(&two[0]) == CAMLHEAP_DONE);
  for (int ended = 0; ended < 2;) {
    ended = 0;
    for (int i = 0; i < 2; i++) ended += camlheap_turn(&two[i]) == CAMLHEAP_ENDED;
  }
  for (int i = 0; i < 2; i++) camlheap_free(&two[i]);
}

/* A handle takes one heap after another once it is empty, in whatever state the one before was; a full one is left as it is. */
static void started_over(void) {
  camlheap_domain domain = {0}, two[2] = {{0}};
  for (int i = 0; i < 3; i++) {
    CHECK(camlheap_start(&SMALL, &domain, 1) == CAMLHEAP_DONE);
    CHECK(done(&domain, (camlheap_command){.op = CAMLHEAP_ALLOC, .dst = 1, .n = 1}).serial == 1);
    CHECK(camlheap_start(&SMALL, &domain, 1) == CAMLHEAP_HAS_DOMAIN && shown(&domain, 1).serial == 1);
    camlheap_move(&domain, &domain);
    camlheap_move(&two[1], &domain);
    CHECK(camlheap_start(&(camlheap_config){2, 4096, 64, 2, 2}, two, 2) == CAMLHEAP_HAS_DOMAIN && !two[0].full && shown(&two[1], 1).serial == 1);
    CHECK(camlheap_start(&(camlheap_config){2, 4096, 0, 2, 2}, two, 2) == CAMLHEAP_HAS_DOMAIN && camlheap_start(&SMALL, two, 1) == CAMLHEAP_DONE);
    camlheap_move(&domain, &two[1]);
    CHECK(camlheap_submit(&domain, &POLL) == CAMLHEAP_DONE);
    camlheap_free(&domain), camlheap_free(&two[0]);
  }
  camlheap_free(&domain);
  empty(&domain);
}

static uint64_t seed = 88172645463325252u;
static uint64_t drawn(void) {
  seed ^= seed << 13, seed ^= seed >> 7, seed ^= seed << 17;
  return seed;
}

/* A command of random bytes, or every other time one with small fields. */
static camlheap_command random_command(int i) {
  uint64_t bits[4] = {drawn(), drawn(), drawn(), drawn()};
  camlheap_command command;
  memcpy(&command, bits, sizeof command);
  if (i & 1)
    command = (camlheap_command){.op = bits[0] % 24, .dst = bits[1] % 16, .a = bits[1] >> 8 & 15, .b = bits[1] >> 16 & 15, .tag = bits[1] >> 24, .n = bits[2] % 9, .number = bits[3], .value = bits[3] >> 60};
  return command;
}

/* So many commands by chance on two heaps, which answer the same: one makes them by the general call, and the other by calls
 * of their own. Each answers a number of the header. */
static void random_commands(int count) {
  camlheap_domain general = {0}, own = {0};
  camlheap_config config = {1, 4096, 32, 50, 50};
  CHECK(camlheap_start(&config, &general, 1) == CAMLHEAP_DONE && camlheap_start(&config, &own, 1) == CAMLHEAP_DONE);
  for (int i = 0; i < count; i++) {
    camlheap_command command = random_command(i);
    camlheap_reply replies[2] = {{0}, {0}};
    uint32_t told = camlheap_call(&general, &command, 64, &replies[0]), by_own = own_call(&own, &command, &replies[1]);
    while (told == CAMLHEAP_AGAIN) told = camlheap_run(&general, 64, &replies[0]);
    while (by_own == CAMLHEAP_AGAIN) by_own = camlheap_run(&own, 64, &replies[1]);
    CHECK(told == CAMLHEAP_DONE ? replies[0].kind <= CAMLHEAP_LAST : told >= CAMLHEAP_UNFIT && told <= CAMLHEAP_NO_FINALISER);
    CHECK((told == CAMLHEAP_UNFIT) == (camlheap_wrong(&command) != NULL));
    CHECK(told == by_own && memcmp(&replies[0], &replies[1], sizeof replies[0]) == 0);
  }
  CHECK(camlheap_finish(&general) == CAMLHEAP_ENDED && camlheap_finish(&own) == CAMLHEAP_ENDED);
}

int main(int words, char **word) {
  camlheap_domain domain = {0};
  starts();
  least();
  empty(&domain);
  CHECK(camlheap_start(&SMALL, &domain, 1) == CAMLHEAP_DONE);
  opened(&domain);
  misses(&domain);
  busy(&domain);
  closed(&domain);
  camlheap_free(&domain);
  empty(&domain);
  stalled();
  started_over();
  random_commands(words > 1 ? atoi(word[1]) : 1000000);
  return ended();
}
