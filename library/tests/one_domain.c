/* One domain goes through every command, each refusal and each call. Ends with 0 where all is as it should be. */
#include "check.h"

static camlheap_domain heap;

static camlheap_reply go(camlheap_command command) { return done(&heap, command); }

static bool is_block(camlheap_reply reply, uint32_t serial) {
  return reply.kind == CAMLHEAP_BLOCK && reply.domain == 0 && reply.serial == serial;
}

static void blocks_and_fields(void) {
  CHECK(is_block(go((camlheap_command){.op = CAMLHEAP_ALLOC, .dst = 1, .n = 2}), 1));
  CHECK(is_block(go((camlheap_command){.op = CAMLHEAP_ALLOC_MAJOR, .dst = 2, .tag = 3, .n = 1}), 2));
  CHECK(is_block(go((camlheap_command){.op = CAMLHEAP_RAW, .dst = 3, .tag = 252, .n = 1}), 3));
  CHECK(go((camlheap_command){.op = CAMLHEAP_PUT_INT, .dst = 4, .value = -5}).kind == CAMLHEAP_OK);
  CHECK(go((camlheap_command){.op = CAMLHEAP_STORE, .a = 1, .n = 0, .b = 4}).kind == CAMLHEAP_OK);
  camlheap_reply read = go((camlheap_command){.op = CAMLHEAP_LOAD, .dst = 5, .a = 1, .n = 0});
  CHECK(read.kind == CAMLHEAP_INT && read.value == -5);
  CHECK(go((camlheap_command){.op = CAMLHEAP_CAS, .dst = 4, .a = 1, .n = 0, .b = 2}).kind == CAMLHEAP_YES);
  CHECK(go((camlheap_command){.op = CAMLHEAP_CAS, .dst = 4, .a = 1, .n = 0, .b = 2}).kind == CAMLHEAP_NO);
  CHECK(is_block(go((camlheap_command){.op = CAMLHEAP_LOAD, .dst = 5, .a = 1, .n = 0}), 2));
  CHECK(go((camlheap_command){.op = CAMLHEAP_COPY, .dst = 6, .a = 5}).kind == CAMLHEAP_OK);
  CHECK(is_block(shown(&heap, 6), 2));
  CHECK(go((camlheap_command){.op = CAMLHEAP_FORGET, .dst = 6}).kind == CAMLHEAP_OK);
  CHECK(shown(&heap, 6).kind == CAMLHEAP_NONE);
  CHECK(go((camlheap_command){.op = CAMLHEAP_LOAD, .dst = 5, .a = 4, .n = 0}).kind == CAMLHEAP_BAD_TYPE);
  CHECK(go((camlheap_command){.op = CAMLHEAP_LOAD, .dst = 5, .a = 1, .n = 2}).kind == CAMLHEAP_BAD_INDEX);
}

static void ephemerons(void) {
  CHECK(is_block(go((camlheap_command){.op = CAMLHEAP_EPHE, .dst = 7, .n = 2}), 4));
  CHECK(go((camlheap_command){.op = CAMLHEAP_SET_KEY, .a = 7, .n = 0, .b = 1}).kind == CAMLHEAP_OK);
  CHECK(go((camlheap_command){.op = CAMLHEAP_SET_KEY, .a = 7, .n = 1, .b = 3}).kind == CAMLHEAP_OK);
  CHECK(go((camlheap_command){.op = CAMLHEAP_SET_DATA, .a = 7, .b = 4}).kind == CAMLHEAP_OK);
  CHECK(is_block(go((camlheap_command){.op = CAMLHEAP_GET_KEY, .dst = 8, .a = 7, .n = 0}), 1));
  CHECK(go((camlheap_command){.op = CAMLHEAP_GET_DATA, .dst = 9, .a = 7}).value == -5);
  CHECK(go((camlheap_command){.op = CAMLHEAP_CHECK_DATA, .a = 7}).kind == CAMLHEAP_YES);
  CHECK(go((camlheap_command){.op = CAMLHEAP_FORGET, .dst = 3}).kind == CAMLHEAP_OK);
  CHECK(go((camlheap_command){.op = CAMLHEAP_FULL_MAJOR}).kind == CAMLHEAP_LIVE);
  CHECK(go((camlheap_command){.op = CAMLHEAP_CHECK_KEY, .a = 7, .n = 1}).kind == CAMLHEAP_NO);
  CHECK(go((camlheap_command){.op = CAMLHEAP_CHECK_DATA, .a = 7}).kind == CAMLHEAP_NO);
  CHECK(go((camlheap_command){.op = CAMLHEAP_UNSET_KEY, .a = 7, .n = 0}).kind == CAMLHEAP_OK);
  CHECK(go((camlheap_command){.op = CAMLHEAP_UNSET_DATA, .a = 7}).kind == CAMLHEAP_OK);
}

static void finalisers(void) {
  camlheap_reply ran;
  go((camlheap_command){.op = CAMLHEAP_ALLOC, .dst = 10, .n = 1});
  CHECK(go((camlheap_command){.op = CAMLHEAP_FINALISE, .a = 10, .number = 7, .dst = 11}).kind == CAMLHEAP_OK);
  CHECK(go((camlheap_command){.op = CAMLHEAP_FINALISE_LAST, .a = 10, .number = 8}).kind == CAMLHEAP_OK);
  go((camlheap_command){.op = CAMLHEAP_FORGET, .dst = 10});
  go((camlheap_command){.op = CAMLHEAP_FULL_MAJOR});
  go((camlheap_command){.op = CAMLHEAP_POLL});
  CHECK(count_ran(&heap, &ran) == 1 && ran.kind == CAMLHEAP_FIN && ran.number == 7 && ran.serial == 5);
  CHECK(is_block(shown(&heap, 11), 5));
  go((camlheap_command){.op = CAMLHEAP_FORGET, .dst = 11});
  go((camlheap_command){.op = CAMLHEAP_FULL_MAJOR});
  go((camlheap_command){.op = CAMLHEAP_POLL});
  CHECK(count_ran(&heap, &ran) == 1 && ran.kind == CAMLHEAP_LAST && ran.number == 8);
  CHECK(camlheap_ran(&heap, 0, &ran) == CAMLHEAP_NO_MORE && camlheap_take_ran(&heap, &ran) == CAMLHEAP_NO_MORE);
}

static void collections(void) {
  CHECK(go((camlheap_command){.op = CAMLHEAP_MINOR}).kind == CAMLHEAP_OK);
  CHECK(go((camlheap_command){.op = CAMLHEAP_MAJOR}).kind == CAMLHEAP_OK);
  CHECK(go((camlheap_command){.op = CAMLHEAP_POLL}).kind == CAMLHEAP_OK);
}

static void refusals(void) {
  camlheap_reply reply;
  camlheap_domain none = {0};
  CHECK(camlheap_turn(&none) == CAMLHEAP_NO_DOMAIN && camlheap_close(&none) == CAMLHEAP_NO_DOMAIN);
  CHECK(camlheap_call(&none, &(camlheap_command){.op = CAMLHEAP_POLL}, 9, &reply) == CAMLHEAP_NO_DOMAIN);
  CHECK(camlheap_answer(&none, &reply) == CAMLHEAP_NO_DOMAIN && camlheap_show(&none, 0, &reply) == CAMLHEAP_NO_DOMAIN);
  CHECK(camlheap_ran(&none, 0, &reply) == CAMLHEAP_NO_DOMAIN);
  CHECK(camlheap_show(&heap, 16, &reply) == CAMLHEAP_NO_REGISTER);
  CHECK(camlheap_submit(&heap, &(camlheap_command){.op = 24}) == CAMLHEAP_UNFIT);
  CHECK(camlheap_submit(&heap, &(camlheap_command){.op = CAMLHEAP_ALLOC, .dst = 16, .n = 1}) == CAMLHEAP_UNFIT);
  CHECK(camlheap_submit(&heap, &(camlheap_command){.op = CAMLHEAP_ALLOC, .dst = 1, .n = 0}) == CAMLHEAP_UNFIT);
  CHECK(camlheap_submit(&heap, &(camlheap_command){.op = CAMLHEAP_EPHE, .dst = 1, .n = 1}) == CAMLHEAP_DONE);
  CHECK(camlheap_submit(&heap, &(camlheap_command){.op = CAMLHEAP_POLL}) == CAMLHEAP_BUSY);
  CHECK(camlheap_close(&heap) == CAMLHEAP_BUSY && camlheap_answer(&heap, &reply) == CAMLHEAP_AGAIN);
  uint32_t told;
  while ((told = camlheap_run(&heap, 1, &reply)) == CAMLHEAP_AGAIN) {}
  CHECK(told == CAMLHEAP_DONE && reply.kind == CAMLHEAP_BLOCK);
  CHECK(camlheap_turn(&heap) == CAMLHEAP_HUNGRY);
  CHECK(camlheap_submit(&heap, &(camlheap_command){.op = CAMLHEAP_EPHE, .dst = 2, .n = 1}) == CAMLHEAP_NO_EPHEMERON);
  go((camlheap_command){.op = CAMLHEAP_FINALISE_LAST, .a = 1, .number = 1});
  go((camlheap_command){.op = CAMLHEAP_FINALISE_LAST, .a = 1, .number = 2});
  CHECK(camlheap_submit(&heap, &(camlheap_command){.op = CAMLHEAP_FINALISE_LAST, .a = 1}) == CAMLHEAP_NO_FINALISER);
}

int main(void) {
  CHECK(camlheap_version() == CAMLHEAP_VERSION);
  CHECK(camlheap_start(&(camlheap_config){2, 4096, 64, 2, 2}, &heap, 1) == CAMLHEAP_TOO_FEW_HANDLES);
  CHECK(camlheap_start(&(camlheap_config){1, 4095, 64, 2, 2}, &heap, 1) == CAMLHEAP_OUTSIDE + 2);
  CHECK(camlheap_start(&(camlheap_config){1, 4096, 3, 2, 2}, &heap, 1) == CAMLHEAP_OUTSIDE + 3);
  CHECK(camlheap_start(&(camlheap_config){1, 4096, 64, 2, 2}, &heap, 1) == CAMLHEAP_DONE);
  blocks_and_fields();
  ephemerons();
  finalisers();
  collections();
  refusals();
  CHECK(camlheap_finish(&heap) == CAMLHEAP_ENDED);
  CHECK(camlheap_turn(&heap) == CAMLHEAP_NO_DOMAIN);
  return ended();
}
