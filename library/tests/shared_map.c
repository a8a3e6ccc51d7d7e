/* Two threads bind keys in one weak map, of which many meet. Each then finds its own, and takes every other one out. Ends with 0
 * where all is as it should be. */
#include "check.h"
#include <pthread.h>

enum { KEYS = 3000 };

static camlheap_domain handles[2];

typedef struct { camlheap_domain *domain; int64_t number; } seat;

/* The first makes the map, and hands it over in field 1 of the shared block. */
static void share(const seat *it) {
  camlheap_reply reply = {.kind = 99};
  if (it->number == 0) {
    while (camlheap_map_make(it->domain, 1, &reply) == CAMLHEAP_AGAIN) {
      camlheap_turn(it->domain);
      CAMLHEAP_PAUSE();
    }
    CHECK(reply.kind == CAMLHEAP_BLOCK);
    done(it->domain, (camlheap_command){.op = CAMLHEAP_STORE, .a = 0, .n = 1, .b = 1});
  }
  while (done(it->domain, (camlheap_command){.op = CAMLHEAP_LOAD, .dst = 1, .a = 0, .n = 1}).kind != CAMLHEAP_BLOCK) CAMLHEAP_PAUSE();
}

/* Register 2 begins a list of the keys: field 0 is the next, and field 1 what the key is bound to. */
static void bind_keys(const seat *it) {
  done(it->domain, (camlheap_command){.op = CAMLHEAP_PUT_INT, .dst = 2, .value = -1});
  for (int64_t at = 0; at < KEYS; at++) {
    camlheap_reply reply = {.kind = 99};
    done(it->domain, (camlheap_command){.op = CAMLHEAP_ALLOC, .dst = 3, .n = 2});
    done(it->domain, (camlheap_command){.op = CAMLHEAP_STORE, .a = 3, .n = 0, .b = 2});
    done(it->domain, (camlheap_command){.op = CAMLHEAP_COPY, .dst = 2, .a = 3});
    done(it->domain, (camlheap_command){.op = CAMLHEAP_PUT_INT, .dst = 4, .value = at * 2 + it->number});
    done(it->domain, (camlheap_command){.op = CAMLHEAP_STORE, .a = 2, .n = 1, .b = 4});
    CHECK(camlheap_map_bind(it->domain, 1, 2, 4, &reply) == CAMLHEAP_DONE && reply.kind == CAMLHEAP_OK);
  }
}

static camlheap_reply get(const seat *it) {
  camlheap_reply reply = {.kind = 99};
  while (camlheap_map_get(it->domain, 4, 1, 2, &reply) == CAMLHEAP_AGAIN)
    if (camlheap_turn(it->domain) == CAMLHEAP_WAITING) CAMLHEAP_PAUSE();
  return reply;
}

static camlheap_reply take(const seat *it) {
  camlheap_reply reply = {.kind = 99};
  while (camlheap_map_take(it->domain, 1, 2, &reply) == CAMLHEAP_AGAIN)
    if (camlheap_turn(it->domain) == CAMLHEAP_WAITING) CAMLHEAP_PAUSE();
  return reply;
}

static void look(const seat *it) {
  int64_t at = KEYS - 1;
  for (; shown(it->domain, 2).kind == CAMLHEAP_BLOCK; at--) {
    CHECK(get(it).value == at * 2 + it->number);
    if (at % 2) CHECK(take(it).kind == CAMLHEAP_OK && get(it).kind == CAMLHEAP_NONE);
    done(it->domain, (camlheap_command){.op = CAMLHEAP_LOAD, .dst = 2, .a = 2, .n = 0});
  }
  CHECK(at == -1);
}

static void *work(void *given) {
  const seat *it = given;
  share(it);
  bind_keys(it);
  look(it);
  CHECK(camlheap_finish(it->domain) == CAMLHEAP_ENDED);
  return NULL;
}

int main(void) {
  CHECK(camlheap_start(&(camlheap_config){2, 4096, 1024, 8, 20000}, handles, 2) == CAMLHEAP_DONE);
  seat seats[2] = {{&handles[0], 0}, {&handles[1], 1}};
  pthread_t threads[2];
  for (int at = 0; at < 2; at++) CHECK(pthread_create(&threads[at], NULL, work, &seats[at]) == 0);
  for (int at = 0; at < 2; at++) CHECK(pthread_join(threads[at], NULL) == 0);
  return ended();
}
