/* Makes COUNT calls of one kind on a heap of one domain: `calls KIND COUNT`. With the kind `nothing` they are calls of a function
 * that does nothing. Ends with 1 where one of them isn't made at once. */
#include "camlheap.h"
#include <stdio.h>
#include <stdlib.h>
#include <string.h>

static camlheap_domain heap;
static camlheap_reply reply;

__attribute__((noinline)) static uint32_t nothing(camlheap_domain *domain, uint8_t a, uint8_t b, uint16_t n, camlheap_reply *to) {
  __asm__ volatile("" : : "r"(domain), "r"(a), "r"(b), "r"(n), "r"(to));
  return 0;
}

static void need(uint32_t told) {
  if (camlheap_await(&heap, told, &reply) == CAMLHEAP_DONE && reply.kind <= CAMLHEAP_BLOCK) return;
  fprintf(stderr, "a call answered %u, and replied %u\n", told, reply.kind);
  exit(1);
}

/* Registers: 1 holds an integer, 2 a young block with that in field 0 and a block in field 1, 3 an ephemeron, 5 its key, and 4 a weak map
 * that binds this and 1,000 others, which register 7 keeps. */
static void prepare(void) {
  camlheap_command ephe = {.op = CAMLHEAP_EPHE, .dst = 3, .n = 2}, minor = {.op = CAMLHEAP_MINOR};
  need(camlheap_put_int(&heap, 1, 7, &reply));
  need(camlheap_alloc(&heap, 5, 0, 4, &reply));
  need(camlheap_call(&heap, &ephe, 64, &reply));
  need(camlheap_set_key(&heap, 3, 0, 5, &reply));
  need(camlheap_map_make(&heap, 4, &reply));
  need(camlheap_alloc(&heap, 7, 0, 1000, &reply));
  for (uint16_t key = 0; key < 1000; key++) {
    need(camlheap_alloc(&heap, 6, 0, 1, &reply));
    need(camlheap_store(&heap, 7, key, 6, &reply));
    need(camlheap_map_bind(&heap, 4, 6, 1, &reply));
  }
  need(camlheap_map_bind(&heap, 4, 5, 1, &reply));
  need(camlheap_call(&heap, &minor, 64, &reply));
  need(camlheap_alloc(&heap, 2, 0, 4, &reply));
  need(camlheap_store(&heap, 2, 0, 1, &reply));
  need(camlheap_store(&heap, 2, 1, 5, &reply));
}

#define KIND(name, call) \
  if (!strcmp(kind, name)) { \
    for (long i = 0; i < count; i++) told += call; \
    return told; \
  }

static uint32_t calls(const char *kind, long count) {
  uint32_t told = 0;
  KIND("nothing", nothing(&heap, 6, 2, 0, &reply))
  KIND("put_int", camlheap_put_int(&heap, 6, 7, &reply))
  KIND("copy", camlheap_copy(&heap, 6, 1, &reply))
  KIND("load", camlheap_load(&heap, 6, 2, 0, &reply))
  KIND("load_block", camlheap_load(&heap, 6, 2, 1, &reply))
  KIND("store", camlheap_store(&heap, 2, 0, 1, &reply))
  KIND("cas", camlheap_cas(&heap, 2, 0, 1, 1, &reply))
  KIND("set_key", camlheap_set_key(&heap, 3, 0, 5, &reply))
  KIND("get_key", camlheap_get_key(&heap, 6, 3, 0, &reply))
  KIND("check_key", camlheap_check_key(&heap, 3, 0, &reply))
  KIND("map_get", camlheap_map_get(&heap, 6, 4, 5, &reply))
  KIND("alloc_2", camlheap_alloc(&heap, 6, 0, 2, &reply))
  KIND("alloc_4", camlheap_alloc(&heap, 6, 0, 4, &reply))
  fprintf(stderr, "no such kind\n");
  exit(2);
}

int main(int count, char **words) {
  if (count != 3 || camlheap_start(&(camlheap_config){1, 65536, 512, 8, 2048}, &heap, 1) != CAMLHEAP_DONE) return 2;
  prepare();
  return calls(words[1], atol(words[2])) != 0;
}
