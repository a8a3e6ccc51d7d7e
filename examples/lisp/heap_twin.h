/* heap.h over malloc without freeing, and over the collector of Boehm: the same fields and registers, with what the proved
 * heap alone promises left out. Over malloc nothing dies. Over Boehm's collector a key dies by a disappearing link, and
 * data are kept as long as their ephemeron; heap_finalise is a promise that is never kept, and a block has one finaliser. */
#include <sched.h>
#ifdef LISP_BOEHM
#define GC_THREADS
#include <gc.h>
#define TAKE(bytes) GC_MALLOC(bytes)
#define TAKE_RAW(bytes) GC_MALLOC_ATOMIC(bytes)
#else
#include <stdlib.h>
#define TAKE(bytes) malloc(bytes)
#define TAKE_RAW(bytes) malloc(bytes)
#endif

/* 0 is nothing, an odd word is an integer, and any other the address of a block. */
typedef uint64_t word;
typedef struct { size_t fields; _Atomic word at[]; } block;
struct heap { word at[16]; };

static inline item heap_item(word w) { return w & 1 ? (item){false, (int64_t)w >> 1} : (item){w != 0, (int64_t)w}; }

static inline _Atomic word *heap_place(heap *h, int reg, int index) {
  word w = h->at[reg];
  if (w & 1 || w == 0 || (size_t)index >= ((block *)w)->fields) heap_failed(h, "no such field");
  return &((block *)w)->at[index];
}

static inline item heap_make(heap *h, int dst, int fields, block *made) {
  if (!made) heap_failed(h, "the heap is full");
  made->fields = (size_t)fields;
  for (int i = 0; i < fields; i++) atomic_init(&made->at[i], 1);
  h->at[dst] = (word)made;
  return (item){true, (int64_t)(word)made};
}

static inline item heap_load(heap *h, int dst, int block, int index) {
  return heap_item(h->at[dst] = atomic_load_explicit(heap_place(h, block, index), memory_order_acquire));
}
static inline void heap_store(heap *h, int block, int index, int src) {
  atomic_store_explicit(heap_place(h, block, index), h->at[src], memory_order_release);
}
static inline bool heap_cas(heap *h, int block, int index, int old, int src) {
  word expected = h->at[old];
  return atomic_compare_exchange_strong(heap_place(h, block, index), &expected, h->at[src]);
}
static inline void heap_number(heap *h, int dst, int64_t number) { h->at[dst] = (word)number << 1 | 1; }
static inline void heap_copy(heap *h, int dst, int src) { h->at[dst] = h->at[src]; }
static inline void heap_forget(heap *h, int dst) { h->at[dst] = 0; }
static inline item heap_alloc(heap *h, int dst, int fields) { return heap_make(h, dst, fields, TAKE(sizeof(block) + sizeof(word) * (size_t)fields)); }
static inline item heap_raw(heap *h, int dst, int fields) { return heap_make(h, dst, fields, TAKE_RAW(sizeof(block) + sizeof(word) * (size_t)fields)); }

/* The key stands in a block of its own, so that the collector doesn't look at it; field 0 leads there. */
static inline void heap_ephemeron(heap *h, int dst, int key, int data) {
  word held = h->at[key], kept = h->at[data];
  heap_raw(h, dst, 1);
  word link = h->at[dst];
  atomic_store(&((block *)link)->at[0], held);
#ifdef LISP_BOEHM
  GC_general_register_disappearing_link((void **)&((block *)link)->at[0], (void *)held);
#endif
  heap_alloc(h, dst, 2);
  atomic_store(&((block *)h->at[dst])->at[0], link);
  atomic_store(&((block *)h->at[dst])->at[1], kept);
}
static inline bool heap_key(heap *h, int dst, int ephemeron, item *key) {
  word link = atomic_load(heap_place(h, ephemeron, 0));
  h->at[dst] = atomic_load(&((block *)link)->at[0]);
  *key = heap_item(h->at[dst]);
  return key->is_block;
}
static inline bool heap_has_key(heap *h, int ephemeron) {
  word link = atomic_load(heap_place(h, ephemeron, 0));
  return atomic_load(&((block *)link)->at[0]) != 0;
}
static inline item heap_data(heap *h, int dst, int ephemeron) { return heap_load(h, dst, ephemeron, 1); }

static inline void heap_finalise(heap *h, int block, uint32_t number, int dst) { (void)h, (void)block, (void)number, (void)dst; }

#ifdef LISP_BOEHM
static void heap_gone(void *block, void *number) { (void)block, heap_ran(NULL, true, (uint32_t)(uintptr_t)number); }
static inline void heap_finalise_last(heap *h, int block, uint32_t number) {
  GC_register_finalizer_no_order((void *)h->at[block], heap_gone, (void *)(uintptr_t)number, NULL, NULL);
}
static inline int64_t heap_collect(heap *h, collection which) {
  (void)h;
  if (which != MINOR) GC_gcollect(), GC_invoke_finalizers();
  return 0;
}
#else
static inline void heap_finalise_last(heap *h, int block, uint32_t number) { (void)h, (void)block, (void)number; }
static inline int64_t heap_collect(heap *h, collection which) { return (void)h, (void)which, 0; }
#endif

static inline void heap_turn(heap *h) { (void)h, sched_yield(); }
static inline void heap_drive(heap *h) { (void)h; }
static inline void heap_leave(heap *h) { (void)h; }
static inline void heap_stop(heap *const *domains, int count) { (void)domains, (void)count; }

/* Register 0 of each domain holds the shared block, which has 16 fields. */
static inline const char *heap_start(sizes wanted, heap *const *domains) {
#ifdef LISP_BOEHM
  GC_INIT();
#endif
  heap_alloc(domains[0], 0, 16);
  for (uint32_t i = 1; i < wanted.domains; i++) domains[i]->at[0] = domains[0]->at[0];
  return NULL;
}
