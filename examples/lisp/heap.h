/* heap.h: all that the evaluator asks of a heap. A heap has domains, one thread at a time drives each, and each has 16
 * registers, which are its roots. A field and a register hold an integer of 63 bits or a block.
 *
 * The evaluator calls these and nothing else; they are defined three times, and a macro chooses: over the proved heap
 * (heap_proved.h), over malloc without freeing (LISP_MALLOC), and over the collector of Boehm (LISP_BOEHM, both in
 * heap_twin.h). */
#ifndef HEAP_H
#define HEAP_H
#include <stdatomic.h>
#include <stdbool.h>
#include <stddef.h>
#include <stdint.h>

/* What a register or a field holds: an integer, or a block, with a number that no other block has meanwhile. */
typedef struct { bool is_block; int64_t number; } item;

typedef struct heap heap;
typedef struct { uint32_t domains, minor_words, pools, finals, ephes; } sizes;
typedef enum { MINOR, MAJOR, FULL_MAJOR } collection;
enum { MOST_FIELDS = 1022 };

/* Why a heap can't be started, or NULL. The heap `h` below is one of the domains that it fills. */
static inline const char *heap_start(sizes wanted, heap *const *domains);
static inline void heap_stop(heap *const *domains, int count);

static inline item heap_load(heap *h, int dst, int block, int index);          /* dst = the field */
static inline void heap_store(heap *h, int block, int index, int src);         /* the field = src */
static inline bool heap_cas(heap *h, int block, int index, int old, int src);  /* the same where it holds what `old` holds */
static inline void heap_number(heap *h, int dst, int64_t number);
static inline void heap_copy(heap *h, int dst, int src);
static inline void heap_forget(heap *h, int dst);
static inline item heap_alloc(heap *h, int dst, int fields);                   /* fields hold 0 */
static inline item heap_raw(heap *h, int dst, int fields);                     /* fields hold integers alone */
static inline void heap_ephemeron(heap *h, int dst, int key, int data);        /* data lives as long as key and dst do */
static inline bool heap_key(heap *h, int dst, int ephemeron, item *key);       /* false where the key is gone */
static inline bool heap_has_key(heap *h, int ephemeron);
static inline item heap_data(heap *h, int dst, int ephemeron);                 /* to be asked while the key lives */
static inline void heap_finalise(heap *h, int block, uint32_t number, int dst); /* once it is dead, dst holds it once more */
static inline void heap_finalise_last(heap *h, int block, uint32_t number);    /* once it is gone */
static inline int64_t heap_collect(heap *h, collection which);                 /* how many blocks a complete one left */
static inline void heap_turn(heap *h);                                         /* for a thread that waits for another */
static inline void heap_drive(heap *h);                                        /* takes a domain that no thread drives */
static inline void heap_leave(heap *h);                                        /* and leaves it to those who wait for it */

/* The evaluator has these: what it does where the heap can't do what is asked, and where a finaliser has run. */
_Noreturn void heap_failed(heap *h, const char *why);
void heap_ran(heap *h, bool is_last, uint32_t number);

#if defined LISP_MALLOC || defined LISP_BOEHM
#include "heap_twin.h"
#else
#include "heap_proved.h"
#endif
#endif
