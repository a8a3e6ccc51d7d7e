/* lisp.h: what the parts of the evaluator share. Every value is an integer or a block of the heap; code is compiled to
 * nodes in C, which hold no value. C keeps no address of a block either: it names registers. */
#ifndef LISP_H
#define LISP_H
#include "heap.h"
#include <pthread.h>
#include <setjmp.h>

/* The registers of a domain. VAL holds what was evaluated last, where it is a block. Finalisers write GIVEN and SENTINEL. */
enum { SHARED, GLOBALS, NAMES, TABLE, SPINE, STACK, ENV, VAL, FUN, FRAME, A, B, NEW, T, GIVEN, SENTINEL };
/* Fields of the shared block: roots of all domains, and for each domain its job, or what that came to. */
enum { S_GLOBALS, S_NAMES, S_TABLE, JOBS, DOMAINS = 2 };
/* Fields of the spine: the chunks of the stack, and an ephemeron with the sentinel of the guardians. */
enum { CHUNKS = 1000, S_SENTINEL = CHUNKS, CHUNK = 1000 };
enum { MOST_ARGUMENTS = 15, MOST_NESTING = 12000, MOST_CODES = 4096, BUCKETS = 256, MOST_TEXT = 7 * (MOST_FIELDS - 1) };

/* Field 0 of each block that is a value has its kind in the low 8 bits, and a number above. From INTEGER on none is a block. */
typedef enum { PAIR, CLOSURE, BUILTIN, SYMBOL, STRING, WEAK, HANDLE, GUARDIAN, TASK, INTEGER, NIL, TRUTH } kind;
#define LEAST (-((int64_t)1 << 62))
#define MOST (((int64_t)1 << 62) - 1)
#define NIL_ITEM ((item){false, LEAST})
#define TRUTH_ITEM ((item){false, LEAST + 1})
#define UNBOUND_ITEM ((item){false, LEAST + 2})

/* What an expression is compiled to. Those up to LOCAL are leaves. A simple one makes no call: ENV, FUN and FRAME stay. A
 * call is quick where its function is a leaf and its arguments are simple. */
typedef enum { NUMBER, CONSTANT, GLOBAL, LOCAL, SET_GLOBAL, SET_LOCAL, IF, OR, SEQUENCE, LAMBDA, CALL, UNARY, BINARY, GENERAL } shape;
typedef struct node { shape shape; bool is_simple, is_quick, has_link; int a, b, count; int64_t number; struct node *at[]; } node;

/* A domain with the thread that evaluates on it. STACK holds one chunk of the spine. */
typedef struct {
  heap heap;
  int number, chunk, depth, deepest, nesting;
  jmp_buf failure;
  char message[200];
  bool is_attached, is_busy, has_failed, has_sentinel_come, *has_come;
  atomic_bool is_done;
  pthread_t thread;
  int64_t jobs, guarded;
} machine;
extern machine machines[DOMAINS];

static inline item load(machine *m, int dst, int block, int index) { return heap_load(&m->heap, dst, block, index); }
static inline void store(machine *m, int block, int index, int src) { heap_store(&m->heap, block, index, src); }
static inline void number(machine *m, int dst, int64_t value) { heap_number(&m->heap, dst, value); }
static inline void copy(machine *m, int dst, int src) { heap_copy(&m->heap, dst, src); }
static inline item alloc(machine *m, int dst, int fields) { return heap_alloc(&m->heap, dst, fields); }
static inline bool is(item a, item b) { return a.is_block == b.is_block && a.number == b.number; }
static inline bool is_nil(item it) { return is(it, NIL_ITEM); }
static inline item truth(bool fact) { return fact ? TRUTH_ITEM : NIL_ITEM; }
static inline item integer(int64_t value) { return (item){false, value}; }
/* The field = an item, whose block is in `reg` if it is one. */
static inline void keep(machine *m, int block, int index, item it, int reg) {
  if (!it.is_block) number(m, reg = T, it.number);
  store(m, block, index, reg);
}

/* values.c. T is lost everywhere, and NEW by what makes a block. */
_Noreturn void fail(machine *m, const char *format, ...) __attribute__((format(printf, 2, 3)));
kind kind_of(machine *m, item it, int reg, int64_t *above);
int64_t want(machine *m, item it, int reg, kind wanted);    /* the number above the kind, or the integer */
item tagged(machine *m, int fields, kind kind, int64_t above);   /* a new block in VAL */
item cons(machine *m, item head, item tail);                /* of A and VAL, in VAL */
item string(machine *m, const char *text, int length);      /* in VAL */
int text_of(machine *m, item it, int reg, char *to);        /* its length */
item symbol(machine *m, const char *name);                  /* in VAL; A and B are lost */
int64_t count_symbols(machine *m);                          /* A and B are lost */
void push(machine *m, item it, int reg);
item peek(machine *m, int dst, int position);
item pop(machine *m, int dst);
void nest(machine *m), attach(machine *m);
void reset(machine *m), clean(machine *m);                  /* after a failure; forgets what registers and stack held */

/* text.c: an item is read into VAL, and printed from there. */
bool read_item(machine *m, const char **text, item *read);
void print(machine *m, item it);

/* compile.c: of VAL. What a form left is freed, where it made no closure. */
node *compile(machine *m, item it);
void start_names(machine *m);
void end_form(machine *m);
extern node *codes[MOST_CODES];

/* eval.c */
item eval(machine *m, const node *n);
item apply(machine *m, item function, int from);            /* FUN, of what is pushed from here on */

/* builtins.c: those of one argument come first, of VAL; then those of two, of A and VAL; the others take what is pushed. */
typedef struct { const char *name; int least, most; bool is_simple; item (*run)(machine *m, int from); } builtin;
extern const builtin builtins[];
extern const int unary_count, binary_end, builtin_count;
item unary(machine *m, int which, item it);
item binary(machine *m, int which, item a, item b);

/* domains.c: handles, guardians, and the second domain, as builtins. */
item open_handle(machine *m, int from), close_handle(machine *m, int from), handle_counts(machine *m, int from);
item make_guardian(machine *m, int from), guard(machine *m, int from), retrieve(machine *m, int from);
item spawn(machine *m, int from), join(machine *m, int from);
void settle(machine *m);                                    /* hands out what guardians wait for */
void join_all(machine *m);
bool start_thread(pthread_t *thread, void *(*run)(void *), machine *m);   /* with a large stack */
#endif
