/* domains.c: handles, guardians, and the second domain. */
#include "lisp.h"
#include <stdlib.h>

enum { MOST_HANDLES = 100000, STACK_BYTES = 256 << 20 };
typedef enum { UNUSED, OPEN, CLOSED } handle_state;

/* A handle stands for something outside the heap that is closed once: by its owner, or by the finaliser of its block. */
static _Atomic handle_state handles[MOST_HANDLES];
static atomic_int opened, closed, finalised;

item open_handle(machine *m, int from) {
  int number = ((void)from, atomic_fetch_add(&opened, 1));
  if (number >= MOST_HANDLES) fail(m, "too many handles");
  atomic_store(&handles[number], OPEN);
  item made = tagged(m, 1, HANDLE, number);
  heap_finalise_last(&m->heap, VAL, (uint32_t)number);
  return made;
}

static bool is_closed_now(int64_t number) { return atomic_exchange(&handles[number], CLOSED) == OPEN; }

item close_handle(machine *m, int from) {
  bool is_first = is_closed_now(want(m, peek(m, A, from), A, HANDLE));
  if (is_first) atomic_fetch_add(&closed, 1);
  return truth(is_first);
}

/* How many were opened, closed by their owners, and closed by their finalisers. */
item handle_counts(machine *m, int from) {
  int counts[] = {((void)from, atomic_load(&opened)), atomic_load(&closed), atomic_load(&finalised)};
  item made = NIL_ITEM;
  for (int i = 2; i >= 0; i--) made = cons(m, integer(counts[i]), made);
  return made;
}

/* `finalise_last` is of handles. `finalise` is of guarded blocks, by their numbers from 1, and of the sentinel. */
void heap_ran(heap *h, bool is_last, uint32_t number) {
  machine *m = (machine *)h;
  if (!is_last && number == 0) m->has_sentinel_come = true;
  else if (!is_last) m->has_come[number] = true;
  else if (is_closed_now(number)) atomic_fetch_add(&finalised, 1);
}

item make_guardian(machine *m, int from) {
  item made = ((void)from, tagged(m, 2, GUARDIAN, 0));
  keep(m, VAL, 1, NIL_ITEM, T);
  return made;
}

/* Several finalisers may run between two commands. Each writes its block into a register, where the last one is still seen.
 * So a sentinel leads to all guarded blocks, and nothing leads to it but an ephemeron's key. It dies in each complete
 * collection, its finaliser puts it into SENTINEL, those of the blocks tell which have died, and it is registered anew. It
 * is a list of entries: a number, a block, its guardian, and the next entry. */
static void find_sentinel(machine *m) {
  item found;
  if (load(m, B, SPINE, S_SENTINEL).is_block && heap_key(&m->heap, B, B, &found)) return;
  alloc(m, B, 1);
  number(m, T, 0);
  heap_ephemeron(&m->heap, NEW, B, T);
  store(m, SPINE, S_SENTINEL, NEW);
  heap_finalise(&m->heap, B, 0, SENTINEL);
}

/* Puts an entry of what A, VAL and the guardian in FRAME hold before those of the sentinel in B. */
item guard(machine *m, int from) {
  want(m, peek(m, A, from), A, GUARDIAN);
  if (!peek(m, VAL, from + 1).is_block) fail(m, "a number can't be guarded");
  bool *has_come = realloc(m->has_come, (size_t)m->guarded + 2);
  if (!has_come) fail(m, "memory ran out");
  (m->has_come = has_come)[++m->guarded] = false;
  find_sentinel(m);
  alloc(m, NEW, 4);
  keep(m, NEW, 0, integer(m->guarded), T);
  store(m, NEW, 1, VAL);
  store(m, NEW, 2, A);
  load(m, T, B, 0);
  store(m, NEW, 3, T);
  store(m, B, 0, NEW);
  heap_forget(&m->heap, B);
  heap_finalise(&m->heap, VAL, (uint32_t)m->guarded, GIVEN);
  return NIL_ITEM;
}

/* The guardian in B gets the block in A. */
static void give(machine *m) {
  do {
    cons(m, (item){true, 0}, load(m, VAL, B, 1));
    load(m, T, VAL, 2);
  } while (!heap_cas(&m->heap, B, 1, T, VAL));
}

/* Goes through the entries of the sentinel: each dead block is given to its guardian, and the entry is taken out. */
void settle(machine *m) {
  if (!m->has_sentinel_come) return;
  m->has_sentinel_come = false;
  copy(m, FRAME, SENTINEL);
  for (int field = 0; load(m, VAL, FRAME, field).is_block;) {
    copy(m, FUN, VAL);
    if (!m->has_come[load(m, T, FUN, 0).number]) {
      copy(m, FRAME, FUN);
      field = 3;
      continue;
    }
    load(m, A, FUN, 1);
    load(m, B, FUN, 2);
    give(m);
    load(m, T, FUN, 3);
    store(m, FRAME, field, T);
  }
  heap_finalise(&m->heap, SENTINEL, 0, SENTINEL);
  for (int reg = VAL; reg <= SENTINEL; reg++) heap_forget(&m->heap, reg);
}

item retrieve(machine *m, int from) {
  item it;
  want(m, peek(m, A, from), A, GUARDIAN);
  do {
    if (is_nil(load(m, B, A, 1))) return NIL_ITEM;
    load(m, NEW, B, 2);
    it = load(m, VAL, B, 1);
  } while (!heap_cas(&m->heap, A, 1, B, NEW));
  return it;
}

bool start_thread(pthread_t *thread, void *(*run)(void *), machine *m) {
  pthread_attr_t attributes;
  pthread_attr_init(&attributes);
  pthread_attr_setstacksize(&attributes, STACK_BYTES);
  bool is_started = pthread_create(thread, &attributes, run, m) == 0;
  pthread_attr_destroy(&attributes);
  return is_started;
}

/* The job of a domain stands in its field of the shared block, and then what that came to. */
static void *run_job(void *of) {
  machine *m = of;
  int job = JOBS + m->number;
  heap_drive(&m->heap);
  m->has_failed = setjmp(m->failure) != 0;
  if (m->has_failed) keep(m, SHARED, job, NIL_ITEM, T);
  else {
    if (!m->is_attached) attach(m);
    m->is_attached = true;
    keep(m, SHARED, job, apply(m, load(m, FUN, SHARED, job), 0), VAL);
  }
  reset(m);
  clean(m);
  heap_leave(&m->heap);
  atomic_store(&m->is_done, true);
  return NULL;
}

item spawn(machine *m, int from) {
  int other = 0;
  while (other < DOMAINS && (machines[other].is_busy || &machines[other] == m)) other++;
  if (other == DOMAINS || m != machines) fail(m, "no domain is free");
  machine *to = &machines[other];
  peek(m, A, from);
  store(m, SHARED, JOBS + other, A);
  atomic_store(&to->is_done, false);
  if (!start_thread(&to->thread, run_job, to)) fail(m, "no thread is left");
  to->is_busy = true;
  return tagged(m, 1, TASK, ++to->jobs << 8 | other);
}

static item join_job(machine *m, int other) {
  machine *of = &machines[other];
  while (!atomic_load(&of->is_done)) heap_turn(&m->heap);
  pthread_join(of->thread, NULL);
  of->is_busy = false;
  if (of->has_failed) fail(m, "the task failed: %s", of->message);
  item it = load(m, VAL, SHARED, JOBS + other);
  keep(m, SHARED, JOBS + other, integer(0), T);
  return it;
}

item join(machine *m, int from) {
  int64_t job = want(m, peek(m, A, from), A, TASK);
  if (!machines[job & 255].is_busy || machines[job & 255].jobs != job >> 8) fail(m, "this task was joined before");
  return join_job(m, (int)(job & 255));
}

void join_all(machine *m) {
  for (volatile int i = 0; i < DOMAINS; i++)
    if (machines[i].is_busy && !setjmp(m->failure)) join_job(m, i);
}
