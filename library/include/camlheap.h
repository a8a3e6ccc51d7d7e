/* camlheap.h: a heap with the rules of OCaml 5's, proved, for programs in C. Link libcamlheap.a.
 *
 * A heap has 1 to 8 domains, each with 16 registers, which are its roots: a block lives as long as something leads to it
 * from a register, or from a finaliser that waits. A program keeps each domain in a handle of its own. Register 0 of each
 * domain holds at first the shared block, which has 16 fields, and through its fields domains pass blocks to one another. It
 * is a register as the others are: a `dst` that was left out overwrites it. All fields hold the integer 0 at first.
 *
 * A command is handed in (camlheap_submit), and turns of its domain make it (camlheap_turn, camlheap_run), or both in one
 * call (camlheap_call). No call waits, locks or starts a thread. A pause of the collector needs all domains: one that has
 * come to it answers CAMLHEAP_WAITING until the others come too, and the program chooses what to do meanwhile. So each
 * domain has to be turned now and then, also while its program has no command for it, and after it was closed until
 * CAMLHEAP_ENDED. camlheap_perform below does all that for one command.
 *
 * What the commands of a domain reply is what a legal history of an object graph replies that never collects or moves, and in
 * which they stand in order; the contracts of these calls say so, of each handle by itself (crates/camlheap_c). With valid
 * addresses no call reaches what is undefined. Left to the program: addresses are valid, what the addresses of one call lead to
 * doesn't overlap, a handle isn't copied, and one thread at a time calls on a handle. */
#ifndef CAMLHEAP_H
#define CAMLHEAP_H
#include <stdbool.h>
#include <stddef.h>
#include <stdint.h>
#include <string.h>
#ifdef __cplusplus
extern "C" {
#endif

#define CAMLHEAP_VERSION 1

/* A domain, or none: memory of zeros is none. Only these calls look into it. */
typedef struct { void *at; bool full; } camlheap_domain;

/* Each call writes to its handle. So handles of several threads that lie within 64 bytes of one another slow each other down, to a
 * quarter of the speed: a thread moves its handle, which camlheap_start has filled, to memory of its own. The other holds none then. */
static inline void camlheap_move(camlheap_domain *to, camlheap_domain *from) {
  if (to == from) return;
  *to = *from;
  from->at = NULL;
  from->full = false;
}

/* A bed, in which a domain rests, or none: memory of zeros is none. Only these calls look into it. */
typedef struct { void *at; bool full; } camlheap_bed;

/* How large a heap is: 1 domains (1 to 8), 2 words of each minor area (4096 to 65536 in steps of 4096), 3 pools of 4096
 * words (D * (minor_words / 4096 + 9) + 9 * D + 1 to 2048 for D domains), 4 and 5 room for finalisers (until taken) and ephemerons of
 * each domain (at most 200000 each). */
typedef struct { uint32_t domains, minor_words, pools, finals, ephes; } camlheap_config;

/* The least number of pools of a heap with so many domains and words of each minor area; 2048 is the most. */
#define CAMLHEAP_LEAST_POOLS(domains, minor_words) ((domains) * ((minor_words) / 4096 + 9) + 9 * (domains) + 1)

/* A command: what it is, and the fields that the table below names. */
typedef struct { uint8_t op, dst, a, b, tag; uint16_t n; uint32_t number; int64_t value; } camlheap_command;

/* A reply: what it is, and the fields that belong to its kind; the others are 0. */
typedef struct { uint32_t kind, domain, serial, number; int64_t value; uint64_t blocks, words; } camlheap_reply;

/* What a domain counts: labels that it has given out, words of its minor area that its young blocks take, fields that it
 * remembers, ephemerons, registrations of both kinds that don't wait yet, finalisers that wait to run, and how often it has arrived
 * at the barrier. */
typedef struct {
  uint32_t labels, young_words;
  size_t remembered, ephemerons, finals, lasts, waiting;
  uint64_t arrivals;
} camlheap_counts;

/* What leads to a block: the kind of the answer, and of a way its register and how many fields it takes. */
typedef struct { uint32_t kind, reg; size_t fields; } camlheap_way;

/* What the calls answer. The kind of a reply is another number: look at it only behind DONE. */
enum {
  CAMLHEAP_DONE = 0,          /* done; of camlheap_run and camlheap_call: the command is made, and the reply is there */
  CAMLHEAP_AGAIN = 1,         /* the domain did something, and may go on */
  CAMLHEAP_WAITING = 2,       /* other domains are missing in a pause: turn them, or let their threads do it */
  CAMLHEAP_HUNGRY = 3,        /* it has no command to make */
  CAMLHEAP_ENDED = 4,         /* the traces of all domains have ended */
  CAMLHEAP_NO_DOMAIN = 16,    /* the handle holds none */
  CAMLHEAP_CLOSED = 17,       /* the domain takes no command any more */
  CAMLHEAP_BUSY = 18,         /* the command before isn't made yet */
  CAMLHEAP_UNFIT = 19,        /* no such command, or a register or number outside its range */
  CAMLHEAP_NO_EPHEMERON = 20, /* no room for the ephemeron */
  CAMLHEAP_NO_FINALISER = 21, /* no room for the finaliser: registrations, and finalisers that ran and weren't taken, use it up */
  CAMLHEAP_NO_LABEL = 22,     /* the domain has made 4294967295 blocks */
  CAMLHEAP_NO_REGISTER = 23,  /* no such register */
  CAMLHEAP_MEMORY = 24,       /* memory ran out, and nothing was started */
  CAMLHEAP_TOO_FEW_HANDLES = 25,
  CAMLHEAP_NO_MORE = 26,      /* no finaliser waits to be taken; there are 64 beds; more blocks */
  CAMLHEAP_NO_BED = 27,       /* the handle holds none */
  CAMLHEAP_BED_FULL = 28,     /* a domain rests there */
  CAMLHEAP_HAS_DOMAIN = 29,   /* the handle that is to be filled holds one */
  CAMLHEAP_BED_EMPTY = 30,    /* no domain rests there */
  CAMLHEAP_OUTSIDE = 32       /* with 1 to 5 added: the first field of the configuration outside its range */
};

/* Commands, with the fields that they take. Registers are 0 to 15. Type and bounds are BAD_TYPE and BAD_INDEX. */
enum {
  CAMLHEAP_PUT_INT,       /* dst = value, an integer of 63 bits               ok                                  */
  CAMLHEAP_COPY,          /* dst = what a holds                               ok                                  */
  CAMLHEAP_FORGET,        /* dst = nothing                                    ok                                  */
  CAMLHEAP_ALLOC,         /* dst = a new young block, tag 0 to 245, n fields  block or full; n is 1 to 1022       */
  CAMLHEAP_ALLOC_MAJOR,   /* the same in the major heap                       block or full                       */
  CAMLHEAP_RAW,           /* dst = a raw block, tag 251 to 255, n integers    block or full                       */
  CAMLHEAP_LOAD,          /* dst = field n of the block in a                  int, block, type or bounds          */
  CAMLHEAP_STORE,         /* field n of the block in a = what b holds         ok, type or bounds                  */
  CAMLHEAP_CAS,           /* the same where the field holds what dst holds    yes, no, type or bounds             */
  CAMLHEAP_EPHE,          /* dst = a new ephemeron with n keys, 1 to 8        block or full                       */
  CAMLHEAP_SET_KEY,       /* key n of the ephemeron in a = the block in b     ok, type or bounds                  */
  CAMLHEAP_UNSET_KEY,     /* key n of the ephemeron in a = nothing            ok, type or bounds                  */
  CAMLHEAP_GET_KEY,       /* dst = key n of the ephemeron in a                block, none, type or bounds         */
  CAMLHEAP_CHECK_KEY,     /* whether key n of the ephemeron in a is full      yes, no, type or bounds             */
  CAMLHEAP_SET_DATA,      /* the data of the ephemeron in a = what b holds    ok or type                          */
  CAMLHEAP_UNSET_DATA,    /* the data of the ephemeron in a = nothing         ok or type                          */
  CAMLHEAP_GET_DATA,      /* dst = the data of the ephemeron in a             int, block, none or type            */
  CAMLHEAP_CHECK_DATA,    /* whether the data of the ephemeron in a are full  yes, no or type                     */
  CAMLHEAP_POLL,          /* nothing, but a step of the collector's           ok                                  */
  CAMLHEAP_MINOR,         /* a minor collection                               ok                                  */
  CAMLHEAP_MAJOR,         /* begins or goes on with a major collection        ok                                  */
  CAMLHEAP_FULL_MAJOR,    /* a complete collection                            live, with what is left             */
  CAMLHEAP_FINALISE,      /* once nothing leads to the block in a, finaliser `number` runs, and dst holds the block again;
                             a weak key of it goes with a later collection, once nothing leads to it anew           */
  CAMLHEAP_FINALISE_LAST  /* once the block in a is gone for good, finaliser `number` runs    both: ok or type      */
};

/* Kinds of replies, with the fields that they have. */
enum {
  CAMLHEAP_OK,
  CAMLHEAP_INT,        /* value */
  CAMLHEAP_BLOCK,      /* domain, serial: the block's label, which no other block of the heap ever has */
  CAMLHEAP_BAD_TYPE, CAMLHEAP_BAD_INDEX, CAMLHEAP_NONE, CAMLHEAP_YES, CAMLHEAP_NO,
  CAMLHEAP_FULL,       /* no room after a complete collection; no block was made */
  CAMLHEAP_LIVE,       /* blocks, words */
  CAMLHEAP_FIN,        /* number; domain and serial of its block */
  CAMLHEAP_LAST        /* number */
};

/* Kinds of answers to what leads to a block. */
enum {
  CAMLHEAP_WAY,        /* reg, fields: this way does */
  CAMLHEAP_NOTHING,    /* nothing does */
  CAMLHEAP_NO_FIELD    /* no field does; an ephemeron is there whose data may */
};

/* CAMLHEAP_VERSION of the archive. */
uint32_t camlheap_version(void);

/* What a number that a call answers stands for, in words. */
static inline const char *camlheap_says(uint32_t told) {
  switch (told) {
    case CAMLHEAP_DONE: return "done";
    case CAMLHEAP_AGAIN: return "it did something, and may go on: ask again";
    case CAMLHEAP_WAITING: return "other domains are missing in a pause";
    case CAMLHEAP_HUNGRY: return "there is no command to make";
    case CAMLHEAP_ENDED: return "the traces of all domains have ended";
    case CAMLHEAP_NO_DOMAIN: return "the handle holds no domain";
    case CAMLHEAP_CLOSED: return "the domain is closed";
    case CAMLHEAP_BUSY: return "the command before isn't made yet";
    case CAMLHEAP_UNFIT: return "there is no such command, or a register or number is outside its range";
    case CAMLHEAP_NO_EPHEMERON: return "there is no room for the ephemeron";
    case CAMLHEAP_NO_FINALISER: return "there is no room for the finaliser";
    case CAMLHEAP_NO_LABEL: return "the domain has made as many blocks as it may";
    case CAMLHEAP_NO_REGISTER: return "there is no such register, or not for this call";
    case CAMLHEAP_MEMORY: return "memory ran out";
    case CAMLHEAP_TOO_FEW_HANDLES: return "there are fewer handles than domains";
    case CAMLHEAP_NO_MORE: return "there are no more";
    case CAMLHEAP_NO_BED: return "the handle holds no bed";
    case CAMLHEAP_BED_FULL: return "a domain rests in the bed";
    case CAMLHEAP_HAS_DOMAIN: return "the handle that is to be filled holds a domain";
    case CAMLHEAP_BED_EMPTY: return "no domain rests in the bed";
    case CAMLHEAP_OUTSIDE + 1: return "domains is outside its range: 1 to 8";
    case CAMLHEAP_OUTSIDE + 2: return "minor_words is outside its range: 4096 to 65536 in steps of 4096";
    case CAMLHEAP_OUTSIDE + 3: return "pools is outside its range: CAMLHEAP_LEAST_POOLS to 2048";
    case CAMLHEAP_OUTSIDE + 4: return "finals is outside its range: at most 200000";
    case CAMLHEAP_OUTSIDE + 5: return "ephes is outside its range: at most 200000";
    default: return "no call answers this";
  }
}

/* Which field of a command is the reason where it is answered UNFIT: the first that is outside its range, or NULL. */
static inline const char *camlheap_wrong(const camlheap_command *command) {
  static const struct { uint32_t dst, a, b; } used = {
      1u << CAMLHEAP_PUT_INT | 1u << CAMLHEAP_COPY | 1u << CAMLHEAP_FORGET | 1u << CAMLHEAP_ALLOC | 1u << CAMLHEAP_ALLOC_MAJOR | 1u << CAMLHEAP_RAW |
          1u << CAMLHEAP_LOAD | 1u << CAMLHEAP_CAS | 1u << CAMLHEAP_EPHE | 1u << CAMLHEAP_GET_KEY | 1u << CAMLHEAP_GET_DATA | 1u << CAMLHEAP_FINALISE,
      1u << CAMLHEAP_COPY | 1u << CAMLHEAP_LOAD | 1u << CAMLHEAP_STORE | 1u << CAMLHEAP_CAS | 1u << CAMLHEAP_SET_KEY | 1u << CAMLHEAP_UNSET_KEY |
          1u << CAMLHEAP_GET_KEY | 1u << CAMLHEAP_CHECK_KEY | 1u << CAMLHEAP_SET_DATA | 1u << CAMLHEAP_UNSET_DATA | 1u << CAMLHEAP_GET_DATA |
          1u << CAMLHEAP_CHECK_DATA | 1u << CAMLHEAP_FINALISE | 1u << CAMLHEAP_FINALISE_LAST,
      1u << CAMLHEAP_STORE | 1u << CAMLHEAP_CAS | 1u << CAMLHEAP_SET_KEY | 1u << CAMLHEAP_SET_DATA};
  const uint8_t op = command->op;
  if (op > CAMLHEAP_FINALISE_LAST) return "op";
  if (used.dst >> op & 1 && command->dst > 15) return "dst";
  if (used.a >> op & 1 && command->a > 15) return "a";
  if (used.b >> op & 1 && command->b > 15) return "b";
  if (op == CAMLHEAP_RAW ? command->tag < 251 : (op == CAMLHEAP_ALLOC || op == CAMLHEAP_ALLOC_MAJOR) && command->tag > 245) return "tag";
  if (op == CAMLHEAP_EPHE && (command->n < 1 || command->n > 8)) return "n";
  if (op >= CAMLHEAP_ALLOC && op <= CAMLHEAP_RAW && (command->n < 1 || command->n > 1022)) return "n";
  if (op == CAMLHEAP_PUT_INT && (command->value < -((int64_t)1 << 62) || command->value >= (int64_t)1 << 62)) return "value";
  return NULL;
}

/* Starts a heap, and puts each of its domains into a handle; there are `count`. All memory is taken here. DONE,
 * TOO_FEW_HANDLES, HAS_DOMAIN where one of the handles that are to be filled holds a domain, OUTSIDE + field, or MEMORY; handles
 * are filled only with DONE. */
uint32_t camlheap_start(const camlheap_config *config, camlheap_domain *handles, size_t count);

/* Hands in the next command: DONE, or why it isn't taken, and then nothing has changed. */
uint32_t camlheap_submit(camlheap_domain *domain, const camlheap_command *command);

/* One turn: AGAIN, WAITING, HUNGRY or ENDED. */
uint32_t camlheap_turn(camlheap_domain *domain);

/* At most so many turns: DONE and the reply once the command is made; AGAIN, WAITING, HUNGRY or ENDED else, and *reply is
 * as it was. */
uint32_t camlheap_run(camlheap_domain *domain, uint32_t turns, camlheap_reply *reply);

/* camlheap_submit, and where it took the command camlheap_run; at once where no pause is wanted and none must come first. */
uint32_t camlheap_call(camlheap_domain *domain, const camlheap_command *command, uint32_t turns, camlheap_reply *reply);

/* The commands that are made most, each by a call of its own, which costs less: DONE and the reply where the command is made
 * at once; AGAIN where a pause is wanted or must come first: then it is handed in, and camlheap_run goes on; and else why it
 * isn't taken, and then nothing has changed. Operands stand in the order of a script's line. */
uint32_t camlheap_put_int(camlheap_domain *domain, uint8_t dst, int64_t value, camlheap_reply *reply);
uint32_t camlheap_copy(camlheap_domain *domain, uint8_t dst, uint8_t src, camlheap_reply *reply);
uint32_t camlheap_forget(camlheap_domain *domain, uint8_t dst, camlheap_reply *reply);
uint32_t camlheap_alloc(camlheap_domain *domain, uint8_t dst, uint8_t tag, uint16_t fields, camlheap_reply *reply);
uint32_t camlheap_load(camlheap_domain *domain, uint8_t dst, uint8_t block, uint16_t index, camlheap_reply *reply);
uint32_t camlheap_store(camlheap_domain *domain, uint8_t block, uint16_t index, uint8_t item, camlheap_reply *reply);
uint32_t camlheap_cas(camlheap_domain *domain, uint8_t block, uint16_t index, uint8_t expected, uint8_t item, camlheap_reply *reply);
uint32_t camlheap_set_key(camlheap_domain *domain, uint8_t ephe, uint16_t index, uint8_t item, camlheap_reply *reply);
uint32_t camlheap_get_key(camlheap_domain *domain, uint8_t dst, uint8_t ephe, uint16_t index, camlheap_reply *reply);
uint32_t camlheap_check_key(camlheap_domain *domain, uint8_t ephe, uint16_t index, camlheap_reply *reply);
uint32_t camlheap_set_data(camlheap_domain *domain, uint8_t ephe, uint8_t item, camlheap_reply *reply);
uint32_t camlheap_get_data(camlheap_domain *domain, uint8_t dst, uint8_t ephe, camlheap_reply *reply);
uint32_t camlheap_poll(camlheap_domain *domain, camlheap_reply *reply);

/* The reply to the command that camlheap_submit handed in last, or that was put off: DONE, or AGAIN where it isn't made yet, or
 * another was made at once since. */
uint32_t camlheap_answer(camlheap_domain *domain, camlheap_reply *reply);

/* Takes the oldest of the finalisers of the domain that ran and weren't taken yet: DONE and its reply, FIN or LAST, or NO_MORE.
 * A collection only has a finaliser wait. It runs on the domain that registered it, before the next command or in turns between
 * two, and is kept until it is taken: no other call takes or loses one, whatever it does. Until then it takes the room that its
 * registration took. It may be taken behind ENDED too, until the domain is freed. */
uint32_t camlheap_take_ran(camlheap_domain *domain, camlheap_reply *reply);

/* A look at the one at this place of those that wait to be taken, from the oldest at 0: DONE and its reply, or NO_MORE. */
uint32_t camlheap_ran(camlheap_domain *domain, size_t place, camlheap_reply *reply);

/* What a register holds: DONE with INT, BLOCK or NONE, or NO_REGISTER. */
uint32_t camlheap_show(camlheap_domain *domain, uint8_t reg, camlheap_reply *reply);

/* What the domain counts: DONE. It costs no look at the heap. */
uint32_t camlheap_stats(camlheap_domain *domain, camlheap_counts *counts);

/* Why a block is still there. Looks for a way from registers 0 to 13 of the domain through fields of blocks, one behind the
 * other, to the block with this label, which a reply BLOCK names by its domain and serial. *way tells whether there is one: it
 * begins in register way->reg and takes way->fields fields. The first `room` of their indices are written to `fields`, the one
 * of the block in the register first; more aren't written. A block in a register itself takes none.
 *
 * It is made of loads of this domain into registers 14 and 15, which hold blocks that it came to afterwards: put nothing there
 * that is needed, and camlheap_forget them behind it. A register of another domain, a finaliser and the data of an ephemeron
 * aren't looked through: NOTHING says that the block isn't led to from these registers, and that no ephemeron is, and NO_FIELD
 * the first alone. Where no other domain has made a command meanwhile, and no collection came, the answer is exact; beside others
 * nothing is said of it: a way that it tells may be gone, and it may miss one.
 *
 * It looks into at most `most` blocks. DONE; NO_DOMAIN, CLOSED or BUSY; AGAIN where the domain stands in a pause, one is
 * wanted, or a finaliser waits: take a turn, and ask anew; NO_MORE where
 * there are more blocks than `most`; or MEMORY. *way and *fields are as they were else than with DONE. A block costs as many
 * loads as the way to it and itself have fields, and the time to look for each block that these refer to among those it came
 * to. */
uint32_t camlheap_why(camlheap_domain *domain, uint32_t maker, uint32_t serial, uint32_t most, camlheap_way *way, uint16_t *fields, size_t room);

/* Weak maps from blocks to values: a map keeps neither its keys nor, for a key that nothing else leads to, its datum. It is a
 * block, whose register the calls are given, and it may be shared by domains that use it by these calls. Each call is several
 * commands of the domain. Registers are below 8; registers 8 to 11 are used between, and are emptied behind it as far as that is
 * possible at once, of which no clause speaks: where what they may hold has to go, camlheap_forget them.
 *
 * DONE and the reply; NO_DOMAIN, CLOSED, BUSY, NO_REGISTER for one that isn't below 8, or NO_LABEL, and then nothing has
 * changed; or AGAIN where a pause is wanted or must come first, or others won a field too often: then no binding has changed,
 * and the registers below 8 hold what they held. Beside other domains that is usual, of each of these calls: camlheap_settle below,
 * and ask anew, as in `while ((told = camlheap_map_get(..)) == CAMLHEAP_AGAIN) camlheap_settle(domain);`. Where that doesn't help
 * make a MINOR and then a FULL_MAJOR, which make the room that an allocation lacks.
 *
 * A new map in register dst, which binds nothing: its block, or full. */
uint32_t camlheap_map_make(camlheap_domain *domain, uint8_t dst, camlheap_reply *reply);

/* What the map binds the block in `key` to, into dst: int or block; none, and then dst holds nothing; or type. */
uint32_t camlheap_map_get(camlheap_domain *domain, uint8_t dst, uint8_t map, uint8_t key, camlheap_reply *reply);

/* Binds the block in `key` to what `item` holds: ok, full, or type where `key` holds no block or `item` nothing. It is one try: AGAIN
 * also where another domain won the field, or another key's leaf stood there, for which it has made room then. Each try makes an
 * ephemeron and at most one block more: NO_LABEL where fewer than two labels are left, and NO_EPHEMERON where the domain's list
 * is full; then nothing has changed. Where `map` holds no map it may be AGAIN each time. camlheap_map_bind below asks anew, and ends. */
uint32_t camlheap_map_put(camlheap_domain *domain, uint8_t map, uint8_t key, uint8_t item, camlheap_reply *reply);

/* Takes the binding of the block in `key` out: ok, none where there was none, or type. In one history of all domains, of two calls
 * that take the same binding one alone answers ok. */
uint32_t camlheap_map_take(camlheap_domain *domain, uint8_t map, uint8_t key, camlheap_reply *reply);

/* No command comes any more: DONE, BUSY or CLOSED. The trace ends in later turns, behind the finalisers that wait. */
uint32_t camlheap_close(camlheap_domain *domain);

/* Frees the domain, and the heap with the last of them; the handle holds none then. Do it after ENDED: the others of the
 * heap wait for ever for a domain that was freed before. */
void camlheap_free(camlheap_domain *domain);

/* A thread that has other work for long, or blocks, puts its domain to rest in a bed: then the others needn't wait for it.
 * Beds of one room know of each other, and whoever waits in a pause turns with its own bed the domains that rest there. A room
 * has up to 64 beds, and any domain may rest in any that is free. As with a domain, one thread at a time calls on a bed.
 *
 * The first bed of a new room: DONE, MEMORY, or AGAIN as camlheap_free_bed answers it. A further one, made by the first: DONE,
 * NO_BED, UNFIT where `first` isn't the first or both are one handle, NO_MORE, MEMORY, or AGAIN. What the handle that is filled
 * held before is freed with DONE, and nothing has changed else. */
uint32_t camlheap_first_bed(camlheap_bed *bed);
uint32_t camlheap_another_bed(camlheap_bed *first, camlheap_bed *bed);
static inline uint32_t camlheap_further_bed(camlheap_bed *first, camlheap_bed *bed) {
  if (first == bed) return first->full ? CAMLHEAP_UNFIT : CAMLHEAP_NO_BED;
  return camlheap_another_bed(first, bed);
}
#define camlheap_another_bed(first, bed) camlheap_further_bed(first, bed)

/* Puts a domain to rest: the handle is empty then. DONE, NO_BED, NO_DOMAIN, CLOSED, BUSY where its last command isn't made yet,
 * BED_FULL, or AGAIN where another thread is in the way, which is rare; nothing has changed else. It costs about a queue's push. */
uint32_t camlheap_rest(camlheap_domain *domain, camlheap_bed *bed);

/* Takes the domain back, into a handle that holds none. It is open as it was and has made no command meanwhile, and finalisers
 * of it may have run. DONE, NO_BED, HAS_DOMAIN, BED_EMPTY, or AGAIN where another thread turns it at the moment. */
uint32_t camlheap_resume(camlheap_domain *domain, camlheap_bed *bed);

/* One turn of a domain that rests in the room, if one can be had at once: AGAIN where it did something, WAITING, or NO_BED. Which of
 * the first two is a hint of whether it is worth while to ask again, and no more. */
uint32_t camlheap_attend(camlheap_bed *bed);

/* What a thread does with its domain before it goes away: the domain is closed, at once or behind the command that it has to
 * make, and left in the bed, which is freed: whoever waits with another bed of the room turns it to its end. The room frees it
 * with the last bed. DONE, and both handles are empty; NO_BED, NO_DOMAIN, or BED_FULL, and nothing has changed; or AGAIN where
 * another thread is in the way, which is rare: ask again. */
uint32_t camlheap_leave(camlheap_domain *domain, camlheap_bed *bed);

/* Frees a bed, and the room with the last of them. A domain that rests there can't be taken back then: while other beds of the
 * room are there it is turned, but doesn't end, and the others of its heap wait for ever when they end; so camlheap_leave it
 * instead. DONE, or AGAIN where the bed keeps another thread's domain that it couldn't put back, since others were in the way,
 * which is rare: then nothing has changed. */
uint32_t camlheap_free_bed(camlheap_bed *bed);

/* What a thread does while it waits for others: between turns it spins, for CAMLHEAP_SPINS pauses of the processor in all, and
 * only behind them CAMLHEAP_PAUSE() lets others run. A program may define both. */
#ifndef CAMLHEAP_PAUSE
#include <sched.h>
#define CAMLHEAP_PAUSE() sched_yield()
#endif
#ifndef CAMLHEAP_SPINS
#define CAMLHEAP_SPINS 4096
#endif
static inline void camlheap_spin(void) {
#if defined(__x86_64__) || defined(__i386__)
  __builtin_ia32_pause();
#elif defined(__aarch64__)
  __asm__ volatile("yield");
#endif
}
static inline void camlheap_back_off(unsigned *spun) {
  if (*spun >= CAMLHEAP_SPINS) {
    CAMLHEAP_PAUSE();
    return;
  }
  const unsigned more = *spun < 127 ? *spun + 1 : 128;
  for (unsigned at = 0; at < more; at++) camlheap_spin();
  *spun += more;
}

/* With the environment variable CAMLHEAP_WATCH=S a wait says on standard error, once, that it has lasted S seconds. It looks at
 * the clock once in 4096 times. */
#ifndef CAMLHEAP_NO_WATCH
#include <stdio.h>
#include <stdlib.h>
#include <time.h>
typedef struct { unsigned spun, looks; time_t since; bool has_said; } camlheap_waits;
static inline void camlheap_watch(camlheap_waits *waits) {
  const char *seconds;
  time_t now;
  if (++waits->looks % 4096 || waits->has_said || !(seconds = getenv("CAMLHEAP_WATCH"))) return;
  now = time(NULL);
  if (!waits->since) waits->since = now;
  if (now - waits->since < atol(seconds)) return;
  waits->has_said = true;
  fprintf(stderr, "camlheap: a domain has waited %s seconds for others of its heap: is each turned by a thread, at rest, or left?\n", seconds);
}
#else
typedef struct { unsigned spun; } camlheap_waits;
static inline void camlheap_watch(camlheap_waits *waits) { (void)waits; }
#endif
static inline camlheap_waits camlheap_no_waits(void) {
  camlheap_waits waits;
  memset(&waits, 0, sizeof waits);
  return waits;
}

/* One wait, but it first turns a domain that rests, where the thread has a bed. */
static inline void camlheap_wait_on(camlheap_bed *bed, camlheap_waits *waits) {
  camlheap_watch(waits);
  if (!bed || camlheap_attend(bed) != CAMLHEAP_AGAIN) camlheap_back_off(&waits->spun);
}
static inline void camlheap_wait(camlheap_bed *bed) {
  if (!bed || camlheap_attend(bed) != CAMLHEAP_AGAIN) CAMLHEAP_PAUSE();
}

/* Goes on with a command until it is made, from what the call that began it has answered, or from AGAIN where it was handed in
 * before, as where a wait was interrupted and the next command is BUSY. Other threads have to turn the other domains, or these rest
 * in the room of the bed; it is NULL where the thread has none. */
static inline uint32_t camlheap_await_beside(camlheap_domain *domain, camlheap_bed *bed, uint32_t told, camlheap_reply *reply) {
  camlheap_waits waits = camlheap_no_waits();
  while (told == CAMLHEAP_AGAIN || told == CAMLHEAP_WAITING) {
    if (told == CAMLHEAP_WAITING) camlheap_wait_on(bed, &waits);
    told = camlheap_run(domain, 64, reply);
  }
  return told;
}
static inline uint32_t camlheap_await(camlheap_domain *domain, uint32_t told, camlheap_reply *reply) {
  return camlheap_await_beside(domain, NULL, told, reply);
}

/* Makes a command, and waits for its reply: DONE, or why it wasn't taken. */
static inline uint32_t camlheap_perform_beside(camlheap_domain *domain, camlheap_bed *bed, const camlheap_command *command, camlheap_reply *reply) {
  return camlheap_await_beside(domain, bed, camlheap_call(domain, command, 64, reply), reply);
}
static inline uint32_t camlheap_perform(camlheap_domain *domain, const camlheap_command *command, camlheap_reply *reply) {
  return camlheap_perform_beside(domain, NULL, command, reply);
}

/* Turns a domain until it has nothing left to do: what a call on a map wants that answered AGAIN. */
static inline void camlheap_settle_beside(camlheap_domain *domain, camlheap_bed *bed) {
  camlheap_waits waits = camlheap_no_waits();
  uint32_t told;
  while ((told = camlheap_turn(domain)) == CAMLHEAP_AGAIN || told == CAMLHEAP_WAITING)
    if (told == CAMLHEAP_WAITING) camlheap_wait_on(bed, &waits);
}
static inline void camlheap_settle(camlheap_domain *domain) {
  camlheap_settle_beside(domain, NULL);
}

/* A walk over a weak map by commands of one domain: how it goes, and what it has met. Registers 8 to 14 hold what the fields hold
 * at which it stands, the highest first; register 15 is used between. */
typedef struct {
  camlheap_domain *domain;
  camlheap_bed *bed;
  uint32_t told;         /* DONE, or why the walk has ended */
  int64_t most;          /* of how many leaves that have lost their key it has enough */
  int64_t live, taken;   /* leaves that have their key, and such as had lost it and were taken out */
  bool sweeps, cleans;   /* takes dead leaves out; and gives blocks back that hold nothing */
} camlheap_walk;

/* Makes a command of a walk. */
static inline uint32_t camlheap_step(camlheap_walk *walk, uint8_t op, uint8_t dst, uint8_t a, uint8_t b, uint16_t n) {
  camlheap_command command = {0, 0, 0, 0, 0, 0, 0, 0};
  camlheap_reply reply;
  reply.kind = CAMLHEAP_NONE;
  command.op = op, command.dst = dst, command.a = a, command.b = b, command.n = n;
  if (walk->told == CAMLHEAP_DONE) walk->told = camlheap_perform_beside(walk->domain, walk->bed, &command, &reply);
  return reply.kind;
}

/* Walks over fields `from` to `past` of the block in a register, below which there may be `left` blocks in a row. Tells whether
 * these fields hold 0 then. Others may use the map meanwhile, but for a walk that cleans. */
static inline bool camlheap_walk_block(camlheap_walk *walk, uint8_t block, uint8_t left, uint16_t from, uint16_t past) {
  const uint8_t value = (uint8_t)(14 - left);
  bool is_empty = true;
  for (uint16_t index = from; index < past && walk->told == CAMLHEAP_DONE; index++) {
    if (walk->taken >= walk->most) return false;
    if (camlheap_step(walk, CAMLHEAP_LOAD, value, block, 0, index) != CAMLHEAP_BLOCK) continue;
    const uint32_t key = camlheap_step(walk, CAMLHEAP_GET_KEY, 15, value, 0, 0);
    bool is_spent = key == CAMLHEAP_NONE;
    if (key == CAMLHEAP_BAD_TYPE) {
      is_spent = left && camlheap_walk_block(walk, value, (uint8_t)(left - 1), 0, 32) && walk->cleans;
    } else if (!is_spent) walk->live++;
    if (!is_spent || !walk->sweeps) {
      is_empty = false;
      continue;
    }
    camlheap_command zero = {CAMLHEAP_PUT_INT, 15, 0, 0, 0, 0, 0, 0};
    camlheap_reply reply;
    if (walk->told == CAMLHEAP_DONE) walk->told = camlheap_perform_beside(walk->domain, walk->bed, &zero, &reply);
    if (camlheap_step(walk, CAMLHEAP_CAS, value, block, 15, index) != CAMLHEAP_YES) is_empty = false;
    else if (key == CAMLHEAP_NONE) walk->taken++;
  }
  return is_empty;
}

/* Walks over the map in a register, from a field of its first block on, and round, and empties registers 8 to 15 behind it. Tells
 * whether the map holds nothing. */
static inline bool camlheap_walk_map(camlheap_walk *walk, uint8_t map, uint16_t from, camlheap_reply *reply) {
  camlheap_reply held;
  walk->told = camlheap_show(walk->domain, map, &held);
  if (walk->told == CAMLHEAP_DONE && map >= 8) walk->told = CAMLHEAP_NO_REGISTER;
  const uint32_t root = camlheap_step(walk, CAMLHEAP_LOAD, 8, map, 0, 511);
  const bool is_map = root != CAMLHEAP_BAD_TYPE && root != CAMLHEAP_BAD_INDEX;
  bool is_empty = is_map && camlheap_walk_block(walk, map, 6, from, 512);
  if (is_map && from && !camlheap_walk_block(walk, map, 6, 0, from)) is_empty = false;
  for (uint8_t reg = 8; reg < 16; reg++) camlheap_step(walk, CAMLHEAP_FORGET, reg, 0, 0, 0);
  if (walk->told == CAMLHEAP_DONE && !is_map) reply->kind = CAMLHEAP_BAD_TYPE;
  return is_empty;
}

/* Takes the leaves out of a weak map whose key is dead, which else stay, each with its ephemeron: DONE, and INT, how many; or
 * DONE and type where the register holds no map; or why a command of it isn't taken. Others may use the map meanwhile: each leaf
 * is taken out by one compare-and-set, and no binding changes. Blocks of the map stay. Registers 8 to 15 are used, and hold
 * nothing behind it. Other domains have to be turned, as for camlheap_perform. */
static inline uint32_t camlheap_map_sweep_beside(camlheap_domain *domain, camlheap_bed *bed, uint8_t map, camlheap_reply *reply) {
  camlheap_walk walk = {domain, bed, CAMLHEAP_DONE, INT64_MAX, 0, 0, true, false};
  camlheap_reply told = {CAMLHEAP_INT, 0, 0, 0, 0, 0, 0};
  camlheap_walk_map(&walk, map, 0, &told);
  told.value = told.kind == CAMLHEAP_INT ? walk.taken : 0;
  if (walk.told == CAMLHEAP_DONE) *reply = told;
  return walk.told;
}
static inline uint32_t camlheap_map_sweep(camlheap_domain *domain, uint8_t map, camlheap_reply *reply) {
  return camlheap_map_sweep_beside(domain, NULL, map, reply);
}

/* The same of a map that no other domain uses meanwhile: its blocks that hold nothing any more are given back too, but for the
 * first. DONE, and yes where the map holds nothing then, or no. */
static inline uint32_t camlheap_map_clean_beside(camlheap_domain *domain, camlheap_bed *bed, uint8_t map, camlheap_reply *reply) {
  camlheap_walk walk = {domain, bed, CAMLHEAP_DONE, INT64_MAX, 0, 0, true, true};
  camlheap_reply told = {CAMLHEAP_NO, 0, 0, 0, 0, 0, 0};
  if (camlheap_walk_map(&walk, map, 0, &told)) told.kind = CAMLHEAP_YES;
  if (walk.told == CAMLHEAP_DONE) *reply = told;
  return walk.told;
}
static inline uint32_t camlheap_map_clean(camlheap_domain *domain, uint8_t map, camlheap_reply *reply) {
  return camlheap_map_clean_beside(domain, NULL, map, reply);
}

/* How many keys a weak map binds, where no other domain writes to it meanwhile: DONE, and INT or type; or why a command of it
 * isn't taken. Registers as camlheap_map_sweep. */
static inline uint32_t camlheap_map_count_beside(camlheap_domain *domain, camlheap_bed *bed, uint8_t map, camlheap_reply *reply) {
  camlheap_walk walk = {domain, bed, CAMLHEAP_DONE, INT64_MAX, 0, 0, false, false};
  camlheap_reply told = {CAMLHEAP_INT, 0, 0, 0, 0, 0, 0};
  camlheap_walk_map(&walk, map, 0, &told);
  told.value = told.kind == CAMLHEAP_INT ? walk.live : 0;
  if (walk.told == CAMLHEAP_DONE) *reply = told;
  return walk.told;
}
static inline uint32_t camlheap_map_count(camlheap_domain *domain, uint8_t map, camlheap_reply *reply) {
  return camlheap_map_count_beside(domain, NULL, map, reply);
}

/* Makes room for a binding: takes dead leaves out, as many as a quarter of the domain's ephemerons or all that there are, from the
 * field of the map on that the number of the domain's labels tells, and then has them freed by a complete collection. */
static inline uint32_t camlheap_map_room_beside(camlheap_domain *domain, camlheap_bed *bed, uint8_t map) {
  const camlheap_command full = {CAMLHEAP_FULL_MAJOR, 0, 0, 0, 0, 0, 0, 0};
  camlheap_counts counts;
  camlheap_reply reply;
  const uint32_t told = camlheap_stats(domain, &counts);
  if (told != CAMLHEAP_DONE) return told;
  camlheap_walk walk = {domain, bed, CAMLHEAP_DONE, (int64_t)(counts.ephemerons / 4 + 1), 0, 0, true, false};
  camlheap_walk_map(&walk, map, (uint16_t)(counts.labels % 512), &reply);
  return walk.told == CAMLHEAP_DONE ? camlheap_perform_beside(domain, bed, &full, &reply) : walk.told;
}

/* Puts a binding into a weak map, and asks anew while that helps: behind turns, then behind a MINOR, and then behind a sweep of a
 * piece of the map and a FULL_MAJOR, which make room for blocks and in the list of ephemerons; the last two once more, since the
 * first FULL_MAJOR may be what empties the keys that died. What camlheap_map_put answers:
 * AGAIN or NO_EPHEMERON only where there is still no room, or others have won the field each time. Where it has to make room it
 * uses registers 8 to 15. A map keeps a leaf for each key that lives, and its blocks. */
static inline uint32_t camlheap_map_bind_beside(camlheap_domain *domain, camlheap_bed *bed, uint8_t map, uint8_t key, uint8_t item, camlheap_reply *reply) {
  const camlheap_command minor = {CAMLHEAP_MINOR, 0, 0, 0, 0, 0, 0, 0};
  camlheap_reply made;
  for (int rooms = 0;; rooms++) {
    uint32_t told;
    for (int asked = 0; (told = camlheap_map_put(domain, map, key, item, &made)) == CAMLHEAP_AGAIN && asked < 8; asked++)
      camlheap_settle_beside(domain, bed);
    const bool is_full = told == CAMLHEAP_DONE && made.kind == CAMLHEAP_FULL;
    if ((told != CAMLHEAP_AGAIN && told != CAMLHEAP_NO_EPHEMERON && !is_full) || rooms == 3) {
      if (told == CAMLHEAP_DONE) *reply = made;
      return told;
    }
    told = rooms ? camlheap_map_room_beside(domain, bed, map) : camlheap_perform_beside(domain, bed, &minor, &made);
    if (told != CAMLHEAP_DONE) return told;
  }
}
static inline uint32_t camlheap_map_bind(camlheap_domain *domain, uint8_t map, uint8_t key, uint8_t item, camlheap_reply *reply) {
  return camlheap_map_bind_beside(domain, NULL, map, key, item, reply);
}

/* Waits until the domain that rests in a bed is back. */
static inline uint32_t camlheap_come_back(camlheap_domain *domain, camlheap_bed *bed) {
  camlheap_waits waits = camlheap_no_waits();
  uint32_t told;
  while ((told = camlheap_resume(domain, bed)) == CAMLHEAP_AGAIN) camlheap_wait_on(NULL, &waits);
  return told;
}

/* Closes a domain, turns it until all have ended, and frees it: ENDED, or why it can't be closed. Until then it takes part
 * in the pauses of the others. Finalisers that weren't taken go with it, and those that a collection has found run in these turns:
 * to hear of them close, turn until ENDED, camlheap_take_ran, and free. What none has found never runs. */
static inline uint32_t camlheap_finish_beside(camlheap_domain *domain, camlheap_bed *bed) {
  camlheap_waits waits = camlheap_no_waits();
  uint32_t told = camlheap_close(domain);
  if (told != CAMLHEAP_DONE && told != CAMLHEAP_CLOSED) return told;
  while ((told = camlheap_turn(domain)) != CAMLHEAP_ENDED && told < CAMLHEAP_NO_DOMAIN)
    if (told != CAMLHEAP_AGAIN) camlheap_wait_on(bed, &waits);
  if (told == CAMLHEAP_ENDED) camlheap_free(domain);
  return told;
}
static inline uint32_t camlheap_finish(camlheap_domain *domain) { return camlheap_finish_beside(domain, NULL); }

#ifdef __cplusplus
}
#endif
#endif
