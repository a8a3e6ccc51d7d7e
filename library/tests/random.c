/* All calls at random: random words for every argument, several domains and beds in every state, handles that are emptied and
 * filled again. Ends with 0 where each call answers a number that the header names for it, writes its answer only where it says
 * so, and leaves handles full or empty as it says. Built with an address sanitizer it finds what is lost. Takes the number of
 * calls, and a seed. */
#include "check.h"
#include <stdlib.h>

enum { DOMAINS = 3, BEDS = 3 };

static camlheap_domain domains[DOMAINS];
static camlheap_bed beds[BEDS];
static uint64_t state = 1;

/* Finalisers have numbers of their own, each is told once at most. */
enum { NUMBERS = 1 << 22 };
static uint32_t last_number;
static bool is_told[NUMBERS];

/* The next random word, by xorshift. */
static uint64_t word(void) {
  state ^= state << 13, state ^= state >> 7, state ^= state << 17;
  return state;
}

/* A number below one, mostly; and else any. */
static uint32_t below(uint32_t most) {
  uint64_t it = word();
  return it % 32 ? (uint32_t)((it >> 8) % most) : (uint32_t)(it >> 32);
}

static camlheap_domain *domain(void) { return &domains[word() % DOMAINS]; }

static camlheap_bed *bed(void) { return &beds[word() % BEDS]; }

static uint8_t reg(void) { return (uint8_t)below(8); }

static camlheap_command command(void) {
  camlheap_command it = {.op = (uint8_t)below(24), .dst = (uint8_t)below(16), .a = (uint8_t)below(16), .b = (uint8_t)below(16)};
  it.tag = it.op == CAMLHEAP_RAW ? (uint8_t)(251 + word() % 5) : (uint8_t)below(246);
  it.n = (uint16_t)below(it.op == CAMLHEAP_EPHE ? 9 : word() % 64 ? 20 : 1024);
  it.number = last_number = (last_number + 1) % NUMBERS;
  is_told[it.number] = false;
  it.value = word() % 8 ? (int64_t)(word() % 1000) : (int64_t)word();
  return it;
}

static const camlheap_reply UNTOUCHED = {77, 77, 77, 77, -77, 77, 77};

static bool is_untouched(const camlheap_reply *reply) {
  return reply->kind == 77 && reply->domain == 77 && reply->serial == 77 && reply->number == 77 && reply->value == -77 && reply->blocks == 77 && reply->words == 77;
}

/* A number is one of these, each a bit. */
#define ONE_OF(told, bits) CHECK((told) < 32 && (1ull << (told) & (bits)))
#define BIT(code) (1ull << CAMLHEAP_##code)
#define REFUSED (BIT(NO_DOMAIN) | BIT(CLOSED) | BIT(BUSY))
#define UNTAKEN (REFUSED | BIT(UNFIT) | BIT(NO_EPHEMERON) | BIT(NO_FINALISER) | BIT(NO_LABEL))
#define CAME (BIT(AGAIN) | BIT(WAITING) | BIT(HUNGRY) | BIT(ENDED))

/* What a call with a reply has answered: a number of these, and a reply with DONE alone. */
static void read(const camlheap_domain *of, bool was_full, uint32_t told, uint64_t bits, const camlheap_reply *reply) {
  ONE_OF(told, bits);
  CHECK((told == CAMLHEAP_DONE) != is_untouched(reply));
  CHECK(of->full == was_full && (told == CAMLHEAP_NO_DOMAIN) == !was_full);
}

static void drives(void) {
  camlheap_domain *it = domain();
  camlheap_command c = command();
  camlheap_reply reply = UNTOUCHED;
  bool was_full = it->full;
  switch (word() % 4) {
    case 0: {
      uint32_t told = camlheap_submit(it, &c);
      ONE_OF(told, BIT(DONE) | UNTAKEN);
      break;
    }
    case 1: {
      uint32_t told = camlheap_turn(it);
      ONE_OF(told, CAME | BIT(NO_DOMAIN));
      break;
    }
    case 2: {
      uint32_t told = camlheap_run(it, (uint32_t)(word() % 9), &reply);
      read(it, was_full, told, BIT(DONE) | CAME | BIT(NO_DOMAIN), &reply);
      break;
    }
    default: {
      uint32_t told = camlheap_call(it, &c, (uint32_t)(word() % 9), &reply);
      read(it, was_full, told, BIT(DONE) | (CAME & ~BIT(ENDED)) | UNTAKEN, &reply);
    }
  }
  CHECK(it->full == was_full);
}

static void calls_directly(void) {
  camlheap_domain *it = domain();
  camlheap_command c = command();
  camlheap_reply reply = UNTOUCHED;
  bool was_full = it->full;
  uint32_t told;
  switch (word() % 13) {
    case 0: told = camlheap_put_int(it, c.dst, c.value, &reply); break;
    case 1: told = camlheap_copy(it, c.dst, c.a, &reply); break;
    case 2: told = camlheap_forget(it, c.dst, &reply); break;
    case 3: told = camlheap_alloc(it, c.dst, c.tag, c.n, &reply); break;
    case 4: told = camlheap_load(it, c.dst, c.a, c.n, &reply); break;
    case 5: told = camlheap_store(it, c.a, c.n, c.b, &reply); break;
    case 6: told = camlheap_cas(it, c.a, c.n, c.dst, c.b, &reply); break;
    case 7: told = camlheap_set_key(it, c.a, c.n, c.b, &reply); break;
    case 8: told = camlheap_get_key(it, c.dst, c.a, c.n, &reply); break;
    case 9: told = camlheap_check_key(it, c.a, c.n, &reply); break;
    case 10: told = camlheap_set_data(it, c.a, c.b, &reply); break;
    case 11: told = camlheap_get_data(it, c.dst, c.a, &reply); break;
    default: told = camlheap_poll(it, &reply);
  }
  read(it, was_full, told, BIT(DONE) | BIT(AGAIN) | UNTAKEN, &reply);
}

static void maps(void) {
  camlheap_domain *it = domain();
  camlheap_reply reply = UNTOUCHED;
  bool was_full = it->full;
  uint32_t told;
  switch (word() % 4) {
    case 0: told = camlheap_map_make(it, reg(), &reply); break;
    case 1: told = camlheap_map_get(it, reg(), reg(), reg(), &reply); break;
    case 2: told = camlheap_map_put(it, reg(), reg(), reg(), &reply); break;
    default: told = camlheap_map_take(it, reg(), reg(), &reply);
  }
  read(it, was_full, told, BIT(DONE) | BIT(AGAIN) | REFUSED | BIT(NO_REGISTER) | BIT(NO_LABEL) | BIT(NO_EPHEMERON), &reply);
}

static void tells(void) {
  camlheap_domain *it = domain();
  camlheap_reply reply = UNTOUCHED;
  camlheap_counts counts;
  camlheap_way way = {.kind = 77};
  uint16_t fields[5] = {7, 7, 7, 7, 7};
  bool was_full = it->full;
  uint32_t told;
  switch (word() % 5) {
    case 0: read(it, was_full, camlheap_answer(it, &reply), BIT(DONE) | BIT(AGAIN) | BIT(NO_DOMAIN), &reply); break;
    case 1: read(it, was_full, camlheap_ran(it, below(4), &reply), BIT(DONE) | BIT(NO_MORE) | BIT(NO_DOMAIN), &reply); break;
    case 2: read(it, was_full, camlheap_show(it, (uint8_t)below(16), &reply), BIT(DONE) | BIT(NO_REGISTER) | BIT(NO_DOMAIN), &reply); break;
    case 3:
      told = camlheap_stats(it, &counts);
      ONE_OF(told, BIT(DONE) | BIT(NO_DOMAIN));
      break;
    default: {
      uint32_t room = (uint32_t)(word() % 5);
      told = camlheap_why(it, below(4), below(200), (uint32_t)(word() % 40), &way, fields, room);
      ONE_OF(told, BIT(DONE) | BIT(AGAIN) | REFUSED | BIT(NO_MORE) | BIT(MEMORY));
      CHECK((told == CAMLHEAP_DONE) == (way.kind <= CAMLHEAP_NO_FIELD) && fields[4] == 7);
    }
  }
}

static void rests(void) {
  camlheap_domain *it = domain();
  camlheap_bed *in = bed(), *other = bed();
  bool was_full = it->full, had_bed = in->full, had_other = other->full;
  uint32_t told;
  switch (word() % 8) {
    case 0: case 1:
      told = camlheap_rest(it, in);
      ONE_OF(told, BIT(DONE) | BIT(AGAIN) | REFUSED | BIT(NO_BED) | BIT(BED_FULL));
      CHECK(it->full == (was_full && told != CAMLHEAP_DONE) && in->full == had_bed);
      break;
    case 2: case 3: case 4:
      told = camlheap_resume(it, in);
      ONE_OF(told, BIT(DONE) | BIT(AGAIN) | BIT(NO_BED) | BIT(HAS_DOMAIN) | BIT(BED_EMPTY));
      CHECK(it->full == (was_full || told == CAMLHEAP_DONE) && in->full == had_bed && (told == CAMLHEAP_HAS_DOMAIN) == was_full);
      break;
    case 5:
      told = camlheap_attend(in);
      ONE_OF(told, BIT(AGAIN) | BIT(WAITING) | BIT(NO_BED));
      CHECK(in->full == had_bed);
      break;
    case 6:
      if (word() % 8) return;
      told = camlheap_leave(it, in);
      ONE_OF(told, BIT(DONE) | BIT(AGAIN) | BIT(NO_DOMAIN) | BIT(NO_BED) | BIT(BED_FULL));
      CHECK(it->full == (was_full && told != CAMLHEAP_DONE) && in->full == (had_bed && told != CAMLHEAP_DONE));
      break;
    default:
      told = camlheap_another_bed(in, other);
      ONE_OF(told, BIT(DONE) | BIT(AGAIN) | BIT(UNFIT) | BIT(NO_MORE) | BIT(MEMORY) | BIT(NO_BED));
      CHECK(in->full == had_bed && other->full == (had_other || told == CAMLHEAP_DONE) && (told == CAMLHEAP_NO_BED) == !had_bed);
      CHECK(in != other || told != CAMLHEAP_DONE);
  }
}

/* Takes what finalisers have told. */
static void takes(void) {
  camlheap_domain *it = domain();
  camlheap_reply first = UNTOUCHED, reply = UNTOUCHED;
  bool was_full = it->full;
  uint32_t looked = camlheap_ran(it, 0, &first), told = camlheap_take_ran(it, &reply);
  read(it, was_full, told, BIT(DONE) | BIT(NO_MORE) | BIT(NO_DOMAIN), &reply);
  CHECK(looked == told);
  if (told != CAMLHEAP_DONE) return;
  CHECK((reply.kind == CAMLHEAP_FIN || reply.kind == CAMLHEAP_LAST) && reply.kind == first.kind && reply.number == first.number);
  CHECK(reply.number < NUMBERS && !is_told[reply.number]);
  is_told[reply.number] = true;
}

/* Starts a heap, mostly one that there may be, into handles that may be full. */
static void starts(void) {
  uint32_t first = (uint32_t)(word() % DOMAINS), count = (uint32_t)(word() % (DOMAINS - first + 1));
  camlheap_config config = {count ? count : 1, 4096, 0, (uint32_t)(word() % 5), (uint32_t)(word() % 5)};
  config.pools = CAMLHEAP_LEAST_POOLS(config.domains, config.minor_words) + (uint32_t)(word() % 3);
  switch (word() % 24) {
    case 0: config.domains = (uint32_t)word(); break;
    case 1: config.minor_words = (uint32_t)word(); break;
    case 2: config.pools = below(4096); break;
    case 3: config.finals = (uint32_t)word(); break;
    case 4: config.ephes = (uint32_t)word(); break;
    default: break;
  }
  bool is_any_full = false;
  for (uint32_t at = 0; at < count && at < config.domains; at++) is_any_full |= domains[first + at].full;
  uint32_t told = camlheap_start(&config, &domains[first], count);
  if (count < config.domains) CHECK(told == CAMLHEAP_TOO_FEW_HANDLES);
  else if (is_any_full) CHECK(told == CAMLHEAP_HAS_DOMAIN);
  else CHECK(told == CAMLHEAP_DONE || told == CAMLHEAP_MEMORY || (told > CAMLHEAP_OUTSIDE && told <= CAMLHEAP_OUTSIDE + 5));
  if (told == CAMLHEAP_DONE)
    for (uint32_t at = 0; at < config.domains; at++) CHECK(domains[first + at].full);
}

static void empties(void) {
  camlheap_domain *it = domain();
  camlheap_bed *in = bed();
  uint32_t told;
  switch (word() % 5) {
    case 0:
      told = camlheap_close(it);
      ONE_OF(told, BIT(DONE) | REFUSED);
      break;
    case 1:
      camlheap_free(it);
      CHECK(!it->full);
      break;
    case 2:
      told = camlheap_free_bed(in);
      ONE_OF(told, BIT(DONE) | BIT(AGAIN));
      CHECK(told != CAMLHEAP_DONE || !in->full);
      break;
    case 3:
      told = camlheap_first_bed(in);
      ONE_OF(told, BIT(DONE) | BIT(AGAIN) | BIT(MEMORY));
      CHECK(told != CAMLHEAP_DONE || in->full);
      break;
    default: starts();
  }
}

int main(int count, char **words) {
  long calls = count > 1 ? atol(words[1]) : 1000000;
  if (count > 2) state = strtoull(words[2], NULL, 0) | 1;
  for (long at = 0; at < calls; at++) {
    uint64_t kind = word() % 1000;
    if (kind < 350) drives();
    else if (kind < 750) calls_directly();
    else if (kind < 850) maps();
    else if (kind < 900) tells();
    else if (kind < 930) takes();
    else if (kind < 997) rests();
    else empties();
    if (at % 64 == 0) starts();
  }
  for (int at = 0; at < DOMAINS; at++) camlheap_free(&domains[at]);
  for (int at = 0; at < BEDS; at++) CHECK(camlheap_free_bed(&beds[at]) == CAMLHEAP_DONE);
  return ended();
}
