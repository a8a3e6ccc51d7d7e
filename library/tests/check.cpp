// Tries the header for C++: each call, what is thrown, finalisers that call functions, and seats that are left. Ends with 0 where all is
// as it should be.
#include "camlheap.hpp"
#include <cstdlib>

#define CHECK(fact) do { if (!(fact)) { std::fprintf(stderr, "line %d: %s\n", __LINE__, #fact); std::exit(1); } } while (0)

using camlheap::Seat;

static camlheap::Command alloc(std::uint8_t dst) { return {CAMLHEAP_ALLOC, dst, 0, 0, 0, 1, 0, 0}; }
static camlheap::Command forget(std::uint8_t dst) { return {CAMLHEAP_FORGET, dst, 0, 0, 0, 0, 0, 0}; }
static constexpr camlheap::Command full_major{CAMLHEAP_FULL_MAJOR, 0, 0, 0, 0, 0, 0, 0};
static constexpr camlheap::Command poll{CAMLHEAP_POLL, 0, 0, 0, 0, 0, 0, 0};

static void finalisers() {
  auto seat = std::move(camlheap::start({1, 4096, 64, 4, 8}).front());
  int called = 0;
  seat.perform(alloc(1));
  CHECK(seat.finalise_last(1, [](camlheap::Reply) { throw std::runtime_error("an exception that the check asks for"); }).kind == CAMLHEAP_OK);
  CHECK(seat.finalise_last(1, [&](camlheap::Reply) { called++; }).kind == CAMLHEAP_OK);
  CHECK(seat.finalise_last(2, [&](camlheap::Reply) { called += 10; }).kind == CAMLHEAP_BAD_TYPE);
  CHECK(seat.perform({CAMLHEAP_FINALISE_LAST, 0, 1, 0, 0, 0, 7, 0}).kind == CAMLHEAP_OK);
  seat.perform(forget(1));
  seat.perform(full_major);
  for (int i = 0; i < 4; i++) seat.perform(poll);
  const auto ran = seat.take_ran();
  CHECK(ran && ran->kind == CAMLHEAP_LAST && ran->number == 7 && !seat.take_ran() && called == 1);
  seat.finish();
}

static void maps() {
  auto seat = std::move(camlheap::start({1, 4096, 64, 4, 8}).front());
  CHECK(seat.map_make(7).kind == CAMLHEAP_BLOCK);
  seat.perform(alloc(1));
  seat.perform({CAMLHEAP_PUT_INT, 2, 0, 0, 0, 0, 0, 42});
  CHECK(!seat.map_get(3, 7, 1) && seat.map_put(7, 1, 2).kind == CAMLHEAP_OK);
  const auto bound = seat.map_get(3, 7, 1);
  CHECK(bound && bound->value == 42 && seat.show(3).value == 42);
  CHECK(seat.map_take(7, 1) && !seat.map_take(7, 1));
  CHECK(seat.stats().labels >= 3);
  try { seat.show(16); CHECK(false); } catch (const camlheap::Refused &why) { CHECK(why.code == CAMLHEAP_NO_REGISTER); }
  seat.finish();
}

template <class Leave> static void goes_on_without(Leave leave) {
  auto seats = camlheap::start({2, 4096, 128, 4, 8});
  leave(std::move(seats[0]));
  CHECK(seats[1].perform(full_major).kind == CAMLHEAP_LIVE);
  seats[1].finish();
}

int main() {
  finalisers();
  maps();
  goes_on_without([](Seat seat) { seat.perform(alloc(1)); });
  goes_on_without([](Seat seat) { seat.rest(); });
  goes_on_without([](Seat seat) { try { const Seat held = std::move(seat); throw 1; } catch (int) {} });
  try { camlheap::start({9, 4096, 64, 4, 8}); CHECK(false); } catch (const camlheap::Refused &why) { CHECK(why.code == CAMLHEAP_OUTSIDE + 1); }
}
