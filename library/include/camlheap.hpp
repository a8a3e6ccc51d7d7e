// camlheap.hpp: the heap of camlheap.h for C++17 and later. Link libcamlheap.a. Every call, command and reply is that of camlheap.h,
// whose comments say what each does; here a seat frees and leaves what it holds, replies have types, and a finaliser calls a function.
#ifndef CAMLHEAP_HPP
#define CAMLHEAP_HPP
#include "camlheap.h"
#include <cstdint>
#include <cstdio>
#include <exception>
#include <functional>
#include <optional>
#include <stdexcept>
#include <string>
#include <thread>
#include <unordered_map>
#include <utility>
#include <vector>

namespace camlheap {

using Register = std::uint8_t;
using Config = camlheap_config;
using Command = camlheap_command;
using Reply = camlheap_reply;

// Why a call wasn't done; nothing has changed then. `code` is the library's number for it.
class Refused : public std::runtime_error {
public:
  explicit Refused(std::uint32_t code) : std::runtime_error(camlheap_says(code)), code(code) {}
  const std::uint32_t code;
};

// A domain with a bed. It moves between threads, and one at a time calls on it. One that goes before it has finished, as where an
// exception unwinds its thread, is left to the others: they turn it to its end where they wait for it.
class Seat {
public:
  Seat() = default;
  Seat(Seat &&other) noexcept { swap(other); }
  Seat &operator=(Seat &&other) noexcept {
    Seat(std::move(other)).swap(*this);
    return *this;
  }
  Seat(const Seat &) = delete;
  Seat &operator=(const Seat &) = delete;
  ~Seat() {
    while (camlheap_resume(&domain, &bed) == CAMLHEAP_AGAIN || camlheap_leave(&domain, &bed) == CAMLHEAP_AGAIN) std::this_thread::yield();
    camlheap_free(&domain);
    while (camlheap_free_bed(&bed) == CAMLHEAP_AGAIN) std::this_thread::yield();
  }

  // Makes a command, and answers its reply. Where a pause is wanted it waits for the other seats of the heap.
  Reply perform(const Command &command) {
    Reply reply{};
    const auto told = camlheap_perform_beside(&domain, &bed, &command, &reply);
    hear();
    return answered(told, reply);
  }

  // What a register holds: CAMLHEAP_INT, CAMLHEAP_BLOCK or CAMLHEAP_NONE.
  Reply show(Register reg) {
    Reply reply{};
    return answered(camlheap_show(&domain, reg, &reply), reply);
  }

  // Has `call` be called, on the thread that calls on this seat, once nothing leads to the block in `item` any more; register `dst`
  // holds it again then. Each registration is called once, behind the call on the seat in which its finaliser ran.
  Reply finalise(Register item, Register dst, std::function<void(Reply)> call) {
    return enlist({CAMLHEAP_FINALISE, dst, item, 0, 0, 0, 0, 0}, std::move(call));
  }

  // The same, once the block in `item` is gone for good.
  Reply finalise_last(Register item, std::function<void(Reply)> call) {
    return enlist({CAMLHEAP_FINALISE_LAST, 0, item, 0, 0, 0, 0, 0}, std::move(call));
  }

  // The oldest finaliser registered by a number of one's own, below 2^31, that has run and wasn't taken yet.
  std::optional<Reply> take_ran() {
    hear();
    if (told.empty()) return std::nullopt;
    const auto oldest = told.front();
    told.erase(told.begin());
    return oldest;
  }

  // What the key in a register is bound to in the weak map in another, into `dst`; none where it isn't bound.
  std::optional<Reply> map_get(Register dst, Register map, Register key) {
    return found([&](Reply *reply) { return camlheap_map_get(&domain, dst, map, key, reply); });
  }
  Reply map_make(Register dst) {
    return ask([&](Reply *reply) { return camlheap_map_make(&domain, dst, reply); });
  }
  Reply map_put(Register map, Register key, Register item) {
    Reply reply{};
    const auto answer = camlheap_map_bind_beside(&domain, &bed, map, key, item, &reply);
    hear();
    return answered(answer, reply);
  }
  // Takes the key's binding out: whether there was one.
  bool map_take(Register map, Register key) {
    return found([&](Reply *reply) { return camlheap_map_take(&domain, map, key, reply); }).has_value();
  }

  camlheap_counts stats() {
    camlheap_counts counts{};
    answered(camlheap_stats(&domain, &counts), {});
    return counts;
  }

  // One turn, for a thread that has no command now: whether the traces of all seats have ended.
  bool turn() {
    const auto turned = camlheap_turn(&domain);
    if (turned == CAMLHEAP_WAITING) camlheap_wait(&bed);
    hear();
    return turned == CAMLHEAP_ENDED;
  }

  // The seat needn't be waited for until `resume`; it can do nothing else meanwhile.
  void rest() { settle([&] { return camlheap_rest(&domain, &bed); }); }
  void resume() {
    settle([&] { return camlheap_resume(&domain, &bed); });
    hear();
  }

  // No command comes any more. Waits until the other seats are finished or left too.
  void finish() {
    answered(camlheap_close(&domain), {});
    while (!turn()) {}
    camlheap_free(&domain);
  }

  camlheap_domain domain{};
  camlheap_bed bed{};

private:
  // The finalisers that call a function have the numbers from this one on.
  std::uint32_t next = std::uint32_t{1} << 31;
  std::unordered_map<std::uint32_t, std::function<void(Reply)>> calls;
  std::vector<Reply> told;

  void swap(Seat &other) noexcept {
    std::swap(domain, other.domain);
    std::swap(bed, other.bed);
    std::swap(next, other.next);
    calls.swap(other.calls);
    told.swap(other.told);
  }

  static Reply answered(std::uint32_t code, Reply reply) {
    if (code != CAMLHEAP_DONE) throw Refused(code);
    return reply;
  }

  template <class Call> static void settle(Call call) {
    std::uint32_t code;
    while ((code = call()) == CAMLHEAP_AGAIN) std::this_thread::yield();
    answered(code, {});
  }

  Reply enlist(Command command, std::function<void(Reply)> call) {
    command.number = next++;
    if (next == 0) next = std::uint32_t{1} << 31;
    calls[command.number] = std::move(call);
    Reply made{};
    made.kind = CAMLHEAP_BAD_TYPE;
    try { made = perform(command); } catch (...) { calls.erase(command.number); throw; }
    if (made.kind != CAMLHEAP_OK) calls.erase(command.number);
    return made;
  }

  // Takes the finalisers that have run, and calls what is to be called. What a call throws is reported, and the next one is made.
  void hear() {
    Reply ran{};
    while (camlheap_take_ran(&domain, &ran) == CAMLHEAP_DONE) {
      const auto at = calls.find(ran.number);
      if (at == calls.end()) { told.push_back(ran); continue; }
      const auto call = std::move(at->second);
      calls.erase(at);
      try { call(ran); } catch (const std::exception &why) { std::fprintf(stderr, "camlheap: what a finaliser called threw: %s\n", why.what()); }
      catch (...) { std::fputs("camlheap: what a finaliser called threw\n", stderr); }
    }
  }

  // Asks a call on a map anew while that helps: after turns, and then after collections, which make room.
  template <class Call> Reply ask(Call call) {
    Reply reply{}, made{};
    std::uint32_t code = call(&reply);
    for (const std::uint8_t room : {CAMLHEAP_POLL, CAMLHEAP_MINOR, CAMLHEAP_FULL_MAJOR}) {
      for (int times = 0; code == CAMLHEAP_AGAIN && times < 8; times++) {
        while (camlheap_turn(&domain) == CAMLHEAP_AGAIN) {}
        code = call(&reply);
      }
      if (code != CAMLHEAP_AGAIN && code != CAMLHEAP_NO_EPHEMERON) break;
      const Command makes{room, 0, 0, 0, 0, 0, 0, 0};
      answered(camlheap_perform_beside(&domain, &bed, &makes, &made), made);
      code = call(&reply);
    }
    hear();
    return answered(code, reply);
  }

  template <class Call> std::optional<Reply> found(Call call) {
    const auto reply = ask(call);
    if (reply.kind == CAMLHEAP_NONE) return std::nullopt;
    return reply;
  }
};

// A heap of this size: a seat for each of its domains, in order.
inline std::vector<Seat> start(const Config &config) {
  std::vector<camlheap_domain> handles(config.domains <= 64 ? config.domains : 64);
  std::vector<Seat> seats(handles.size());
  const auto told = camlheap_start(&config, handles.data(), handles.size());
  if (told != CAMLHEAP_DONE) throw Refused(told);
  for (std::size_t i = 0; i < seats.size(); i++) camlheap_move(&seats[i].domain, &handles[i]);
  for (auto &seat : seats) {
    const auto made = &seat == &seats.front() ? camlheap_first_bed(&seat.bed) : camlheap_another_bed(&seats.front().bed, &seat.bed);
    if (made != CAMLHEAP_DONE) throw Refused(made);
  }
  return seats;
}

}  // namespace camlheap
#endif
