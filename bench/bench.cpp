// The benchmark: both engines on the same nets, side by side in one run, in turn. See docs/speed.md.
//
//   bench time             nanoseconds of both engines and the ratio
//   bench space            peak stack of the calls, and what a net takes from the heap
//   bench cases            how many cases there are
//   bench only ENGINE N    makes the calls of case N / 2 once, by this engine (0) or the second one (1); where N is odd, only those that are taken off
//   bench times N          how often case N makes what it measures, and whether something is taken off
#include "../compare/engine.cpp"

#include <malloc.h>
#include <pthread.h>

#include <algorithm>
#include <chrono>
#include <cstdio>
#include <cstdlib>
#include <cstring>
#include <functional>
#include <memory>
#include <string>
#include <vector>

extern "C" {
#include "../include/dagrelk.h"
// Four numbers are a call. The pointer and the length of a slice are two parameters.
std::uint64_t bench_calls(std::uint32_t space, std::uint32_t price, const std::int32_t* calls, std::size_t count);
}

namespace {

// ---- calls -------------------------------------------------------------------------------------------------------------------------

enum Code { kPin = 1, kAllow, kSteiner, kEdge, kUnseed, kSpan, kStraight, kHook, kRows, kPaths, kJoined, kShare };

struct Calls {
  std::vector<std::int32_t> numbers;
  std::uint32_t space = 0;  // 0: plane, 1: air
  void add(int code, int a = 0, int b = 0, int c = 0) {
    for (int n : {code, a, b, c}) numbers.push_back(n);
  }
  void add_times(int times, int code, int a = 0) {
    for (int i = 0; i < times; ++i) add(code, a);
  }
};

std::uint64_t mixed(std::uint64_t sum, std::uint64_t value) { return (sum ^ value) * 0x100000001B3u; }

template <class A>
std::uint64_t told(const A& answer) {
  if (!answer.ok()) return 1000000000000u + static_cast<std::uint64_t>(answer.fault);
  return answer.value;
}

template <class N>
std::uint64_t rows_of(const N& net) {
  const auto count = net.rows();
  if (!count.ok()) return 0;
  std::uint64_t sum = 0;
  for (std::size_t k = 0; k < count.value; ++k) {
    const auto row = net.row(k).value;
    sum = mixed(sum, row.parent);
    sum = mixed(sum, static_cast<std::uint64_t>(std::abs(row.spot.x)));
    sum = mixed(sum, static_cast<std::uint64_t>(std::abs(row.spot.y)));
    sum = mixed(sum, static_cast<std::uint64_t>(row.length));
  }
  return sum;
}

template <class N>
std::uint64_t paths_of(const N& net, std::size_t pins) {
  std::uint64_t sum = 0;
  for (std::size_t k = 0; k < pins; ++k) {
    const auto path = net.path(k);
    if (path.ok()) sum = mixed(sum, path.value.path);
  }
  const auto worst = net.worst();
  return worst.ok() ? mixed(sum, worst.value.figure) : sum;
}

template <class S>
std::uint64_t calls_on(S space, const std::int32_t* calls, std::size_t count) {
  auto net = std::make_unique<second::Net<S>>(space);
  std::uint64_t sum = 0;
  for (std::size_t i = 0; i + 4 <= count; i += 4) {
    const std::int32_t* c = calls + i;
    std::uint64_t answer = 0;
    switch (c[0]) {
      case kPin: answer = told(net->pin({c[1], c[2], c[3]})); break;
      case kAllow: answer = told(net->allow(c[1], c[2])); break;
      case kSteiner: answer = told(net->steiner({c[1], c[2], c[3]})); break;
      case kEdge: answer = told(net->edge(c[1], c[2])); break;
      case kUnseed: net->unseed(); break;
      case kSpan: answer = told(net->span()); break;
      case kStraight: answer = told(net->straight()); break;
      case kHook: answer = told(net->hook()); break;
      case kRows: answer = rows_of(*net); break;
      case kPaths: answer = paths_of(*net, c[1]); break;
      case kJoined:
        if constexpr (S::joins) answer = told(net->joined());
        break;
      case kShare:
        if constexpr (S::joins) answer = told(net->share());
        break;
    }
    sum = mixed(sum, answer);
  }
  return sum;
}

// The same answers as `bench_calls`, by the second engine.
std::uint64_t second_calls(std::uint32_t space, const std::int32_t* calls, std::size_t count) {
  return space == 0 ? calls_on(second::Plane{}, calls, count) : calls_on(second::Air{}, calls, count);
}

std::uint64_t run(int engine, const Calls& calls) {
  static const std::int32_t none = 0;  // a slice has an address, even an empty one
  const auto& n = calls.numbers;
  if (n.empty()) return engine == 0 ? bench_calls(calls.space, 0, &none, 0) : second_calls(calls.space, &none, 0);
  return engine == 0 ? bench_calls(calls.space, 0, n.data(), n.size()) : second_calls(calls.space, n.data(), n.size());
}

// ---- cases -------------------------------------------------------------------------------------------------------------------------

struct Random {
  std::uint64_t state;
  std::uint64_t next() {
    std::uint64_t z = state += 0x9E3779B97F4A7C15u;
    z = (z ^ (z >> 30)) * 0xBF58476D1CE4E5B9u;
    z = (z ^ (z >> 27)) * 0x94D049BB133111EBu;
    return z ^ (z >> 31);
  }
  int below(int n) { return static_cast<int>(next() % static_cast<std::uint64_t>(n)); }
  int coordinate() { return below(2000001) - 1000000; }
};

// What is measured is made `times` times. Where `before` has calls, they are run alone too, and taken off.
struct Case {
  std::string name;
  Calls before, all;
  int times = 1;
};

Calls pins_at_random(int pins, std::uint64_t seed) {
  Random random{seed};
  Calls calls;
  for (int k = 0; k < pins; ++k) calls.add(kPin, random.coordinate(), random.coordinate());
  return calls;
}

Case whole_net(int pins) {
  Case it{std::to_string(pins) + " pins, whole net", {}, pins_at_random(pins, static_cast<std::uint64_t>(pins))};
  it.all.add(kAllow, 1, 4);
  it.all.add(kSpan);
  it.all.add(kJoined);
  it.all.add_times(4, kHook);
  it.all.add_times(4, kShare);
  it.all.add(kRows);
  return it;
}

Case step_of(const char* name, int pins, int step) {
  Calls calls = pins_at_random(pins, static_cast<std::uint64_t>(pins));
  const auto more = [&](int k) {
    if (k == 1) calls.add(kAllow, 1, 4), calls.add(kSpan);
    if (k == 2) calls.add(kStraight);
    if (k == 3) calls.add(kJoined);
    if (k == 4) calls.add_times(4, kHook);
    if (k == 5) calls.add_times(4, kShare);
    if (k == 6) calls.add_times(100, kRows);
    if (k == 7) calls.add_times(100, kPaths, pins);
  };
  if (step == 0) return {name, {}, calls};
  for (int k = 1; k < step; ++k) more(k);
  Case it{name, calls, {}};
  more(step);
  it.all = calls;
  it.times = step > 5 ? 100 : 1;
  return it;
}

Case refined(int hooks) {
  Calls calls = pins_at_random(256, 256);
  calls.add(kAllow, 0, 1);
  calls.add(kSpan);
  calls.add(kJoined);
  for (int i = 0; i < hooks; ++i) calls.add(kHook), calls.add(kShare);
  return {"256 pins, allowance 0/1, joined, 100 hooks and 100 shares", {}, calls};
}

// A chain of pins and Steiner points side by side, each one further on.
Case daisy_chain() {
  Case it{"daisy chain, 256 pins and 256 Steiner points: straight", {}, {}};
  for (int k = 0; k < 256; ++k) it.before.add(kPin, 2 * k * 100, 0);
  for (int k = 0; k < 256; ++k) it.before.add(kSteiner, (2 * k + 1) * 100, 0);
  for (int k = 0; k < 256; ++k) {
    it.before.add(kEdge, k, 256 + k);
    if (k > 0) it.before.add(kEdge, 256 + k - 1, k);
  }
  it.before.add(kAllow, 1, 4);
  it.all = it.before;
  it.all.add_times(20, kStraight);
  it.times = 20;
  return it;
}

Case long_chain() {
  Case it{"chain of 512 nodes at random spots, allowance 1000/1: straight and one hook", {}, {}};
  Random random{512};
  for (int k = 0; k < 256; ++k) it.before.add(kPin, random.coordinate(), random.coordinate());
  for (int k = 0; k < 256; ++k) it.before.add(kSteiner, random.coordinate(), random.coordinate());
  for (int k = 1; k < 512; ++k) it.before.add(kEdge, k - 1, k);
  it.before.add(kAllow, 1000, 1);
  it.all = it.before;
  for (int i = 0; i < 20; ++i) it.all.add(kStraight), it.all.add(kHook);
  it.times = 20;
  return it;
}

Case one_hook() {
  Case it{"2 pins: one hook", pins_at_random(2, 2), {}};
  it.before.add(kAllow, 1, 4);
  it.before.add(kSpan);
  it.before.add(kJoined);
  it.all = it.before;
  it.all.add_times(1000, kHook);
  it.times = 1000;
  return it;
}

// Air has no joined tree and no shares.
Case over_air() {
  Case it{"256 pins over air: pins, span, straight, four hooks, rows", {}, pins_at_random(256, 256)};
  it.all.add(kAllow, 1, 4);
  it.all.add(kSpan);
  it.all.add(kStraight);
  it.all.add_times(4, kHook);
  it.all.add(kRows);
  it.all.space = 1;
  return it;
}

std::vector<Case> cases() {
  std::vector<Case> all;
  for (int pins : {2, 5, 9, 16, 32, 64, 128, 256}) all.push_back(whole_net(pins));
  all.push_back(refined(100));
  all.push_back(daisy_chain());
  all.push_back(long_chain());
  all.push_back(one_hook());
  all.push_back(over_air());
  const char* names[] = {"256: pins", "256: span", "256: straight", "256: joined", "256: four hooks", "256: four shares", "256: rows", "256: paths, worst"};
  for (int step = 0; step < 8; ++step) all.push_back(step_of(names[step], 256, step));
  return all;
}

// ---- text --------------------------------------------------------------------------------------------------------------------------

std::string text_of(const Calls& calls) {
  std::string job = "W,plane\n";
  const auto& n = calls.numbers;
  const char letters[] = "?PAVEUMDHT?JS";
  for (std::size_t i = 0; i < n.size(); i += 4) {
    job += letters[n[i]];
    const int fields = n[i] == kPin || n[i] == kSteiner ? 3 : n[i] == kAllow || n[i] == kEdge ? 2 : 0;
    for (int k = 1; k <= fields; ++k) job += "," + std::to_string(n[i + static_cast<std::size_t>(k)]);
    job += '\n';
  }
  return job;
}

std::size_t run_text(int engine, const std::string& job, std::vector<unsigned char>& out) {
  const auto* bytes = reinterpret_cast<const unsigned char*>(job.data());
  if (engine == 0) return dagrelk_run(bytes, job.size(), out.data(), out.size()).bytes;
  return second::run(bytes, job.size(), out.data(), out.size()).bytes;
}

// ---- measuring ---------------------------------------------------------------------------------------------------------------------

using Clock = std::chrono::steady_clock;

template <class F>
double seconds(F&& f, int times) {
  const auto from = Clock::now();
  for (int i = 0; i < times; ++i) f();
  return std::chrono::duration<double>(Clock::now() - from).count() / times;
}

// The least of several rounds, the engines in turn.
template <class F>
std::pair<double, double> both(F&& f) {
  double best[2] = {1e9, 1e9};
  int times[2] = {1, 1};
  for (int e : {0, 1}) {
    const double once = seconds([&] { f(e); }, 1);
    times[e] = std::max(1, std::min(20000, static_cast<int>(0.01 / std::max(once, 1e-9))));
  }
  for (int round = 0; round < 15; ++round)
    for (int e : {0, 1}) best[e] = std::min(best[e], seconds([&] { f(e); }, times[e]));
  return {best[0], best[1]};
}

// What was asked of malloc and operator new (the linker puts these in their place: --wrap).
std::size_t taken, pieces;

struct Painted {
  const std::function<void()>* call;
  unsigned char* stack;
  std::size_t top;  // where the stack stood when the call was made
};

// The bytes of stack that a call takes: a thread's stack is painted, and what was written below the place from which the call is made is counted.
std::size_t stack_of(const std::function<void()>& call) {
  constexpr std::size_t kSize = 1 << 20;
  auto* stack = static_cast<unsigned char*>(std::aligned_alloc(4096, kSize));
  std::memset(stack, 0xA5, kSize);
  pthread_attr_t attributes;
  pthread_attr_init(&attributes);
  pthread_attr_setstack(&attributes, stack, kSize);
  pthread_t thread;
  Painted painted{&call, stack, 0};
  const auto body = [](void* given) -> void* {
    auto* p = static_cast<Painted*>(given);
    unsigned char here = 0;
    p->top = static_cast<std::size_t>(reinterpret_cast<std::uintptr_t>(&here) - reinterpret_cast<std::uintptr_t>(p->stack));
    std::memset(p->stack, 0xA5, p->top - 1024);  // what starting the thread left
    (*p->call)();
    return nullptr;
  };
  pthread_create(&thread, &attributes, body, &painted);
  pthread_join(thread, nullptr);
  std::size_t low = 0;
  while (low < painted.top && stack[low] == 0xA5) ++low;
  std::free(stack);
  return painted.top - low;
}

int time_table() {
  std::printf("%-80s %12s %12s %7s\n", "calls, without text", "ours, ns", "second, ns", "ratio");
  for (const Case& it : cases()) {
    if (run(0, it.all) != run(1, it.all)) {
      std::printf("%s: the engines differ\n", it.name.c_str());
      return 1;
    }
    const auto all = both([&](int e) { return run(e, it.all); });
    const auto before = it.before.numbers.empty() ? std::make_pair(0.0, 0.0) : both([&](int e) { return run(e, it.before); });
    const double ours = (all.first - before.first) / it.times, theirs = (all.second - before.second) / it.times;
    std::printf("%-80s %12.0f %12.0f %7.2f\n", it.name.c_str(), ours * 1e9, theirs * 1e9, ours / theirs);
  }
  std::printf("%-80s %12s %12s %7s\n", "the same as text, with all rows listed", "ours, ns", "second, ns", "ratio");
  for (int pins : {2, 5, 9, 16, 32, 64, 128, 256}) {
    const std::string job = text_of(whole_net(pins).all);
    std::vector<unsigned char> out(65536);
    std::vector<unsigned char> other(65536);
    const std::size_t bytes = run_text(0, job, out);
    if (bytes != run_text(1, job, other) || !std::equal(out.begin(), out.begin() + static_cast<std::ptrdiff_t>(bytes), other.begin())) {
      std::printf("%d pins: the engines differ\n", pins);
      return 1;
    }
    const auto time = both([&](int e) { return run_text(e, job, out); });
    std::printf("%-80s %12.0f %12.0f %7.2f\n", (std::to_string(pins) + " pins").c_str(), time.first * 1e9, time.second * 1e9, time.first / time.second);
  }
  return 0;
}

int space_table() {
  // Each case is run once before, so that no C function is bound while it is measured. The frame of the benchmark's own function counts too.
  volatile std::uint64_t kept = 0;
  std::printf("%-80s %12s %12s\n", "peak stack, bytes", "ours", "second");
  for (const Case& it : cases()) {
    std::size_t stack[2];
    for (int e : {0, 1}) {
      kept = run(e, it.all);
      stack[e] = stack_of([&] { kept = run(e, it.all); });
    }
    std::printf("%-80s %12zu %12zu\n", it.name.c_str(), stack[0], stack[1]);
  }
  std::vector<std::pair<std::string, std::string>> jobs;
  for (int pins : {2, 64, 256}) jobs.emplace_back(std::to_string(pins) + " pins as text", text_of(whole_net(pins).all));
  jobs.emplace_back("chain of 512 nodes as text", text_of(long_chain().all));
  for (const auto& [name, job] : jobs) {
    std::vector<unsigned char> out(65536);
    std::size_t stack[2];
    for (int e : {0, 1}) {
      kept = run_text(e, job, out);
      stack[e] = stack_of([&] { kept = run_text(e, job, out); });
    }
    std::printf("%-80s %12zu %12zu\n", name.c_str(), stack[0], stack[1]);
  }
  const Calls none;
  for (int e : {0, 1}) {
    taken = pieces = 0;
    run(e, none);
    std::printf("heap of a net, %s: %zu bytes in %zu pieces\n", e == 0 ? "ours" : "second", taken, pieces);
  }
  return 0;
}

}  // namespace

extern "C" {
void* __real_malloc(std::size_t bytes);
void* __wrap_malloc(std::size_t bytes) {
  taken += bytes, ++pieces;
  return __real_malloc(bytes);
}
}

void* operator new(std::size_t bytes) { return __wrap_malloc(bytes); }
void operator delete(void* at) noexcept { std::free(at); }
void operator delete(void* at, std::size_t) noexcept { std::free(at); }

int main(int argc, char** argv) {
  const std::string mode = argc > 1 ? argv[1] : "";
  if (mode == "time") return time_table();
  if (mode == "space") return space_table();
  const auto all = cases();
  if (mode == "only" && argc == 4) {
    const int engine = std::atoi(argv[2]), number = std::atoi(argv[3]);
    const Case& it = all.at(static_cast<std::size_t>(number / 2));
    std::printf("%s: %llu\n", it.name.c_str(), static_cast<unsigned long long>(run(engine, number % 2 ? it.before : it.all)));
    return 0;
  }
  if (mode == "times" && argc == 3) {
    const Case& it = all.at(static_cast<std::size_t>(std::atoi(argv[2])));
    std::printf("%d %d\n", it.times, it.before.numbers.empty() ? 0 : 1);
    return 0;
  }
  std::printf("%zu\n", all.size());
  return 0;
}
