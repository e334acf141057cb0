// Runs generated jobs by both engines and compares all that comes out. The first difference is printed, and ends it with status 1.
//
//   compare [N [S]]                    N jobs from the seed S on, by the C call in one process, with outputs of many lengths
//   compare --program PATH [N [S]]     the same jobs by the program saltjob at PATH, which reads 65,536 bytes and writes as many
//   compare --write FOLDER [N [S]]     writes the same jobs and the answers of the second engine into the folder, as `rt try --cases` takes them
#include <unistd.h>

#include <algorithm>
#include <cinttypes>
#include <cstdio>
#include <cstdlib>
#include <filesystem>
#include <map>
#include <string>
#include <utility>
#include <vector>

#include "../include/dagrelk.h"
#include "engine.cpp"
#include "jobs.hpp"

namespace {

constexpr std::uint64_t kJobs = 3000;   // from so many on, every refusal has to be seen
constexpr std::size_t kGuard = 64;      // bytes behind the output that nobody may write

using Bytes = std::vector<unsigned char>;

struct Ran {
  std::size_t lines, bytes;
  unsigned stop;
  Bytes out;  // with the guard
};

[[maybe_unused]] void fill(Bytes& out, std::uint64_t pattern) {
  jobs::Random r(pattern);
  for (std::size_t i = 0; i < out.size(); ++i) out[i] = static_cast<unsigned char>(r.next());
}

// Both runs are given the same room, filled with the same pattern.
#ifndef PROGRAM_ONLY
Ran run_first(const std::string& job, std::size_t room, const Bytes& pattern) {
  Ran ran{0, 0, 0, Bytes(pattern.begin(), pattern.begin() + static_cast<std::ptrdiff_t>(room + kGuard))};
  const std::vector<std::uint8_t> text(job.begin(), job.end());
  std::uint8_t none = 0;
  const dagrelk_outcome o = dagrelk_run(text.empty() ? &none : text.data(), text.size(), ran.out.data(), room);
  ran.lines = o.lines;
  ran.bytes = o.bytes;
  ran.stop = o.stop;
  return ran;
}
#endif

Ran run_second(const std::string& job, std::size_t room, const Bytes& pattern) {
  Ran ran{0, 0, 0, Bytes(pattern.begin(), pattern.begin() + static_cast<std::ptrdiff_t>(room + kGuard))};
  const std::vector<unsigned char> text(job.begin(), job.end());
  unsigned char none = 0;
  const second::Outcome o = second::run(text.empty() ? &none : text.data(), text.size(), ran.out.data(), room);
  ran.lines = o.lines;
  ran.bytes = o.bytes;
  ran.stop = o.stopped ? DAGRELK_NO_ROOM : DAGRELK_ANSWERED;
  return ran;
}

// ---- telling of a difference

std::string shown(const std::string& text) {
  std::string s;
  for (const char c : text) {
    const auto byte = static_cast<unsigned char>(c);
    char hex[8];
    if (c == '\n') s += "\n";
    else if (byte < 32 || byte > 126 || c == '\\') std::snprintf(hex, sizeof hex, "\\x%02x", byte), s += hex;
    else s += c;
  }
  return s;
}

std::vector<std::string> split_lines(const unsigned char* at, std::size_t n) {
  std::vector<std::string> lines;
  std::string line;
  for (std::size_t i = 0; i < n; ++i) {
    if (at[i] == '\n') lines.push_back(line), line.clear();
    else line += static_cast<char>(at[i]);
  }
  if (!line.empty()) lines.push_back(line);
  return lines;
}

int tell(std::uint64_t seed, const std::string& job, std::size_t room, const Ran& one, const Ran& two) {
  std::printf("DIFFERENT: seed %" PRIu64 ", output of %zu bytes\n", seed, room);
  std::printf("first:  lines %zu, bytes %zu, stop %u\n", one.lines, one.bytes, one.stop);
  std::printf("second: lines %zu, bytes %zu, stop %u\n", two.lines, two.bytes, two.stop);
  const auto a = split_lines(one.out.data(), std::min(one.bytes, one.out.size()));
  const auto b = split_lines(two.out.data(), std::min(two.bytes, two.out.size()));
  std::size_t k = 0;
  while (k < a.size() && k < b.size() && a[k] == b[k]) ++k;
  if (k < a.size() || k < b.size()) {
    std::printf("first different line of the output, %zu:\n", k + 1);
    std::printf("  first:  %s\n", k < a.size() ? shown(a[k]).c_str() : "(none)");
    std::printf("  second: %s\n", k < b.size() ? shown(b[k]).c_str() : "(none)");
  }
  std::size_t i = 0;
  while (i < one.out.size() && one.out[i] == two.out[i]) ++i;
  if (i < one.out.size()) std::printf("first different byte: %zu, first %u, second %u\n", i, one.out[i], two.out[i]);
  std::printf("job, %zu bytes (other bytes than print are escaped):\n%s\n", job.size(), shown(job).c_str());
  return 1;
}

// ---- counting

struct Counts {
  std::uint64_t jobs = 0, runs = 0, stopped = 0, lines = 0, accepted = 0;
  std::map<char, std::uint64_t> letters;                           // lines accepted
  std::map<std::pair<unsigned, char>, std::uint64_t> refusals;     // by number and letter; '-' where the line has no letter
  std::map<unsigned, std::uint64_t> numbers;
  std::map<unsigned, std::uint64_t> fields;                        // of refusal 23
};

void count(Counts& c, const std::string& job, const Ran& ran) {
  const auto lines = split_lines(reinterpret_cast<const unsigned char*>(job.data()), job.size());
  for (const std::string& answer : split_lines(ran.out.data(), ran.bytes)) {
    if (answer[0] == 'N') continue;
    const std::size_t line = std::strtoull(answer.c_str() + 3, nullptr, 10);
    const std::string text = line <= lines.size() ? lines[line - 1] : "";
    ++c.lines;
    if (answer[0] == 'o') {
      ++c.accepted;
      ++c.letters[text.empty() ? '?' : text[0]];
      continue;
    }
    const std::size_t comma = answer.find(',', 3);
    const unsigned number = static_cast<unsigned>(std::atoi(answer.c_str() + comma + 3));
    const bool no_letter = number == DAGRELK_LONG_LINE || number == DAGRELK_NO_LETTER || text.empty();
    ++c.refusals[{number, no_letter ? '-' : text[0]}];
    ++c.numbers[number];
    if (number == DAGRELK_BAD_FIELD) ++c.fields[static_cast<unsigned>(std::atoi(answer.c_str() + answer.rfind(',') + 1))];
  }
}

// Each refusal with the letters that docs/net.md and docs/job.md name for it.
const std::pair<unsigned, const char*> kDocumented[] = {
    {1, "P"}, {2, "PV"}, {3, "P"}, {4, "P"}, {5, "A"}, {6, "VEMDJ"}, {7, "V"}, {8, "E"}, {9, "E"}, {10, "E"}, {11, "DJ"}, {12, "DJ"},
    {13, "HSTKX"}, {14, "HS"}, {15, "S"}, {16, "K"}, {20, "-"}, {21, "-"}, {22, "WPAVEUMDJHSTKX"}, {23, "WPAVEK"},
    {24, "WPAVEUMDJHSTKX"}, {25, "JS"}};

// Prints the table; answers how many documented refusals were never seen, or seen where none is documented.
int report(const Counts& c) {
  int wrong = 0;
  std::printf("refusal  times     by letter\n");
  for (const auto& [number, letters] : kDocumented) {
    const auto all = c.numbers.find(number);
    std::printf("%7u  %-8" PRIu64, number, all == c.numbers.end() ? 0 : all->second);
    for (const char* letter = letters; *letter; ++letter) {
      const auto seen = c.refusals.find({number, *letter});
      const std::uint64_t times = seen == c.refusals.end() ? 0 : seen->second;
      std::printf("  %c %" PRIu64, *letter, times);
      if (times == 0) ++wrong, std::printf(" NEVER");
    }
    std::printf("\n");
  }
  for (const auto& [key, times] : c.refusals) {
    bool documented = false;
    for (const auto& [number, letters] : kDocumented) documented |= number == key.first && std::string(letters).find(key.second) != std::string::npos;
    if (!documented) ++wrong, std::printf("refusal %u of letter %c is not documented: %" PRIu64 " times\n", key.first, key.second, times);
  }
  std::printf("fields of 23:");
  for (unsigned field = 2; field <= 4; ++field) {
    const auto seen = c.fields.find(field);
    std::printf("  %u %" PRIu64, field, seen == c.fields.end() ? 0 : seen->second);
    wrong += seen == c.fields.end();
  }
  std::printf("\naccepted:");
  for (const char letter : std::string("WPAVEUMDJHSTKX")) {
    const auto seen = c.letters.find(letter);
    std::printf("  %c %" PRIu64, letter, seen == c.letters.end() ? 0 : seen->second);
    wrong += seen == c.letters.end();
  }
  std::printf("\n");
  return wrong;
}

// The lengths of output that a job is run with, beside one that is always enough.
[[maybe_unused]] std::vector<std::size_t> rooms(jobs::Random& r, const Ran& full) {
  std::vector<std::size_t> list{0, full.bytes};
  if (full.bytes > 0) list.push_back(full.bytes - 1);
  list.push_back(r.below(full.bytes + 1));
  list.push_back(r.below(full.bytes + 1));
  list.push_back(r.below(std::min<std::size_t>(full.bytes, 40) + 1));
  std::vector<std::size_t> ends;
  for (std::size_t i = 0; i < full.bytes; ++i)
    if (full.out[i] == '\n') ends.push_back(i + 1);
  for (int turn = 0; turn < 2 && !ends.empty(); ++turn) {
    const std::size_t end = ends[r.below(ends.size())];
    list.push_back(end);
    list.push_back(end - 1);
    list.push_back(end + 1);
  }
  return list;
}

// Reports what was seen, and answers the status.
int finish(const Counts& counts, std::uint64_t n, std::uint64_t first_seed) {
  const int wrong = report(counts);
  std::printf("same: %" PRIu64 " jobs from seed %" PRIu64 ", %" PRIu64 " runs (%" PRIu64 " of them stopped), %" PRIu64 " lines, %" PRIu64 " accepted, %" PRIu64
              " refused\n",
              counts.jobs, first_seed, counts.runs, counts.stopped, counts.lines, counts.accepted, counts.lines - counts.accepted);
  if (n >= kJobs && wrong != 0) {
    std::printf("FAILED: %d refusals or letters never seen, or seen where they are not documented\n", wrong);
    return 1;
  }
  return 0;
}

#ifndef PROGRAM_ONLY
int by_call(std::uint64_t n, std::uint64_t first_seed) {
  Counts counts;
  for (std::uint64_t seed = first_seed; seed - first_seed < n; ++seed) {
    const std::string job = jobs::make(seed);
    jobs::Random r(~seed);

    std::size_t line_count = 1, trees = 1;
    for (std::size_t i = 0; i < job.size(); ++i) {
      line_count += job[i] == '\n';
      trees += job[i] == 'T';
    }
    const std::size_t enough = line_count * DAGRELK_ANSWER_BYTES + trees * DAGRELK_TREE_BYTES;
    Bytes pattern(enough + kGuard);
    fill(pattern, r.next());

    Ran full{};
    const auto same = [&](std::size_t room) {
      const Ran one = run_first(job, room, pattern);
      Ran two = run_second(job, room, pattern);
      ++counts.runs;
      counts.stopped += two.stop == DAGRELK_NO_ROOM;
      bool good = one.lines == two.lines && one.bytes == two.bytes && one.stop == two.stop && one.out == two.out;
      // Neither wrote behind what it counted, and a short output begins like the full one.
      good = good && two.bytes <= room && std::equal(two.out.begin() + static_cast<std::ptrdiff_t>(two.bytes), two.out.end(),
                                                     pattern.begin() + static_cast<std::ptrdiff_t>(two.bytes));
      good = good && (room == enough || std::equal(two.out.begin(), two.out.begin() + static_cast<std::ptrdiff_t>(two.bytes), full.out.begin()));
      if (!good) {
        tell(seed, job, room, one, two);
        return false;
      }
      if (room == enough) full = std::move(two);
      return true;
    };

    if (!same(enough)) return 1;
    ++counts.jobs;
    count(counts, job, full);
    if (full.stop != DAGRELK_ANSWERED) {
      std::printf("seed %" PRIu64 ": the output was not enough\n", seed);
      return 1;
    }
    for (const std::size_t room : rooms(r, full))
      if (room < enough && !same(room)) return 1;
  }

  return finish(counts, n, first_seed);
}
#endif

// ---- by the program

constexpr std::size_t kMost = 65536;  // what saltjob reads and writes

// What the program at `path` prints for the job.
std::string printed(const std::string& path, const std::string& job) {
  std::string name = (std::filesystem::temp_directory_path() / "compare-XXXXXX").string();
  const int file = mkstemp(name.data());
  if (file < 0 || write(file, job.data(), job.size()) != static_cast<ssize_t>(job.size())) std::abort();
  close(file);
  std::string out;
  if (FILE* from = popen(("'" + path + "' < '" + name + "'").c_str(), "r")) {
    char bytes[4096];
    for (std::size_t got; (got = fread(bytes, 1, sizeof bytes, from)) > 0;) out.append(bytes, got);
    if (pclose(from) != 0) out += "(the program failed)";
  }
  unlink(name.c_str());
  return out;
}

int by_program(const std::string& path, std::uint64_t n, std::uint64_t first_seed) {
  Counts counts;
  const Bytes pattern(kMost + kGuard);
  for (std::uint64_t seed = first_seed; seed - first_seed < n; ++seed) {
    const std::string job = jobs::make(seed).substr(0, kMost);
    const Ran two = run_second(job, kMost, pattern);
    Ran one = two;
    const std::string out = printed(path, job);
    one.bytes = out.size();
    std::copy(out.begin(), out.begin() + static_cast<std::ptrdiff_t>(std::min(out.size(), kMost)), one.out.begin());
    ++counts.runs;
    counts.stopped += two.stop == DAGRELK_NO_ROOM;
    if (one.bytes != two.bytes || one.out != two.out) {
      tell(seed, job, kMost, one, two);
      return 1;
    }
    ++counts.jobs;
    if (two.stop == DAGRELK_ANSWERED) count(counts, job, two);
  }
  return finish(counts, n, first_seed);
}

int write_cases(const std::string& folder, std::uint64_t n, std::uint64_t first_seed) {
  const Bytes pattern(kMost + kGuard);
  for (std::uint64_t seed = first_seed; seed - first_seed < n; ++seed) {
    const std::string job = jobs::make(seed).substr(0, kMost), name = folder + "/" + std::to_string(seed);
    const Ran ran = run_second(job, kMost, pattern);
    FILE* in = fopen(name.c_str(), "wb");
    FILE* out = fopen((name + ".stdout").c_str(), "wb");
    if (!in || !out) return 1;
    const bool wrote = fwrite(job.data(), 1, job.size(), in) == job.size() && fwrite(ran.out.data(), 1, ran.bytes, out) == ran.bytes;
    if (fclose(in) != 0 || fclose(out) != 0 || !wrote) return 1;
  }
  return 0;
}

// Reads a whole number, and nothing else.
bool number(const char* text, std::uint64_t& n) {
  char* end = nullptr;
  n = std::strtoull(text, &end, 10);
  return *text >= '0' && *text <= '9' && *end == '\0';
}

}  // namespace

int main(int argc, char** argv) {
  const std::string mode = argc > 2 ? argv[1] : "";
  const bool by_name = mode == "--program" || mode == "--write";
  const int at = by_name ? 3 : 1;
  std::uint64_t n = kJobs, first_seed = 1;
  if (argc > at + 2 || (argc > at && !number(argv[at], n)) || (argc > at + 1 && !number(argv[at + 1], first_seed)) || n == 0) {
    std::puts("compare [N [S]], compare --program PATH [N [S]] or compare --write FOLDER [N [S]]; N is 1 or more");
    return 2;
  }
  if (mode == "--program") return by_program(argv[2], n, first_seed);
  if (mode == "--write") return write_cases(argv[2], n, first_seed);
#ifndef PROGRAM_ONLY
  return by_call(n, first_seed);
#else
  std::puts("this build compares by the program alone: compare --program PATH [N [S]]");
  return 2;
#endif
}
