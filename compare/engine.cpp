// A routing-topology engine: spaces, a net with its calls, and the run of a job.
//
// Written from docs/ alone. One file, standard library only. Include it to call a net (second::Net), or compile it with SECOND_MAIN to
// run a job from standard input.
#include <algorithm>
#include <charconv>
#include <cmath>
#include <cstddef>
#include <cstdint>
#include <cstdlib>
#include <cstring>
#include <memory>

#ifdef SECOND_MAIN
#include <cstdio>
#endif

namespace second {

// ---- limits ------------------------------------------------------------------------------------------------------------------------

constexpr std::size_t kPins = 256;
constexpr std::size_t kSteinerPoints = 256;
constexpr std::size_t kNodes = kPins + kSteinerPoints;
constexpr std::size_t kRows = 768;
constexpr std::uint64_t kLongest = 100000000;  // a space that is wider takes no pin, so every length fits 32 bits
constexpr std::int64_t kAllowance = 1000;

// ---- spaces ------------------------------------------------------------------------------------------------------------------------
//
// A space has
//   joins            whether it has a meet
//   widest()         its widest distance
//   admits(s)        whether the spot may be used
//   distance(a, b)   of admitted spots, where the space is at most kLongest wide
//   at_least(a, b)   a number that is cheap and at most that distance
//   meet(o, a, b)    the spot where the ways from o to a and from o to b part, if it joins
//
// Distances are signed, and choices are written as min and max, so that loops over many spots become vector code.

struct Spot { std::int32_t x, y, level; };

inline std::int32_t gap(std::int32_t a, std::int32_t b) { return std::abs(a - b); }

inline std::int32_t middle(std::int32_t a, std::int32_t b, std::int32_t c) {
  return std::max(std::min(a, b), std::min(std::max(a, b), c));
}

inline bool on_ground(Spot s) {
  constexpr std::int32_t kEnd = 1000000;
  return s.level == 0 && -kEnd <= s.x && s.x <= kEnd && -kEnd <= s.y && s.y <= kEnd;
}

struct Plane {
  static constexpr bool joins = true;

  std::uint64_t widest() const { return 4000000; }
  bool admits(Spot s) const { return on_ground(s); }
  std::int32_t distance(Spot a, Spot b) const { return gap(a.x, b.x) + gap(a.y, b.y); }
  std::int32_t at_least(Spot a, Spot b) const { return distance(a, b); }
  Spot meet(Spot o, Spot a, Spot b) const { return {middle(o.x, a.x, b.x), middle(o.y, a.y, b.y), 0}; }
};

struct Air {
  static constexpr bool joins = false;

  std::uint64_t widest() const { return 2828428; }
  bool admits(Spot s) const { return on_ground(s); }

  // The root rounded up. The square is whole and at most 8e12, so a double holds it, and its root is a whole number or at least 1.7e-7
  // above one.
  std::int32_t distance(Spot a, Spot b) const {
    const double dx = a.x - b.x, dy = a.y - b.y;
    return static_cast<std::int32_t>(std::sqrt(dx * dx + dy * dy) + (1 - 1e-7));
  }
  std::int32_t at_least(Spot a, Spot b) const { return std::max(gap(a.x, b.x), gap(a.y, b.y)); }
};

template <class Below>
struct Lift {
  static constexpr bool joins = Below::joins;
  Below below;
  std::uint32_t price;

  std::uint64_t widest() const {
    const std::uint64_t rise = 15 * std::uint64_t{price}, sum = below.widest() + rise;
    return sum < rise ? UINT64_MAX : sum;
  }
  bool admits(Spot s) const { return 0 <= s.level && s.level <= 15 && below.admits(ground(s)); }
  std::int32_t distance(Spot a, Spot b) const { return below.distance(ground(a), ground(b)) + rise(a, b); }
  std::int32_t at_least(Spot a, Spot b) const { return below.at_least(ground(a), ground(b)) + rise(a, b); }
  Spot meet(Spot o, Spot a, Spot b) const {
    Spot z = below.meet(ground(o), ground(a), ground(b));
    z.level = middle(o.level, a.level, b.level);
    return z;
  }

 private:
  static Spot ground(Spot s) { return {s.x, s.y, 0}; }
  std::int32_t rise(Spot a, Spot b) const { return static_cast<std::int32_t>(price) * gap(a.level, b.level); }
};

// Spots in three columns.
template <std::size_t N>
struct Spots {
  std::int32_t x[N], y[N], level[N];

  Spot at(std::size_t k) const { return {x[k], y[k], level[k]}; }
  void put(std::size_t k, Spot spot) {
    x[k] = spot.x, y[k] = spot.y, level[k] = spot.level;
  }
};

// ---- what a net answers ------------------------------------------------------------------------------------------------------------

enum class Fault : std::uint8_t {
  none = 0, too_wide = 1, not_admitted = 2, too_many_pins = 3, too_close = 4, bad_allowance = 5, too_few_pins = 6, too_many_points = 7,
  no_node = 8, joined = 9, no_length = 10, no_allowance = 11, no_seed = 12, no_tree = 13, no_move = 14, too_many_rows = 15,
  out_of_range = 16,
};

inline char layer(Fault f) { return f <= Fault::not_admitted ? 's' : 'n'; }

// A value, or the fault by which the call was refused.
template <class T>
struct Answer {
  T value;
  Fault fault;

  Answer(T v) : value(v), fault(Fault::none) {}
  Answer(Fault f) : value(), fault(f) {}
  bool ok() const { return fault == Fault::none; }
};

using Number = Answer<std::uint64_t>;

struct Row { std::uint16_t parent; Spot spot; std::int32_t length; };

struct PinPath { std::uint64_t path, direct; };

struct Worst { std::uint64_t sink, figure; };

// ---- the net -----------------------------------------------------------------------------------------------------------------------
//
// The nodes lie at the front of the rows: row k of a tree is node k, and rows that joining and sharing add come behind. So the spots of
// the nodes stay where they are when a tree is built or dropped. The children of a row are a list in rising order, and the path of each
// row is kept, both while a tree stands.

template <class S>
class Net {
 public:
  explicit Net(S space) : space_(space) {}
  Net(const Net&) = delete;
  Net& operator=(const Net&) = delete;

  Number pin(Spot spot) {
    if (space_.widest() > kLongest) return Fault::too_wide;
    if (!space_.admits(spot)) return Fault::not_admitted;
    if (pins_ == kPins) return Fault::too_many_pins;
    if (least(0, pins_, spot) == 0)
      for (std::size_t k = 0; k < pins_; ++k)
        if (space_.distance(at(k), spot) == 0) return Fault::too_close;
    unseed();
    nodes_ = pins_ + 1;
    place(pins_, spot);
    return pins_++;
  }

  Number allow(std::int64_t p, std::int64_t q) {
    if (p < 0 || p > kAllowance || q < 1 || q > kAllowance) return Fault::bad_allowance;
    p_ = p, q_ = q;
    rows_ = 0;
    return 0;
  }

  Number steiner(Spot spot) {
    if (pins_ < 2) return Fault::too_few_pins;
    if (!space_.admits(spot)) return Fault::not_admitted;
    if (nodes_ - pins_ == kSteinerPoints) return Fault::too_many_points;
    rows_ = 0;
    place(nodes_, spot);
    return nodes_++;
  }

  Number edge(std::size_t a, std::size_t b) {
    if (pins_ < 2) return Fault::too_few_pins;
    if (a >= nodes_ || b >= nodes_) return Fault::no_node;
    const auto part_a = part(a), part_b = part(b);
    if (part_a == part_b) return Fault::joined;
    const std::int32_t length = distance(a, b);
    if (length == 0) return Fault::no_length;
    rows_ = 0;
    part_[part_a] = part_b;
    edges_[edge_count_++] = {Place(a), Place(b), length};
    return static_cast<std::uint64_t>(length);
  }

  // Drops Steiner points, edges and tree.
  void unseed() {
    if (edge_count_ > 0)
      for (std::size_t k = 0; k < pins_; ++k) part_[k] = Place(k);
    nodes_ = pins_;
    edge_count_ = 0;
    rows_ = 0;
  }

  Number span() {
    if (pins_ < 2) return Fault::too_few_pins;
    nodes_ = pins_;
    rows_ = 0;
    return grow_span();
  }

  Number straight() {
    if (const Fault fault = not_buildable(); fault != Fault::none) return fault;
    Place broken[kPins];
    hang_straight(broken);
    return link_rows();
  }

  Number joined() {
    static_assert(S::joins, "joined is there over joining spaces only");
    if (const Fault fault = not_buildable(); fault != Fault::none) return fault;
    Place broken[kPins];
    const std::size_t count = hang_straight(broken);
    join(broken, count);
    return link_rows();
  }

  Number hook() {
    if (rows_ == 0) return Fault::no_tree;
    const Hook best = best_hook();
    if (best.saving == 0) return Fault::no_move;
    unlink(best.v);
    length_[best.v] -= best.saving;
    parent_[best.v] = best.u;
    link(best.v);
    shorten_paths(best.v, path_[best.v] - path_[best.u] - length_[best.v]);
    return static_cast<std::uint64_t>(best.saving);
  }

  Number share() {
    static_assert(S::joins, "share is there over joining spaces only");
    if (rows_ == 0) return Fault::no_tree;
    const Share best = best_share();
    if (best.saving == 0) return Fault::no_move;
    if (rows_ == kRows) return Fault::too_many_rows;
    unlink(best.a), unlink(best.b);
    const Place z = insert_meet(best.v, best.a, best.b);
    child_[z] = kNone;
    link(z), link(best.a), link(best.b);
    path_[z] = path_[best.v] + length_[z];
    return static_cast<std::uint64_t>(best.saving);
  }

  Number rows() const {
    if (rows_ == 0) return Fault::no_tree;
    return rows_;
  }

  Answer<Row> row(std::size_t k) const {
    if (rows_ == 0) return Fault::no_tree;
    if (k >= rows_) return Fault::out_of_range;
    return Row{parent_[k], at(k), length_[k]};
  }

  Answer<PinPath> path(std::size_t k) const {
    if (rows_ == 0) return Fault::no_tree;
    if (k >= pins_) return Fault::out_of_range;
    return PinPath{static_cast<std::uint64_t>(path_[k]), static_cast<std::uint64_t>(direct_[k])};
  }

  Answer<Worst> worst() const {
    if (rows_ == 0) return Fault::no_tree;
    Worst worst{1, 0};
    for (std::size_t k = 1; k < pins_; ++k) {
      const auto figure = static_cast<std::uint64_t>(1000 * path_[k] / direct_[k]);
      if (figure > worst.figure) worst = {k, figure};
    }
    return worst;
  }

 private:
  using Place = std::uint16_t;  // a node or a row
  static constexpr Place kNone = 0xFFFF;
  static constexpr std::int32_t kNever = INT32_MAX;
  static constexpr std::size_t kBlock = 16;  // spots that a search looks at together

  struct Edge { Place a, b; std::int32_t length; };
  struct Hook { std::int32_t saving; Place v, u; };
  struct Share { std::int32_t saving; Place v, a, b; };

  Spot at(std::size_t k) const { return spots_.at(k); }
  std::int32_t distance(std::size_t a, std::size_t b) const { return space_.distance(at(a), at(b)); }

  // No row from `from` on and before `to` is nearer to the spot than this.
  std::int32_t least(std::size_t from, std::size_t to, Spot spot) const {
    std::int32_t least = kNever;
    for (std::size_t k = from; k < to; ++k) least = std::min(least, space_.at_least(at(k), spot));
    return least;
  }

  // Puts a new node k, which no edge has.
  void place(std::size_t k, Spot spot) {
    spots_.put(k, spot);
    part_[k] = Place(k);
    direct_[k] = distance(0, k);
  }

  // The node that stands for all nodes joined with k. Halves the way to it.
  Place part(std::size_t k) {
    while (part_[k] != k) k = part_[k] = part_[part_[k]];
    return Place(k);
  }

  Fault not_buildable() const {
    if (pins_ < 2) return Fault::too_few_pins;
    if (q_ == 0) return Fault::no_allowance;
    if (edge_count_ + 1 != nodes_) return Fault::no_seed;
    return Fault::none;
  }

  // ---- the spanning seed

  // Prim's: each outside pin v keeps its first link to an inside pin u, as the length and, in one number, u above v.
  std::uint64_t grow_span() {
    Spots<kPins> spots;
    std::int32_t pin[kPins], length[kPins], ends[kPins];
    std::size_t where[kPins];  // the place of an outside pin in the columns above
    std::size_t outside = pins_ - 1;
    for (std::size_t i = 0; i < outside; ++i) {
      spots.put(i, at(i + 1));
      pin[i] = static_cast<std::int32_t>(i + 1);
      length[i] = ends[i] = kNever;
      where[i + 1] = i;
    }

    edge_count_ = 0;
    std::uint64_t wire = 0;
    std::int32_t inside = 0;  // the pin that came inside last
    while (outside > 0) {
      const Spot spot = at(static_cast<std::size_t>(inside));
      std::int32_t shortest = kNever, first = kNever;
      for (std::size_t i = 0; i < outside; ++i) {
        const std::int32_t old_length = length[i], new_length = space_.distance(spot, spots.at(i));
        const std::int32_t old_ends = ends[i], new_ends = inside << 8 | pin[i];
        const bool is_first = (new_length < old_length) | ((new_length == old_length) & (new_ends < old_ends));
        ends[i] = is_first ? new_ends : old_ends;
        length[i] = std::min(old_length, new_length);
        shortest = std::min(shortest, length[i]);
      }
      for (std::size_t i = 0; i < outside; ++i) first = std::min(first, ends[i] | (length[i] != shortest) << 16);  // ends have 16 bits

      inside = first & 0xFF;
      edges_[edge_count_++] = {Place(first >> 8), Place(inside), shortest};
      wire += static_cast<std::uint64_t>(shortest);
      const std::size_t gone = where[inside], last = --outside;
      spots.put(gone, spots.at(last));
      pin[gone] = pin[last], length[gone] = length[last], ends[gone] = ends[last];
      where[pin[gone]] = gone;
    }
    for (std::size_t k = 0; k < pins_; ++k) part_[k] = 0;
    return wire;
  }

  // ---- the straight tree

  // The neighbours of each node in rising order: those of v are at the places start[v] to start[v + 1].
  struct Neighbours { Place start[kNodes + 1]; Place node[2 * kNodes]; std::int32_t length[2 * kNodes]; };

  // Sets the edges over twice. The second turn takes the nodes in rising order, and so each node's list comes out in rising order.
  void list_neighbours(Neighbours& sorted) const {
    Place next[kNodes + 1];
    std::fill_n(next, nodes_ + 1, Place(0));
    for (std::size_t e = 0; e < edge_count_; ++e) {
      ++next[edges_[e].a + 1];
      ++next[edges_[e].b + 1];
    }
    for (std::size_t v = 1; v <= nodes_; ++v) next[v] = Place(next[v] + next[v - 1]);
    std::copy_n(next, nodes_ + 1, sorted.start);

    Place loose[2 * kNodes];  // edges, by node
    for (std::size_t e = 0; e < edge_count_; ++e) {
      loose[next[edges_[e].a]++] = Place(e);
      loose[next[edges_[e].b]++] = Place(e);
    }
    std::copy_n(sorted.start, nodes_, next);
    for (std::size_t u = 0; u < nodes_; ++u) {
      for (std::size_t i = sorted.start[u]; i < sorted.start[u + 1]; ++i) {
        const Edge& edge = edges_[loose[i]];
        const std::size_t v = edge.a == u ? edge.b : edge.a;
        sorted.node[next[v]] = Place(u);
        sorted.length[next[v]++] = edge.length;
      }
    }
  }

  // Walks over the seed, and makes the rows of the straight tree in place of what there was. Lists the breakpoints in rising order, and
  // answers how many there are. A row's parent and length are the parent and the edge of its mark while the walk goes on.
  std::size_t hang_straight(Place* broken) {
    Neighbours around;
    list_neighbours(around);

    std::int64_t estimate[kNodes];
    bool is_broken[kNodes];
    Place next[kNodes], from[kNodes];
    std::int32_t from_length[kNodes];
    for (std::size_t v = 0; v < nodes_; ++v) {
      estimate[v] = INT64_MAX, is_broken[v] = false, next[v] = around.start[v];
    }
    estimate[0] = 0, from[0] = kNone;
    parent_[0] = 0, length_[0] = 0;

    const auto relax = [&](std::size_t u, std::size_t v, std::int32_t length) {
      const std::int64_t by_u = estimate[u] + length;
      if (by_u < estimate[v] || (by_u == estimate[v] && length < length_[v])) {
        estimate[v] = by_u, parent_[v] = Place(u), length_[v] = length;
      }
    };
    const std::int64_t q = q_, p_and_q = p_ + q_;

    for (std::size_t v = 0;;) {
      if (next[v] < around.start[v + 1]) {
        const std::size_t i = next[v]++, u = around.node[i];
        if (u == from[v]) continue;
        relax(v, u, around.length[i]);
        if (u < pins_ && q * estimate[u] > p_and_q * direct_[u]) {
          is_broken[u] = true;
          estimate[u] = direct_[u];
        }
        from[u] = Place(v), from_length[u] = around.length[i];
        v = u;
      } else if (v != 0) {
        relax(v, from[v], from_length[v]);
        v = from[v];
      } else {
        break;
      }
    }

    std::size_t count = 0;
    for (std::size_t v = 1; v < pins_; ++v) {
      if (!is_broken[v]) continue;
      broken[count++] = Place(v);
      parent_[v] = 0, length_[v] = direct_[v];
    }
    rows_ = nodes_;
    return count;
  }

  // Makes the lists of children and the paths of the rows. Answers the wire.
  std::uint64_t link_rows() {
    std::int64_t wire = 0;
    for (std::size_t k = 0; k < rows_; ++k) child_[k] = kNone;
    for (std::size_t k = rows_ - 1; k > 0; --k) {
      next_[k] = child_[parent_[k]];
      child_[parent_[k]] = Place(k);
      wire += length_[k];
    }
    path_[0] = 0;
    next_[0] = kNone;
    for (std::size_t k = child_[0]; k != kNone; k = after(k, 0)) path_[k] = path_[parent_[k]] + length_[k];
    return static_cast<std::uint64_t>(wire);
  }

  // The row after k where the rows under top are taken, each before its children. None behind the last.
  std::size_t after(std::size_t k, std::size_t top) const {
    if (child_[k] != kNone) return child_[k];
    for (; k != top; k = parent_[k])
      if (next_[k] != kNone) return next_[k];
    return kNone;
  }

  void unlink(Place k) {
    Place* to = &child_[parent_[k]];
    while (*to != k) to = &next_[*to];
    *to = next_[k];
  }

  void link(Place k) {
    Place* to = &child_[parent_[k]];
    while (*to < k) to = &next_[*to];  // kNone is above every row
    next_[k] = *to;
    *to = k;
  }

  void shorten_paths(std::size_t top, std::int64_t by) {
    if (by == 0) return;
    for (std::size_t k = top; k != kNone; k = after(k, top)) path_[k] -= by;
  }

  // ---- joining

  // Puts the meet of a and b between v and both, as a new row. Leaves the lists of children as they were.
  Place insert_meet(std::size_t v, std::size_t a, std::size_t b) {
    const auto z = Place(rows_++);
    spots_.put(z, space_.meet(at(v), at(a), at(b)));
    parent_[z] = Place(v);
    length_[z] = distance(v, z);
    parent_[a] = parent_[b] = z;
    length_[a] = distance(z, a);
    length_[b] = distance(z, b);
    return z;
  }

  std::int32_t meet_distance(Spot v, Spot a, Spot b) const { return space_.distance(v, space_.meet(v, a, b)); }

  // The rows that are joined, in rising order. Each member keeps its first pair with a lower member: how far its meet is from the driver,
  // and the lower member. A pair whose meet is 0 away is none.
  struct Group {
    std::size_t count = 0;
    Spots<kPins> spots;
    Place row[kPins], partner[kPins];
    std::int32_t far[kPins];
  };

  // Finds the first pair of the member i. No meet is farther than `farthest`, so the first that far is enough.
  void find_pair(Group& group, std::size_t i, std::int32_t farthest) const {
    const Spot driver = at(0), spot = group.spots.at(i);
    std::int32_t best = 0;
    group.partner[i] = 0;
    for (std::size_t from = 0; from < i && best < farthest; from += kBlock) {
      const std::size_t to = std::min(from + kBlock, i);
      std::int32_t far[kBlock], most = 0;
      for (std::size_t k = from; k < to; ++k) most = std::max(most, far[k - from] = meet_distance(driver, group.spots.at(k), spot));
      if (most <= best) continue;
      best = most;
      group.partner[i] = group.row[from + static_cast<std::size_t>(std::find(far, far + kBlock, most) - far)];
    }
    group.far[i] = best;
  }

  void add_member(Group& group, Place row) const {
    const std::size_t i = group.count++;
    group.row[i] = row;
    group.spots.put(i, at(row));
    find_pair(group, i, length_[row]);
  }

  // Joins the rows, which hang on the driver and are in rising order. A new row is above all members, so the lower members of an old one
  // only get fewer.
  void join(const Place* rows, std::size_t count) {
    Group group;
    for (std::size_t i = 0; i < count; ++i) add_member(group, rows[i]);

    while (group.count > 1) {
      std::size_t best = 0;
      const auto comes_before = [&group](std::size_t i, std::size_t k) {
        return group.far[i] > group.far[k] || (group.far[i] == group.far[k] && group.partner[i] < group.partner[k]);
      };
      for (std::size_t i = 1; i < group.count; ++i)
        if (group.far[i] != 0 && comes_before(i, best)) best = i;
      if (group.far[best] == 0) return;
      const Place a = group.partner[best], b = group.row[best], z = insert_meet(0, a, b);

      std::size_t kept = 0;
      for (std::size_t i = 0; i < group.count; ++i) {
        if (group.row[i] == a || group.row[i] == b) continue;
        group.row[kept] = group.row[i];
        group.partner[kept] = group.partner[i];
        group.far[kept] = group.far[i];
        group.spots.put(kept, group.spots.at(i));
        if (group.far[i] != 0 && (group.partner[i] == a || group.partner[i] == b)) find_pair(group, kept, group.far[i]);
        ++kept;
      }
      group.count = kept;
      add_member(group, z);
    }
  }

  // ---- moves

  bool under(std::size_t u, std::size_t v) const {
    while (u != v && u != 0) u = parent_[u];
    return u == v;
  }

  // The best hook. Rows are taken in rising order, so a move counts only where it saves more than the best so far: where u is nearer to v
  // than the length of v less that saving. Most rows are not, and whole blocks of them are left out at a time. A row that is under v has no
  // shorter path, so it has to be looked for only where the paths are equal.
  Hook best_hook() const {
    Hook best{0, 0, 0};
    for (std::size_t v = 1; v < rows_; ++v) {
      const Spot spot = at(v);
      std::int32_t nearer_than = length_[v] - best.saving;
      for (std::size_t from = 0; from < rows_ && nearer_than > 0; from += kBlock) {
        const std::size_t to = std::min(from + kBlock, rows_);
        if (least(from, to, spot) >= nearer_than) continue;
        for (std::size_t u = from; u < to; ++u) {
          if (path_[u] > path_[v]) continue;
          const std::int32_t length = space_.distance(at(u), spot);
          if (length >= nearer_than || path_[u] + length > path_[v] || (path_[u] == path_[v] && under(u, v))) continue;
          nearer_than = length;
          best = {length_[v] - length, Place(v), Place(u)};
        }
      }
    }
    return best;
  }

  // The best share. No meet is farther from v than the nearer child, so a child that is no farther than the best so far is left out.
  Share best_share() const {
    Share best{0, 0, 0, 0};
    for (std::size_t v = 0; v < rows_; ++v) {
      for (Place a = child_[v]; a != kNone; a = next_[a]) {
        if (length_[a] <= best.saving) continue;
        for (Place b = next_[a]; b != kNone; b = next_[b]) {
          if (length_[b] <= best.saving) continue;
          const std::int32_t saving = meet_distance(at(v), at(a), at(b));
          if (saving > best.saving) best = {saving, Place(v), a, b};
        }
      }
    }
    return best;
  }

  S space_;
  std::int64_t p_ = 0, q_ = 0;  // the allowance; q is 0 where none is set
  std::size_t pins_ = 0, nodes_ = 0, edge_count_ = 0;
  std::size_t rows_ = 0;  // 0 where no tree stands

  // Of rows, or nodes. What lies behind the counts above means nothing and is not set.
  Spots<kRows> spots_;
  Place parent_[kRows];
  std::int32_t length_[kRows];
  Place child_[kRows];  // the lowest child
  Place next_[kRows];   // the next child of the same parent
  std::int64_t path_[kRows];
  std::int32_t direct_[kNodes];
  Place part_[kNodes];  // ways to the node that stands for all joined with it
  Edge edges_[kNodes];
};

// ---- the text of a job -------------------------------------------------------------------------------------------------------------

constexpr std::size_t kLineBytes = 80;
constexpr std::size_t kAnswerBytes = 128;   // more than any answer but that of T has
constexpr std::size_t kTreeBytes = 32768;   // more than any answer of T has

struct Outcome { std::size_t lines; std::size_t bytes; bool stopped; };

// A line as it was read: a call, or a refusal 20 to 23.
struct Line {
  std::uint8_t refusal = 0;
  std::uint8_t field = 0;
  char letter = 0;
  bool air = false, lift = false;  // of W
  std::int64_t value[3] = {};      // the numbers; of W the price
};

struct Field {
  const unsigned char *begin, *end;

  bool is(const char* word) const {
    const auto n = static_cast<std::size_t>(end - begin);
    return n == std::strlen(word) && std::memcmp(begin, word, n) == 0;
  }
};

// Whether the field is a number from low to high.
inline bool read_number(Field field, std::int64_t low, std::int64_t high, std::int64_t& value) {
  const unsigned char* at = field.begin;
  const bool minus = at != field.end && *at == '-';
  at += minus;
  const auto digits = field.end - at;
  if (digits < 1 || digits > 10) return false;                // the widest bounds have 10 digits
  if (*at == '0' && (digits > 1 || minus)) return false;
  std::int64_t sum = 0;
  for (; at != field.end; ++at) {
    const unsigned digit = *at - unsigned{'0'};
    if (digit > 9) return false;
    sum = 10 * sum + digit;
  }
  value = minus ? -sum : sum;
  return low <= value && value <= high;
}

// How many fields a letter has, and the bounds of their numbers. None for another byte.
struct Shape { std::uint8_t fields; std::int64_t low, high; };

inline Shape shape_of(unsigned char letter) {
  switch (letter) {
    case 'W': return {2, 0, 4294967295};  // or 3
    case 'P': case 'V': return {4, INT32_MIN, INT32_MAX};
    case 'A': case 'E': return {3, 0, 65535};
    case 'K': return {2, 0, 65535};
    case 'U': case 'M': case 'D': case 'J': case 'H': case 'S': case 'T': case 'X': return {1, 0, 0};
    default: return {0, 0, 0};
  }
}

// Asks the questions 20 to 23 of the line from `begin` to `end`.
inline Line read_line(const unsigned char* begin, const unsigned char* end) {
  Line line;
  const auto refuse = [&line](std::uint8_t number, std::size_t field = 0) {
    line.refusal = number;
    line.field = static_cast<std::uint8_t>(field);
    return line;
  };
  if (static_cast<std::size_t>(end - begin) > kLineBytes) return refuse(20);

  constexpr std::size_t kMost = 4;
  Field fields[kMost];
  std::size_t count = 0;
  for (const unsigned char *at = begin, *from = begin;; ++at) {
    if (at != end && *at != ',') continue;
    if (count < kMost) fields[count] = {from, at};
    ++count;
    if (at == end) break;
    from = at + 1;
  }

  if (fields[0].end - fields[0].begin != 1) return refuse(21);
  const Shape shape = shape_of(*fields[0].begin);
  if (shape.fields == 0) return refuse(21);
  line.letter = static_cast<char>(*fields[0].begin);
  line.lift = line.letter == 'W' && count == 3;
  if (count != shape.fields && !line.lift) return refuse(22);

  std::size_t from = 1;
  if (line.letter == 'W') {
    line.air = fields[1].is("air");
    if (!line.air && !fields[1].is("plane")) return refuse(23, 2);
    from = 2;
  }
  for (std::size_t k = from; k < count; ++k)
    if (!read_number(fields[k], shape.low, shape.high, line.value[k - from])) return refuse(23, k + 1);
  return line;
}

// The lines of a job, the output, and how far the run came.
class Run {
 public:
  Run(const unsigned char* job, std::size_t job_len, unsigned char* out, std::size_t out_len)
      : at_(job), end_(job + job_len), out_(out), room_(out_len) {}

  // The next line; false where the job has no more, or where the run has stopped.
  bool next(Line& line) {
    if (stopped_ || at_ == end_) return false;
    const auto* feed = static_cast<const unsigned char*>(std::memchr(at_, '\n', static_cast<std::size_t>(end_ - at_)));
    line = read_line(at_, feed ? feed : end_);
    at_ = feed ? feed + 1 : end_;
    return true;
  }

  bool is_first() const { return lines_ == 0; }

  // Each of these answers the line that was read last.

  void refuse(char layer, unsigned number, unsigned field = 0) {
    char text[kAnswerBytes];
    char* to = start(text, "no");
    *to++ = ',';
    *to++ = layer;
    to = write(to, number);
    to = write(to, field);
    finish(text, to);
  }

  void accept(std::uint64_t value) {
    char text[kAnswerBytes];
    finish(text, write(start(text, "ok"), value));
  }

  void accept(std::uint64_t one, std::uint64_t two) {
    char text[kAnswerBytes];
    finish(text, write(write(start(text, "ok"), one), two));
  }

  // The rows go straight to the output where there is room for any answer, and else by way of the stack.
  template <class S>
  void accept_rows(const Net<S>& net, std::size_t rows) {
    if (room_ >= kTreeBytes) {
      finish_in_place(write_rows(reinterpret_cast<char*>(out_), net, rows));
    } else {
      char text[kTreeBytes];
      finish(text, write_rows(text, net, rows));
    }
  }

  Outcome outcome() const { return {lines_, bytes_, stopped_}; }

 private:
  template <class N>
  static char* write(char* to, N number) {
    *to++ = ',';
    return std::to_chars(to, to + 24, number).ptr;
  }

  char* start(char* to, const char (&word)[3]) const {
    to[0] = word[0];
    to[1] = word[1];
    return write(to + 2, lines_ + 1);
  }

  template <class S>
  char* write_rows(char* to, const Net<S>& net, std::size_t rows) const {
    for (std::size_t k = 0; k < rows; ++k) {
      const Row row = net.row(k).value;
      *to++ = 'N';
      to = write(to, k);
      to = write(to, row.parent);
      to = write(to, row.spot.x);
      to = write(to, row.spot.y);
      to = write(to, row.spot.level);
      to = write(to, row.length);
      *to++ = '\n';
    }
    return write(start(to, "ok"), rows);
  }

  // Ends the answer from `text` to `to`, and copies it to the output if it fits whole.
  void finish(const char* text, char* to) {
    *to++ = '\n';
    const auto n = static_cast<std::size_t>(to - text);
    if (n > room_) {
      stopped_ = true;
      return;
    }
    std::memcpy(out_, text, n);
    count(n);
  }

  void finish_in_place(char* to) {
    *to++ = '\n';
    count(static_cast<std::size_t>(to - reinterpret_cast<char*>(out_)));
  }

  void count(std::size_t n) {
    out_ += n;
    room_ -= n;
    bytes_ += n;
    ++lines_;
  }

  const unsigned char *at_, *end_;
  unsigned char* out_;
  std::size_t room_;
  std::size_t lines_ = 0, bytes_ = 0;
  bool stopped_ = false;
};

// Makes the call of the line, and answers it.
template <class S>
void make_call(Run& run, Net<S>& net, const Line& line) {
  const auto answer = [&run](Number number) {
    if (number.ok()) run.accept(number.value);
    else run.refuse(layer(number.fault), static_cast<unsigned>(number.fault));
  };
  const auto answer_two = [&run](Fault fault, std::uint64_t one, std::uint64_t two) {
    if (fault == Fault::none) run.accept(one, two);
    else run.refuse(layer(fault), static_cast<unsigned>(fault));
  };
  const auto spot = [&line] {
    return Spot{static_cast<std::int32_t>(line.value[0]), static_cast<std::int32_t>(line.value[1]),
                static_cast<std::int32_t>(line.value[2])};
  };
  const auto number = [&line](std::size_t k) { return static_cast<std::size_t>(line.value[k]); };

  switch (line.letter) {
    case 'P': return answer(net.pin(spot()));
    case 'A': return answer(net.allow(line.value[0], line.value[1]));
    case 'V': return answer(net.steiner(spot()));
    case 'E': return answer(net.edge(number(0), number(1)));
    case 'U': net.unseed(); return answer(0);
    case 'M': return answer(net.span());
    case 'D': return answer(net.straight());
    case 'H': return answer(net.hook());
    case 'J':
      if constexpr (S::joins) return answer(net.joined());
      else return run.refuse('t', 25);
    case 'S':
      if constexpr (S::joins) return answer(net.share());
      else return run.refuse('t', 25);
    case 'T': {
      const Number rows = net.rows();
      return rows.ok() ? run.accept_rows(net, rows.value) : answer(rows);
    }
    case 'K': {
      const Answer<PinPath> path = net.path(number(0));
      return answer_two(path.fault, path.value.path, path.value.direct);
    }
    case 'X': {
      const Answer<Worst> worst = net.worst();
      return answer_two(worst.fault, worst.value.sink, worst.value.figure);
    }
  }
  run.refuse('t', 24);  // W
}

// Accepts line 1, which has chosen the space, and runs the lines behind it.
template <class S>
void run_net(Run& run, S space) {
  const std::unique_ptr<Net<S>> net(new Net<S>(space));
  run.accept(0);
  for (Line line; run.next(line);) {
    if (line.refusal != 0) run.refuse('t', line.refusal, line.field);
    else make_call(run, *net, line);
  }
}

inline Outcome run(const unsigned char* job, std::size_t job_len, unsigned char* out, std::size_t out_len) {
  Run run(job, job_len, out, out_len);
  for (Line line; run.next(line);) {
    if (line.refusal != 0) {
      run.refuse('t', line.refusal, line.field);
    } else if (line.letter != 'W' || !run.is_first()) {
      run.refuse('t', 24);
    } else {
      const auto price = static_cast<std::uint32_t>(line.value[0]);
      if (line.lift && line.air) run_net(run, Lift<Air>{{}, price});
      else if (line.lift) run_net(run, Lift<Plane>{{}, price});
      else if (line.air) run_net(run, Air{});
      else run_net(run, Plane{});
    }
  }
  return run.outcome();
}

}  // namespace second

#ifdef SECOND_MAIN
int main() {
  constexpr std::size_t kBytes = 65536;
  static unsigned char job[kBytes], out[kBytes];
  const std::size_t job_len = std::fread(job, 1, kBytes, stdin);
  const second::Outcome ran = second::run(job, job_len, out, kBytes);
  return std::fwrite(out, 1, ran.bytes, stdout) == ran.bytes && std::fflush(stdout) == 0 ? 0 : 1;
}
#endif
