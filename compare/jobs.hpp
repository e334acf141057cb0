// Jobs from a seed: the same number gives the same job on every machine.
#pragma once
#include <algorithm>
#include <array>
#include <cstdint>
#include <string>
#include <utility>
#include <vector>

namespace jobs {

// splitmix64.
class Random {
 public:
  explicit Random(std::uint64_t seed) : state_(seed) {}

  std::uint64_t next() {
    std::uint64_t z = (state_ += 0x9E3779B97F4A7C15u);
    z = (z ^ (z >> 30)) * 0xBF58476D1CE4E5B9u;
    z = (z ^ (z >> 27)) * 0x94D049BB133111EBu;
    return z ^ (z >> 31);
  }
  std::uint64_t below(std::uint64_t n) { return n == 0 ? 0 : next() % n; }
  std::int64_t range(std::int64_t low, std::int64_t high) {
    return low + static_cast<std::int64_t>(below(static_cast<std::uint64_t>(high - low) + 1));
  }
  bool percent(unsigned p) { return below(100) < p; }
  template <class T, std::size_t N>
  T one_of(const T (&list)[N]) {
    return list[below(N)];
  }
  template <class T>
  void shuffle(std::vector<T>& list) {
    for (std::size_t i = list.size(); i > 1; --i) std::swap(list[i - 1], list[below(i)]);
  }

 private:
  std::uint64_t state_;
};

struct Point {
  std::int64_t x, y, level;
};

// Writes a job. Follows along which spots the net takes, so that edges can be written which it takes too.
class Maker {
 public:
  explicit Maker(std::uint64_t seed) : r_(seed * 0x2545F4914F6CDD1Du + 0x9E3779B9u) {}

  std::string make() {
    if (r_.percent(1)) return junk();
    const bool ray = r_.below(500) == 0, huge = !ray && r_.below(200) == 0, crowd = !ray && !huge && r_.percent(1);
    ray_ = ray;
    choose_space(ray || huge || crowd);
    if (ray) {
      full_ray();
    } else if (huge) {
      huge_net();
    } else if (crowd) {
      crowded();
    } else {
      const unsigned size = static_cast<unsigned>(r_.below(100));
      const std::int64_t most = size < 64 ? r_.range(0, 12) : size < 95 ? r_.range(2, 40) : r_.range(40, 120);
      pins(most);
      for (std::int64_t turns = r_.range(1, 4); turns > 0; --turns) episode(most);
    }
    if (r_.percent(34)) damage();
    if (r_.percent(10) && !text_.empty()) text_.pop_back();
    if (r_.below(300) == 0) text_.clear();
    return std::move(text_);
  }

 private:
  // ---- lines

  void line(const std::string& text) { text_ += text + '\n'; }
  static std::string n(std::int64_t number) { return std::to_string(number); }

  void choose_space(bool huge) {
    const bool lifted = r_.percent(60);
    air_ = !ray_ && r_.percent(huge ? 15 : 33);
    static const std::int64_t usual[] = {0, 0, 1, 1, 2, 3, 5, 7, 10, 25, 40, 100, 1000, 100000, 6400000, 6478104};
    static const std::int64_t odd[] = {6399999, 6400001, 6478103, 6478105, 6478200, 2147483648, 4294967294, 4294967295};
    price_ = r_.percent(95) || huge ? r_.one_of(usual) : r_.one_of(odd);
    if (!lifted) price_ = -1;
    wide_ = lifted && price_ > (air_ ? 6478104 : 6400000);
    if (huge && wide_) {
      price_ = 3;
      wide_ = false;
    }
    if (r_.percent(1)) {
      static const char* const bad[] = {"W", "W,", "W,copper", "W,plane,", "W,plane,-1", "W,air,4294967296", "W,plane,1,1", "w,plane",
                                        "W,plane ", "W,plane,01", "W,,5", "W,Plane", "W,air,x", "W,planes", "W,pla", "M"};
      return line(r_.one_of(bad));
    }
    if (r_.percent(1)) return;  // no W at all
    line(std::string("W,") + (air_ ? "air" : "plane") + (lifted ? "," + n(price_) : ""));
  }

  void any_other(std::int64_t most) {
    static const char* const odd[] = {"", ",", "Q", "p,1,2,0", "H ", "HH", "P,1,2", "P,1,2,3,4", "V,1", "A,1", "A,1,2,3", "E,0", "E,0,1,2",
        "K", "K,1,2", "X,", "U,1", "T,0", "M,", "D,1", "J,1", "S,", "W,plane", "W,air,3", "W,air,", "W,copper", "P,+1,0,0", "P,01,0,0",
        "P,0,-0,0", "P,,0,0", "P,0,0,", "P,-,0,0", "P,--1,0,0", "P,1-,0,0", "P,2147483647,0,0", "P,2147483648,0,0", "P,0,-2147483648,0",
        "P,0,-2147483649,0", "P,0,0,16", "P,0,0,-1", "P,1000001,0,0", "P,0,-1000001,0", "V,1000001,0,0", "V,0,0,16", "A,1001,1", "A,1,0",
        "A,1,1001", "A,0,0", "A,1000,1000", "A,65535,1", "A,65536,1", "A,1,-1", "E,65535,0", "E,0,65536", "E,0,-1", "E,1,1", "E,0,0",
        "K,65535", "K,65536", "K,-1", "K,00", "K,0x1", "K, 1", "K,1 ", "T\r", "M\r", "P,1,1,0\r", "A,1,4\r", "\r", " ", "\t", "X,X",
        "P,1.0,0,0", "P,1e3,0,0", "P,99999999999999999999,0,0", "P,0,0,4294967296", "P,00000000000,0,0", "A,000,1", "P,-01,0,0", "K,-0",
        "\xC3\xA9", "\xEF\xBB\xBFM", "P,\xD9\xA1,0,0", "P,1,2147483646,0", "E,256,1", "E,0,511", "E,512,0", "K,255", "K,256", "V,0,0,x",
        "V,+0,0,0", "A,x,1", "A,1,x", "E,x,1", "E,1,x", "W,plane,4294967296", "W,air,4294967295", "P,1,2,0,", ",P", "P,0;0,0", "P,2147483649,x,"};
    static const char* const limits[] = {"-2147483649", "-2147483648", "2147483647", "2147483648", "0", "-1", "1", "65535", "65536", "1000",
        "1001", "4294967295", "4294967296", "1000000", "-1000000", "1000001", "-1000001", "15", "16", "9999999999", "10000000000", "255", "256"};
    switch (r_.below(10)) {
      case 8: {
        const std::string level = r_.percent(50) ? "0" : r_.one_of(limits), y = r_.one_of(limits), x = r_.one_of(limits), head = r_.percent(70) ? "P," : "V,";
        return line(head + x + "," + y + "," + level);
      }
      case 9: {
        if (r_.percent(30)) return line(std::string("K,") + r_.one_of(limits));
        const std::string b = r_.one_of(limits), a = r_.one_of(limits), head = r_.percent(50) ? "A," : "E,";
        return line(head + a + "," + b);
      }
      case 0: {  // lines about 80 bytes long
        const std::size_t length = static_cast<std::size_t>(r_.range(78, 83));
        static const char* const heads[] = {"P,", "M", "W,plane", "K,", "Q", ",", "P,1,2,0,", "A,1,"};
        std::string text = r_.one_of(heads);
        const char fill = r_.one_of({'0', ',', '1', ' ', 'x'});
        while (text.size() < length) text += fill;
        return line(text);
      }
      case 1: {
        const std::int64_t b = r_.range(0, most + 3), a = r_.range(0, most + 3);
        return line("E," + n(a) + "," + n(b));
      }
      case 2: return line(std::string("") + r_.one_of({'U', 'M', 'D', 'J', 'H', 'S', 'T', 'X'}));
      case 3: return line("K," + n(r_.range(0, most + 2)));
      case 4: return line(std::string("V,") + spot_text(somewhere()));
      default: return line(std::string(r_.one_of(odd)));
    }
  }

  void sprinkle(std::int64_t most) {
    if (r_.percent(12)) any_other(most);
  }

  static std::string spot_text(Point s) { return n(s.x) + "," + n(s.y) + "," + n(s.level); }

  // ---- what the net takes

  bool admitted(Point s) const {
    const std::int64_t top = price_ < 0 ? 0 : 15;
    return 0 <= s.level && s.level <= top && -1000000 <= s.x && s.x <= 1000000 && -1000000 <= s.y && s.y <= 1000000;
  }
  bool apart(Point a, Point b) const { return a.x != b.x || a.y != b.y || (price_ > 0 && a.level != b.level); }

  void pin(Point s) {
    line("P," + spot_text(s));
    if (wide_ || !admitted(s) || pins_ == 256) return;
    for (std::size_t k = 0; k < pins_; ++k)
      if (!apart(nodes_[k], s)) return;
    nodes_.resize(pins_);
    nodes_.push_back(s);
    ++pins_;
  }

  void steiner(Point s) {
    line("V," + spot_text(s));
    if (pins_ < 2 || !admitted(s) || nodes_.size() - pins_ == 256) return;
    nodes_.push_back(s);
  }

  // ---- spots

  std::int64_t a_level() {
    if (price_ < 0) return r_.below(200) == 0 ? r_.range(-1, 2) : 0;
    if (r_.below(200) == 0) return r_.one_of({-1, 15, 16, 17});
    return r_.range(0, levels_);
  }

  Point somewhere() {
    const Point& c = centre_;
    switch (shape_) {
      case 0: return {c.x + r_.range(0, wide_x_), c.y + r_.range(0, wide_y_), a_level()};            // a grid
      case 1: return {c.x + r_.range(-wide_x_, wide_x_), c.y, a_level()};                            // along x
      case 2: return {c.x, c.y + r_.range(-wide_x_, wide_x_), a_level()};                            // along y
      case 3: {                                                                                      // a diagonal
        const std::int64_t d = r_.range(-wide_x_, wide_x_);
        return {c.x + d, c.y + (wide_y_ % 2 ? d : -d), a_level()};
      }
      case 4: return {c.x + 10 * r_.range(0, 3) * (1 + wide_x_), c.y + r_.range(0, wide_y_), a_level()};  // a bus
      case 5: {                                                                                      // a star about the centre
        const std::int64_t d = wide_x_ * r_.range(1, 3);
        static const int way[8][2] = {{1, 0}, {0, 1}, {-1, 0}, {0, -1}, {1, 1}, {1, -1}, {-1, 1}, {-1, -1}};
        const auto& w = way[r_.below(8)];
        return {c.x + w[0] * d, c.y + w[1] * d, a_level()};
      }
      case 6: {                                                                                      // a comb
        const std::int64_t x = r_.range(0, wide_x_) * 3;
        return {c.x + x, c.y + (r_.percent(40) ? 0 : wide_y_), a_level()};
      }
      case 7: {                                                                                      // clusters
        const std::int64_t far = 100 * (1 + wide_x_);
        const std::int64_t column = r_.range(0, 2), dx = r_.range(0, 4), row = r_.range(0, 1), dy = r_.range(0, 4);
        return {c.x + far * column + dx, c.y + far * row + dy, a_level()};
      }
      case 8: {                                                                                      // the ends of plane
        const auto end = [this] {
          const std::int64_t at = r_.one_of({-1000000, 1000000, 999999, 0, -999999});
          return at + (r_.percent(3) ? r_.range(-1, 1) : 0);
        };
        return {end(), end(), a_level()};
      }
      case 9: {                                                                                      // one quarter, on a ring of equal |x| + |y|
        const std::int64_t d = r_.range(0, wide_x_);
        return {c.x + d, c.y + wide_x_ - d, a_level()};
      }
      case 10: {                                                                                     // steps
        const std::int64_t d = r_.range(0, 2 * wide_x_);
        return {c.x + (d + 1) / 2, c.y + d / 2, a_level()};
      }
      default: return {r_.range(-1000000, 1000000), r_.range(-1000000, 1000000), a_level()};
    }
  }

  void choose_shape(std::int64_t count) {
    shape_ = static_cast<unsigned>(r_.below(13));
    if (r_.percent(25)) shape_ = 0;
    levels_ = r_.one_of({0, 1, 2, 3, 15});
    const std::int64_t span = r_.one_of({1, 2, 3, 4, 6, 10, 20, 100, 1000, 100000});
    wide_x_ = std::max<std::int64_t>(span, count / 8);
    wide_y_ = r_.percent(50) ? wide_x_ : std::max<std::int64_t>(1, r_.one_of({1, 2, 3, 7}));
    if (shape_ == 0 && wide_x_ * wide_y_ < count) wide_y_ = wide_x_ = count;
    centre_ = {r_.range(-5, 5), r_.range(-5, 5), 0};
    if (r_.percent(3)) centre_ = {r_.one_of({-1000000, 999990, 0}), r_.one_of({-1000000, 999990, 0}), 0};
  }

  void pins(std::int64_t count) {
    choose_shape(count);
    for (std::int64_t i = 0; i < count; ++i) {
      pin(i == 0 && r_.percent(60) ? centre_ : somewhere());
      if (r_.percent(2)) sprinkle(count);
    }
  }

  // ---- seeds

  std::size_t part(std::vector<std::size_t>& parts, std::size_t k) {
    while (parts[k] != k) k = parts[k];
    return k;
  }

  // Edges between the nodes, by hand: a chain, a star, or some tree, with a few that close loops.
  void edges(bool whole, bool star = false) {
    const std::size_t count = nodes_.size();
    if (count < 2) return;
    std::vector<std::size_t> order(count), parts(count);
    for (std::size_t k = 0; k < count; ++k) order[k] = parts[k] = k;
    const unsigned kind = star ? 1 : static_cast<unsigned>(r_.below(6));
    if (kind != 1 && r_.percent(60)) r_.shuffle(order);
    const auto join = [&](std::size_t a, std::size_t b) {
      if (r_.percent(50)) std::swap(a, b);
      if (part(parts, a) == part(parts, b) || !apart(nodes_[a], nodes_[b])) return false;
      line("E," + n(static_cast<std::int64_t>(a)) + "," + n(static_cast<std::int64_t>(b)));
      parts[part(parts, a)] = part(parts, b);
      return true;
    };
    for (std::size_t i = 1; i < count; ++i) {
      if (!whole && r_.percent(10)) continue;
      std::size_t to = 0;
      switch (kind) {
        case 0: to = i - 1; break;                                             // a chain
        case 1: to = 0; break;                                                 // a star
        case 2: to = i / 2; break;                                             // a heap
        case 3: to = i - 1 - r_.below(std::min<std::size_t>(i, 4)); break;     // a bushy chain
        case 4: to = i > 4 ? r_.below(4) : 0; break;                           // few hubs
        default: to = r_.below(i);
      }
      bool done = join(order[i], order[to]);
      for (std::size_t t = 0; !done && t < i; ++t) done = join(order[i], order[t]);
      if (r_.percent(3)) {
        const std::int64_t b = r_.range(0, static_cast<std::int64_t>(count)), a = r_.range(0, static_cast<std::int64_t>(count));
        line("E," + n(a) + "," + n(b));
      }
    }
  }

  // Steiner points: some anywhere, some on pins, some at corners of two pins.
  void points(std::int64_t count) {
    for (std::int64_t i = 0; i < count; ++i) {
      if (pins_ < 2 || r_.percent(30)) {
        steiner(somewhere());
        continue;
      }
      const Point a = nodes_[r_.below(nodes_.size())], b = nodes_[r_.below(nodes_.size())];
      steiner(r_.percent(15) ? a : Point{a.x, b.y, r_.percent(50) ? a.level : b.level});
    }
  }

  void allowance() {
    static const char* const usual[] = {"0,1", "1,4", "1000,1", "0,1000", "199,100", "2,1", "1,1", "1,1000", "1,2", "3,10", "1000,1000",
                                        "1,3", "0,1", "1,10", "1,5", "0,7", "333,1000", "999,1000"};
    if (r_.percent(90)) {
      allowed_ = true;
      return line(std::string("A,") + r_.one_of(usual));
    }
    const std::int64_t q = r_.range(0, 1010), p = r_.range(0, 1010);
    line("A," + n(p) + "," + n(q));
  }

  void reading(std::int64_t most) {
    if (r_.percent(40)) line("T");
    if (r_.percent(40)) line("X");
    if (r_.percent(40)) line("K," + n(r_.range(0, std::max<std::int64_t>(static_cast<std::int64_t>(pins_), most))));
  }

  void build() { line(r_.percent(air_ ? 85 : 40) ? "D" : "J"); }

  void moves(std::int64_t most) {
    std::int64_t hooks = 0, shares = 0;
    switch (r_.below(4)) {
      case 0: hooks = r_.range(0, 3); shares = r_.range(0, 3); break;
      case 1: hooks = r_.range(0, most); break;
      case 2: shares = r_.range(0, most); break;
      default: hooks = shares = r_.range(0, most);
    }
    hooks = (hooks + 1) / 2;
    if (pins_ < 2 || !allowed_) hooks = std::min<std::int64_t>(hooks, 1), shares = std::min<std::int64_t>(shares, 1);
    const bool in_turn = r_.percent(50);
    if (air_ && !r_.percent(10)) shares = 0;
    while (hooks + shares > 0) {
      const bool hook = in_turn ? hooks >= shares : static_cast<std::int64_t>(r_.below(static_cast<std::uint64_t>(hooks + shares))) < hooks;
      line(hook && hooks > 0 ? "H" : shares > 0 ? "S" : "H");
      if (hook && hooks > 0) --hooks;
      else if (shares > 0) --shares;
      else --hooks;
      if (r_.percent(4)) reading(most);
    }
  }

  // A seed, an allowance, builds and moves: mostly in a sensible order.
  void episode(std::int64_t most) {
    if (r_.percent(75)) allowance();
    sprinkle(most);
    switch (r_.below(11)) {
      case 10:  // a pin drops the seed; another is laid at once
        pin(somewhere());
        if (r_.percent(50)) points(r_.range(1, 3));
        edges(!r_.percent(8));
        break;
      case 0: case 1: case 2: case 3:
        line("M");
        nodes_.resize(pins_);
        break;
      case 4:
        line("M");
        nodes_.resize(pins_);
        points(r_.range(0, 4));
        for (std::size_t k = pins_; k < nodes_.size(); ++k)
          line("E," + n(static_cast<std::int64_t>(k)) + "," + n(r_.range(0, static_cast<std::int64_t>(k) - 1)));
        break;
      case 5:
        break;  // the seed as it stands
      default:
        line("U");
        nodes_.resize(pins_);
        if (r_.percent(60)) points(r_.range(0, 1 + most));
        edges(!r_.percent(8));
    }
    sprinkle(most);
    if (r_.percent(30)) allowance();
    if (r_.percent(5)) reading(most);
    for (std::int64_t builds = r_.range(1, 2); builds > 0; --builds) {
      build();
      reading(most);
      if (r_.percent(85)) moves(2 + most);
      reading(most);
      sprinkle(most);
    }
    if (r_.percent(5)) pins(r_.range(1, 3));
    if (r_.percent(70)) line("T");
  }

  // 256 pins and often 256 Steiner points, and beyond.
  void huge_net() {
    const bool full = r_.percent(70);
    pins(full ? 200 : r_.range(100, 250));
    shape_ = 99;
    for (std::int64_t tries = full ? 257 - static_cast<std::int64_t>(pins_) + r_.range(0, 3) : 0; tries > 0; --tries) pin(somewhere());
    const std::int64_t kind = r_.range(0, 3);
    line(kind == 0 ? "A,1000,1" : kind == 1 ? "A,0,1" : r_.percent(50) ? "A,1,4" : "A,0,7");
    if (kind == 3) {
      line("M");
      nodes_.resize(pins_);
    } else {
      if (full || r_.percent(50)) {
        const std::int64_t levels = levels_;
        points(r_.percent(50) ? 258 : 240);
        for (std::int64_t i = 0; nodes_.size() < pins_ + 256 && i < 300; ++i) steiner(somewhere());
        levels_ = levels;
      }
      edges(true, kind == 0);
    }
    if (r_.percent(50)) line("D");
    line(air_ || (kind == 0 && r_.percent(50)) ? "D" : "J");
    line("T");
    const std::int64_t shares = air_ ? 1 : kind == 0 ? r_.range(250, 300) : r_.range(10, 60);
    for (std::int64_t i = 0; i < shares; ++i) line("S");
    for (std::int64_t i = r_.range(3, 30); i > 0; --i) line("H");
    for (std::int64_t i = r_.range(1, 10); i > 0; --i) line("S");
    line("X");
    for (std::int64_t i = r_.range(1, 6); i > 0; --i) line("K," + n(r_.range(0, 257)));
    line("T");
  }

  // More pins or more Steiner points than there may be, and little else.
  void crowded() {
    pins(r_.range(2, 5));
    shape_ = 99;
    if (pins_ < 2) pin(somewhere());
    if (r_.percent(50)) {
      for (std::int64_t i = r_.range(252, 260); i > 0; --i) pin(somewhere());
      for (std::int64_t i = r_.range(1, 4); i > 0; --i) pin(r_.percent(40) ? outside() : r_.percent(50) && pins_ > 0 ? nodes_[0] : somewhere());
      line("M");
    } else {
      for (std::int64_t i = r_.range(255, 262); i > 0; --i) steiner(r_.percent(5) && pins_ > 0 ? nodes_[0] : somewhere());
      for (std::int64_t i = r_.range(1, 4); i > 0; --i) steiner(r_.percent(40) ? outside() : somewhere());
      if (r_.percent(50)) edges(false);
    }
    allowance();
    if (r_.percent(40)) build();
    if (r_.percent(40)) line("U");
    reading(300);
    pin(somewhere());
    steiner(somewhere());
  }

  Point outside() {
    static const Point list[] = {{1000001, 0, 0}, {0, -1000001, 0}, {5, 5, 16}, {5, 5, -1}, {2147483647, 0, 0}, {0, 0, -2147483648LL}};
    return r_.one_of(list);
  }

  // Spots on one ray from the driver, all hung on it. Sharing gives as many rows again but two, so it ends where the rows do, or about there.
  void full_ray() {
    std::vector<std::int64_t> places(400);
    for (std::size_t k = 0; k < places.size(); ++k) places[k] = static_cast<std::int64_t>(k) + 1;
    r_.shuffle(places);
    const std::int64_t leaves = r_.percent(60) ? 384 : 384 + r_.range(-1, 1), step = r_.range(1, 2000);
    pin({0, 0, 0});
    for (std::int64_t k = 0; k < leaves; ++k) {
      const Point s{0, -step * places[static_cast<std::size_t>(k)], 0};
      if (k < 255) pin(s);
      else steiner(s);
    }
    line("A,1000,1");
    for (std::int64_t k = 1; k <= leaves; ++k) line(r_.percent(50) ? "E,0," + n(k) : "E," + n(k) + ",0");
    line("D");
    for (std::int64_t k = 0; k < leaves + 1; ++k) line("S");
    line("T");
    for (std::int64_t k = r_.range(1, 5); k > 0; --k) line(r_.percent(50) ? "H" : "S");
    reading(256);
  }

  std::string junk() {
    std::string text;
    if (r_.percent(50)) text = "W,plane\n";
    static const char bytes[] = "WPAVEUMDJHSTKX,,,,0123456789-+\n\n\n \r";
    for (std::int64_t i = r_.range(0, 300); i > 0; --i)
      text += r_.percent(4) ? static_cast<char>(r_.below(256)) : bytes[r_.below(sizeof bytes - 1)];
    return text;
  }

  // ---- damage

  // A line of the text, as where it begins and where its byte 10 is.
  std::pair<std::size_t, std::size_t> a_line() {
    const std::size_t at = r_.below(text_.size());
    std::size_t from = at == 0 ? std::string::npos : text_.rfind('\n', at - 1);
    from = from == std::string::npos ? 0 : from + 1;
    std::size_t to = text_.find('\n', from);
    if (to == std::string::npos) to = text_.size();
    return {from, to};
  }

  void damage() {
    const bool spare_first = r_.percent(80);
    std::string first;
    if (spare_first) {
      const std::size_t cut = text_.find('\n');
      if (cut != std::string::npos) {
        first = text_.substr(0, cut + 1);
        text_.erase(0, cut + 1);
      }
    }
    for (std::int64_t i = r_.percent(70) ? r_.range(1, 3) : r_.range(1, 20); i > 0 && !text_.empty(); --i) damage_once();
    text_ = first + text_;
  }

  void damage_once() {
    const std::size_t at = r_.below(text_.size());
    const auto [from, to] = a_line();
    const std::string old = text_.substr(from, to - from);
    const std::size_t comma = old.rfind(',', r_.below(old.size() + 1));
    switch (r_.below(18)) {
      case 0: text_[at] = static_cast<char>(static_cast<unsigned char>(text_[at]) ^ (1u << r_.below(8))); break;
      case 1: text_.erase(at, static_cast<std::size_t>(r_.range(1, 3))); break;
      case 2: text_.insert(at, 1, text_[at]); break;
      case 3: text_.erase(from, to - from + 1); break;
      case 4: text_.insert(from, old + "\n"); break;
      case 5:  // a field less
        if (comma != std::string::npos) {
          const std::size_t end = old.find(',', comma + 1);
          text_.erase(from + comma, (end == std::string::npos ? old.size() : end) - comma);
        }
        break;
      case 6:  // a field twice
        if (comma != std::string::npos) {
          const std::size_t end = old.find(',', comma + 1);
          text_.insert(from + comma, old.substr(comma, (end == std::string::npos ? old.size() : end) - comma));
        }
        break;
      case 7: text_.insert(from, "\n"); break;
      case 8: text_.insert(to, "\r"); break;
      case 9: {
        const char with = r_.one_of({' ', '0', ','});
        const std::int64_t more = r_.range(79, 82) - static_cast<std::int64_t>(old.size());
        text_.insert(to, static_cast<std::size_t>(std::max<std::int64_t>(0, more)), with);
        break;
      }
      case 10: if (comma != std::string::npos) text_.insert(from + comma + 1, "0"); break;
      case 11: if (comma != std::string::npos) text_.insert(from + comma + 1, r_.percent(50) ? "+" : "-"); break;
      case 12: if (comma != std::string::npos) text_.insert(from + comma + 1, r_.percent(50) ? "-0," : "99999999999"); break;
      case 13: text_.insert(at, 1, static_cast<char>(r_.below(256))); break;
      case 14: if (!old.empty()) text_[from] = static_cast<char>('A' + r_.below(26)); break;
      case 15: text_.insert(from, r_.percent(50) ? "W,plane\n" : "W,air,7\n"); break;
      case 16: text_.insert(at, r_.percent(50) ? std::string(1, '\0') : std::string("\xC3\xA4")); break;
      default: {  // any line
        std::string rest = text_.substr(from);
        text_.erase(from);
        any_other(8);
        text_ += rest;
      }
    }
  }

  Random r_;
  std::string text_;
  bool air_ = false, wide_ = false, allowed_ = false, ray_ = false;
  std::int64_t price_ = -1;  // -1 where there is no lift
  std::vector<Point> nodes_;
  std::size_t pins_ = 0;
  unsigned shape_ = 0;
  std::int64_t levels_ = 0, wide_x_ = 1, wide_y_ = 1;
  Point centre_{0, 0, 0};
};

inline std::string make(std::uint64_t seed) { return Maker(seed).make(); }

}  // namespace jobs
