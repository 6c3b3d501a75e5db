// Checks the laws of a category text: a plain baseline for the speed of `check`.
//
// Build: g++ -O2 -std=c++17 -o plain_check bench/plain_check.cpp
// Use:   plain_check CATEGORY
//
// It tries the rules and then the laws in this order: units of F, R and w; real weights, inverse
// weights, norms of R; H and S are formed; both inverses of F; rigidity; pentagon; both hexagons.
// Each law goes over its indices in label order, and each product, sum and conjugate has its fit
// test.  It prints `accepted root N labels K`, or `refused` or `limit overflow` with the first law
// and index.  To standard error go the number of pentagon equations that were tried and the
// seconds.
//
// A number is sixteen numerators over one denominator; zero numerators are skipped, and it is
// brought to lowest terms where the denominator isn't 1.  Symbols stand in a direct table.  A text
// that isn't well formed is named by its line alone, and limits on the lengths of texts, lines and
// names aren't looked at.

#include <algorithm>
#include <chrono>
#include <cstdio>
#include <cstdlib>
#include <ctime>
#include <deque>
#include <fstream>
#include <initializer_list>
#include <iterator>
#include <numeric>
#include <set>
#include <sstream>
#include <string>
#include <vector>

using Int = __int128;
using Nat = unsigned __int128;

constexpr Nat LARGEST = (Nat(1) << 127) - 1;
constexpr int PARTS = 16;
constexpr int LARGEST_ROOT = 60;
constexpr size_t LARGEST_COUNT = 12;

// ---------------------------------------------------------------------------
// Numbers
// ---------------------------------------------------------------------------

// Thrown where a fit test is false.
struct Overflow {};

struct Number {
    Int parts[PARTS] = {};
    Int den = 1;
};

Nat magnitude(Int x) { return x < 0 ? -Nat(x) : Nat(x); }

Nat times(Nat x, Nat y) {
    Nat out;
    if (__builtin_mul_overflow(x, y, &out)) throw Overflow{};
    return out;
}

Nat plus(Nat x, Nat y) {
    Nat out;
    if (__builtin_add_overflow(x, y, &out)) throw Overflow{};
    return out;
}

Nat fitting(Nat x) {
    if (x > LARGEST) throw Overflow{};
    return x;
}

Nat common(Nat x, Nat y) {
    while (y != 0) {
        Nat rest = x % y;
        x = y;
        y = rest;
    }
    return x;
}

bool same(const Number& x, const Number& y) {
    return x.den == y.den && std::equal(x.parts, x.parts + PARTS, y.parts);
}

bool is_zero(const Number& x) {
    return std::all_of(x.parts, x.parts + PARTS, [](Int p) { return p == 0; });
}

Number whole(int n) {
    Number out;
    out.parts[0] = n;
    return out;
}

// The numerators of a value on the way, and the sums of the magnitudes of their items.
struct Sums {
    Nat value[PARTS] = {};
    Nat size[PARTS] = {};

    void add(int place, Nat item, bool negative) {
        size[place] = plus(size[place], item);
        value[place] += negative ? -item : item;
    }
};

int euler(int n) {
    int count = 0;
    for (int k = 1; k <= n; k++) count += std::gcd(k, n) == 1;
    return count;
}

// The cyclotomic polynomial, low coefficient first: x^n - 1 divided by those of the divisors.
std::vector<int> cyclotomic(int n) {
    std::vector<int> rest(n + 1);
    rest[0] = -1;
    rest[n] = 1;
    for (int d = 1; d < n; d++) {
        if (n % d != 0) continue;
        std::vector<int> divisor = cyclotomic(d), out(rest.size() - divisor.size() + 1);
        for (size_t i = out.size(); i-- > 0;) {
            out[i] = rest[i + divisor.size() - 1];
            for (size_t j = 0; j < divisor.size(); j++) rest[i + j] -= out[i] * divisor[j];
        }
        rest = out;
    }
    return rest;
}

class Ring {
public:
    explicit Ring(int root) : root(root), phi(euler(root)) {
        std::vector<int> poly = cyclotomic(root), row(phi);
        row[0] = 1;
        for (int k = 0; k < root; k++) {
            powers.push_back({});
            for (int j = 0; j < phi; j++)
                if (row[j] != 0) powers[k].push_back({j, Nat(std::abs(row[j])), row[j] < 0});
            int top = row[phi - 1];
            for (int j = phi - 1; j >= 0; j--) row[j] = (j > 0 ? row[j - 1] : 0) - top * poly[j];
        }
    }

    Number mul(const Number& x, const Number& y) const {
        Sums sums;
        for (int a = 0; a < phi; a++) {
            if (x.parts[a] == 0) continue;
            for (int b = 0; b < phi; b++) {
                if (y.parts[b] == 0) continue;
                Nat item = times(magnitude(x.parts[a]), magnitude(y.parts[b]));
                spread(sums, (a + b) % root, item, (x.parts[a] < 0) != (y.parts[b] < 0));
            }
        }
        return reduced(sums, fitting(times(x.den, y.den)));
    }

    Number add(const Number& x, const Number& y) const {
        Nat g = common(x.den, y.den), left = Nat(y.den) / g, right = Nat(x.den) / g;
        Sums sums;
        for (int j = 0; j < phi; j++) {
            if (x.parts[j] != 0) sums.add(j, times(magnitude(x.parts[j]), left), x.parts[j] < 0);
            if (y.parts[j] != 0) sums.add(j, times(magnitude(y.parts[j]), right), y.parts[j] < 0);
        }
        return reduced(sums, fitting(times(x.den, left)));
    }

    Number conj(const Number& x) const {
        Sums sums;
        for (int a = 0; a < phi; a++)
            if (x.parts[a] != 0)
                spread(sums, (root - a) % root, magnitude(x.parts[a]), x.parts[a] < 0);
        return reduced(sums, x.den);
    }

    // A product of several factors, formed from the left.
    Number product(std::initializer_list<const Number*> factors) const {
        Number out = **factors.begin();
        for (auto at = factors.begin() + 1; at != factors.end(); ++at) out = mul(out, **at);
        return out;
    }

    // The value with these parts over a denominator that isn't zero, in lowest terms.
    Number reduced(const Sums& sums, Nat den) const {
        Number out;
        for (int j = 0; j < phi; j++) {
            fitting(sums.size[j]);
            out.parts[j] = Int(sums.value[j]);
        }
        out.den = Int(den);
        if (den == 1) return out;
        Nat g = den;
        for (int j = 0; j < phi && g != 1; j++)
            if (out.parts[j] != 0) g = common(g, magnitude(out.parts[j]));
        if (g == 1) return out;
        for (int j = 0; j < phi; j++)
            if (out.parts[j] != 0) out.parts[j] /= Int(g);
        out.den /= Int(g);
        return out;
    }

    const int root;
    const int phi;

private:
    struct Term {
        int place;
        Nat size;
        bool negative;
    };

    // Adds an item times z^k.
    void spread(Sums& sums, int k, Nat item, bool negative) const {
        for (const Term& term : powers[k]) {
            Nat part = term.size == 1 ? item : times(item, term.size);
            sums.add(term.place, part, negative != term.negative);
        }
    }

    std::vector<std::vector<Term>> powers;
};

// ---------------------------------------------------------------------------
// Rules and symbols
// ---------------------------------------------------------------------------

// What is printed instead of `accepted`: the word `refused` or `limit overflow`, a law, an index.
struct Event {
    std::string kind;
    std::string law;
    std::vector<int> index;
};

class Rules {
public:
    explicit Rules(int count) : count(count), triples(count * count * count), fused(count * count) {
        for (int a = 0; a < count; a++) {
            allow(0, a, a);
            if (a != 0) allow(a, 0, a);
        }
    }

    void allow(int a, int b, int c) {
        triples[(a * count + b) * count + c] = true;
        std::vector<int>& list = fused[a * count + b];
        list.insert(std::upper_bound(list.begin(), list.end(), c), c);
    }

    bool allows(int a, int b, int c) const { return triples[(a * count + b) * count + c]; }

    // The labels c in a times b, in label order.
    const std::vector<int>& fuse(int a, int b) const { return fused[a * count + b]; }

    // The labels e with e in a times b and d in e times c.
    std::vector<int> lefts(int a, int b, int c, int d) const {
        std::vector<int> out;
        for (int e : fuse(a, b))
            if (allows(e, c, d)) out.push_back(e);
        return out;
    }

    // The labels f with f in b times c and d in a times f.
    std::vector<int> rights(int a, int b, int c, int d) const {
        std::vector<int> out;
        for (int f : fuse(b, c))
            if (allows(a, f, d)) out.push_back(f);
        return out;
    }

    int dual(int a) const {
        int b = 0;
        while (!allows(a, b, 0)) b++;
        return b;
    }

    void check() const {
        for (int a = 0; a < count; a++)
            for (int b = 0; b < count; b++)
                for (int c = 0; c < count; c++)
                    if (allows(a, b, c) != allows(b, a, c))
                        throw Event{"refused", "commutative", {a, b, c}};
        for (int a = 0; a < count; a++)
            for (int b = 0; b < count; b++)
                for (int c = 0; c < count; c++)
                    for (int d = 0; d < count; d++)
                        if (lefts(a, b, c, d).size() != rights(a, b, c, d).size())
                            throw Event{"refused", "associative", {a, b, c, d}};
        for (int a = 0; a < count; a++) {
            int duals = 0;
            for (int b = 0; b < count; b++) duals += allows(a, b, 0);
            if (duals != 1) throw Event{"refused", "dual", {a}};
        }
    }

    const int count;

private:
    std::vector<bool> triples;
    std::vector<std::vector<int>> fused;
};

// Numbers by index, in a direct table.
class Symbols {
public:
    Symbols(int count, int length) : count(count) {
        size_t size = 1;
        for (int i = 0; i < length; i++) size *= count;
        table.resize(size);
    }
    Symbols(const Symbols&) = delete;
    Symbols(Symbols&&) = default;

    const Number* find(std::initializer_list<int> index) const { return table[place(index)]; }

    const Number& at(std::initializer_list<int> index) const {
        const Number* found = table[place(index)];
        return found != nullptr ? *found : one;
    }

    void set(std::initializer_list<int> index, const Number& value) {
        values.push_back(value);
        table[place(index)] = &values.back();
    }

private:
    size_t place(std::initializer_list<int> index) const {
        size_t out = 0;
        for (int label : index) out = out * count + label;
        return out;
    }

    size_t count;
    std::vector<const Number*> table;
    std::deque<Number> values;
    Number one = whole(1);
};

struct Category {
    Category(int root, std::vector<std::string> names)
        : ring(root), rules(names.size()), names(std::move(names)),
          f(rules.count, 6), h(rules.count, 6), r(rules.count, 3), s(rules.count, 3),
          w(rules.count, 3), v(rules.count, 3) {}

    bool admits(int a, int b, int c, int d, int e, int f) const {
        return rules.allows(a, b, e) && rules.allows(e, c, d) && rules.allows(b, c, f)
            && rules.allows(a, f, d);
    }

    Ring ring;
    Rules rules;
    std::vector<std::string> names;
    Symbols f, h, r, s, w, v;
};

// ---------------------------------------------------------------------------
// The text
// ---------------------------------------------------------------------------

// Thrown at a line that isn't well formed.
struct BadLine {
    int line;
};

// A run of digits without a leading zero, at most LARGEST.
Nat read_digits(const std::string& word) {
    if (word.empty() || (word[0] == '0' && word.size() > 1)) throw Overflow{};
    Nat out = 0;
    for (char c : word) {
        if (c < '0' || c > '9') throw Overflow{};
        out = fitting(plus(times(out, 10), c - '0'));
    }
    return out;
}

Number read_number(const Ring& ring, const std::string& word) {
    size_t slash = word.find('/');
    Nat den = slash == std::string::npos ? 1 : read_digits(word.substr(slash + 1));
    if (den == 0) throw Overflow{};
    std::string top = word.substr(0, slash);
    Sums sums;
    int place = 0;
    for (size_t from = 0; from <= top.size(); place++) {
        size_t comma = std::min(top.find(',', from), top.size());
        bool negative = top[from] == '-';
        Nat part = read_digits(top.substr(from + negative, comma - from - negative));
        if (place == ring.phi || (negative && part == 0)) throw Overflow{};
        sums.add(place, part, negative);
        from = comma + 1;
    }
    return ring.reduced(sums, den);
}

class Reader {
public:
    explicit Reader(const std::string& text) : lines(text) {}

    Category category() {
        std::vector<std::string> words = required();
        if (words != std::vector<std::string>{"category", "1"}) throw BadLine{line};
        words = required();
        if (words.size() != 2 || words[0] != "root") throw BadLine{line};
        int root = std::atoi(words[1].c_str());
        if (std::to_string(root) != words[1] || root < 1 || root > LARGEST_ROOT
            || euler(root) > PARTS)
            throw BadLine{line};
        words = required();
        std::set<std::string> distinct(words.begin() + 1, words.end());
        if (words[0] != "labels" || words.size() < 2 || words.size() > LARGEST_COUNT + 1
            || distinct.size() != words.size() - 1)
            throw BadLine{line};
        Category out(root, std::vector<std::string>(words.begin() + 1, words.end()));
        for (words = next(); !words.empty(); words = next()) {
            try {
                entry(out, words);
            } catch (Overflow) {
                throw BadLine{line};
            }
        }
        return out;
    }

private:
    // The words of the next line that isn't blank or a comment; none at the end.
    std::vector<std::string> next() {
        std::string text;
        while (std::getline(lines, text)) {
            line++;
            std::istringstream row(text);
            std::vector<std::string> words{std::istream_iterator<std::string>(row), {}};
            if (!words.empty() && words[0][0] != '#') return words;
        }
        line++;
        return {};
    }

    std::vector<std::string> required() {
        std::vector<std::string> words = next();
        if (words.empty()) throw BadLine{line};
        return words;
    }

    void entry(Category& out, const std::vector<std::string>& words) {
        const std::string& head = words[0];
        size_t labels = head == "f" ? 6 : 3;
        if (words.size() != labels + (head == "fuse" ? 1 : 2)) throw BadLine{line};
        std::vector<int> at;
        for (size_t i = 1; i <= labels; i++) {
            auto found = std::find(out.names.begin(), out.names.end(), words[i]);
            if (found == out.names.end()) throw BadLine{line};
            at.push_back(found - out.names.begin());
        }
        if (head == "fuse") {
            if (symbols || at[0] == 0 || at[1] == 0 || out.rules.allows(at[0], at[1], at[2]))
                throw BadLine{line};
            out.rules.allow(at[0], at[1], at[2]);
        } else {
            symbols = true;
            symbol(out, head, at, words.back());
        }
    }

    void symbol(Category& out, const std::string& head, const std::vector<int>& at,
                const std::string& word) {
        if (head == "f") {
            if (!out.admits(at[0], at[1], at[2], at[3], at[4], at[5])) throw BadLine{line};
            if (out.f.find({at[0], at[1], at[2], at[3], at[4], at[5]})) throw BadLine{line};
            out.f.set({at[0], at[1], at[2], at[3], at[4], at[5]}, read_number(out.ring, word));
            return;
        }
        if (head != "r" && head != "w" && head != "v") throw BadLine{line};
        Symbols& symbols = head == "r" ? out.r : head == "w" ? out.w : out.v;
        if (!out.rules.allows(at[0], at[1], at[2])) throw BadLine{line};
        if (symbols.find({at[0], at[1], at[2]})) throw BadLine{line};
        symbols.set({at[0], at[1], at[2]}, read_number(out.ring, word));
    }

    std::istringstream lines;
    int line = 0;
    bool symbols = false;
};

// ---------------------------------------------------------------------------
// Laws
// ---------------------------------------------------------------------------

class Checker {
public:
    explicit Checker(Category& category)
        : c(category), ring(category.ring), rules(category.rules), count(category.rules.count),
          zero(whole(0)), one(whole(1)) {}

    void units() {
        each_f([&](int a, int b, int x, int d, int e, int f) {
            if (a == 0 || b == 0 || x == 0)
                judge("unit-f", {a, b, x, d, e, f}, [&] {
                    return same(c.f.at({a, b, x, d, e, f}), one);
                });
        });
        unit_triples("unit-r", c.r);
        unit_triples("unit-w", c.w);
    }

    void weights() {
        each_triple([&](int a, int b, int x) {
            judge("real-w", {a, b, x}, [&] {
                return same(ring.conj(c.w.at({a, b, x})), c.w.at({a, b, x}));
            });
        });
        each_triple([&](int a, int b, int x) {
            judge("inverse-w", {a, b, x}, [&] {
                return same(ring.mul(c.w.at({a, b, x}), c.v.at({a, b, x})), one);
            });
        });
        each_triple([&](int a, int b, int x) {
            judge("norm-r", {a, b, x}, [&] {
                const Number& r = c.r.at({a, b, x});
                Number bar = ring.conj(r);
                return same(ring.product({&r, &bar, &c.w.at({b, a, x})}), c.w.at({a, b, x}));
            });
        });
    }

    // H has the index a b c d f e.
    void derive() {
        each_square([&](int a, int b, int x, int d) {
            for (int f : rules.rights(a, b, x, d))
                for (int e : rules.lefts(a, b, x, d))
                    judge("derive-h", {a, b, x, d, f, e}, [&] {
                        Number bar = ring.conj(c.f.at({a, b, x, d, e, f}));
                        c.h.set({a, b, x, d, f, e}, ring.product(
                            {&bar, &c.w.at({b, x, f}), &c.w.at({a, f, d}), &c.v.at({a, b, e}),
                             &c.v.at({e, x, d})}));
                        return true;
                    });
        });
        each_triple([&](int a, int b, int x) {
            judge("derive-s", {a, b, x}, [&] {
                Number bar = ring.conj(c.r.at({b, a, x}));
                c.s.set({a, b, x},
                        ring.product({&bar, &c.w.at({a, b, x}), &c.v.at({b, a, x})}));
                return true;
            });
        });
    }

    void inverses() {
        each_square([&](int a, int b, int x, int d) {
            std::vector<int> lefts = rules.lefts(a, b, x, d), rights = rules.rights(a, b, x, d);
            for (int e : lefts)
                for (int g : lefts)
                    judge("inverse-f", {a, b, x, d, e, g}, [&] {
                        Number sum = zero;
                        for (int f : rights)
                            sum = ring.add(sum, ring.mul(c.f.at({a, b, x, d, e, f}),
                                                         c.h.at({a, b, x, d, f, g})));
                        return same(sum, e == g ? one : zero);
                    });
        });
        each_square([&](int a, int b, int x, int d) {
            std::vector<int> lefts = rules.lefts(a, b, x, d), rights = rules.rights(a, b, x, d);
            for (int f : rights)
                for (int g : rights)
                    judge("inverse-h", {a, b, x, d, f, g}, [&] {
                        Number sum = zero;
                        for (int e : lefts)
                            sum = ring.add(sum, ring.mul(c.h.at({a, b, x, d, f, e}),
                                                         c.f.at({a, b, x, d, e, g})));
                        return same(sum, f == g ? one : zero);
                    });
        });
        for (int a = 0; a < count; a++)
            judge("rigid", {a}, [&] { return !is_zero(c.f.at({a, rules.dual(a), a, a, 0, 0})); });
    }

    void pentagon() {
        each_square([&](int p, int l, int m, int r) {
            for (int x : rules.fuse(p, l))
                for (int y : rules.fuse(x, m))
                    for (int z : rules.fuse(y, r))
                        for (int f : rules.fuse(m, r))
                            for (int q : rules.fuse(l, f))
                                if (rules.allows(p, q, z)) {
                                    pentagons++;
                                    judge("pentagon", {p, l, m, r, x, y, z, f, q}, [&] {
                                        return pentagon_holds(p, l, m, r, x, y, z, f, q);
                                    });
                                }
        });
    }

    void hexagon(const char* law, const Symbols& r) {
        each_square([&](int a, int b, int x, int d) {
            std::vector<int> rights = rules.rights(a, b, x, d);
            for (int e : rules.lefts(a, b, x, d))
                for (int f : rules.fuse(x, a))
                    if (rules.allows(b, f, d))
                        judge(law, {a, b, x, d, e, f}, [&] {
                            Number left = ring.product(
                                {&r.at({a, b, e}), &c.f.at({b, a, x, d, e, f}), &r.at({a, x, f})});
                            Number right = zero;
                            for (int g : rights)
                                right = ring.add(right, ring.product(
                                    {&c.f.at({a, b, x, d, e, g}), &r.at({a, g, d}),
                                     &c.f.at({b, x, a, d, g, f})}));
                            return same(left, right);
                        });
        });
    }

    long pentagons = 0;

private:
    template <class Equation>
    void judge(const char* law, std::initializer_list<int> index, Equation equation) {
        bool holds;
        try {
            holds = equation();
        } catch (Overflow) {
            throw Event{"limit overflow", law, index};
        }
        if (!holds) throw Event{"refused", law, index};
    }

    template <class Visit>
    void each_square(Visit visit) {
        for (int a = 0; a < count; a++)
            for (int b = 0; b < count; b++)
                for (int x = 0; x < count; x++)
                    for (int d = 0; d < count; d++) visit(a, b, x, d);
    }

    template <class Visit>
    void each_f(Visit visit) {
        each_square([&](int a, int b, int x, int d) {
            for (int e : rules.lefts(a, b, x, d))
                for (int f : rules.rights(a, b, x, d)) visit(a, b, x, d, e, f);
        });
    }

    template <class Visit>
    void each_triple(Visit visit) {
        for (int a = 0; a < count; a++)
            for (int b = 0; b < count; b++)
                for (int x : rules.fuse(a, b)) visit(a, b, x);
    }

    void unit_triples(const char* law, const Symbols& symbols) {
        each_triple([&](int a, int b, int x) {
            if (a == 0 || b == 0)
                judge(law, {a, b, x}, [&] { return same(symbols.at({a, b, x}), one); });
        });
    }

    bool pentagon_holds(int p, int l, int m, int r, int x, int y, int z, int f, int q) const {
        Number left = zero;
        if (rules.allows(x, f, z))
            left = ring.mul(c.f.at({x, m, r, z, y, f}), c.f.at({p, l, f, z, x, q}));
        Number right = zero;
        for (int e : rules.fuse(l, m))
            if (rules.allows(p, e, y) && rules.allows(e, r, q))
                right = ring.add(right, ring.product({&c.f.at({p, l, m, y, x, e}),
                                                      &c.f.at({p, e, r, z, y, q}),
                                                      &c.f.at({l, m, r, q, e, f})}));
        return same(left, right);
    }

    Category& c;
    const Ring& ring;
    const Rules& rules;
    const int count;
    const Number zero;
    const Number one;
};

// ---------------------------------------------------------------------------
// The program
// ---------------------------------------------------------------------------

// The time since it was made, on the wall and of the processor.
class Clock {
public:
    void tell(const char* what) const {
        std::chrono::duration<double> wall = std::chrono::steady_clock::now() - begin;
        double used = double(std::clock() - ticks) / CLOCKS_PER_SEC;
        std::fprintf(stderr, "%s after %.3f seconds, of the processor %.3f\n", what, wall.count(),
                     used);
    }

private:
    std::chrono::steady_clock::time_point begin = std::chrono::steady_clock::now();
    std::clock_t ticks = std::clock();
};

// Tries the rules and all laws in order.
void check(Category& category, Checker& checker) {
    category.rules.check();
    checker.units();
    checker.weights();
    checker.derive();
    checker.inverses();
    checker.pentagon();
    checker.hexagon("hexagon-1", category.r);
    checker.hexagon("hexagon-2", category.s);
}

// Prints the answer and gives the exit code.
int answer(Category& category, Checker& checker) {
    try {
        check(category, checker);
        std::printf("accepted root %d labels %d\n", category.ring.root, category.rules.count);
        return 0;
    } catch (const Event& event) {
        std::printf("%s %s", event.kind.c_str(), event.law.c_str());
        for (int label : event.index) std::printf(" %s", category.names[label].c_str());
        std::printf("\n");
        return event.kind == "refused" ? 1 : 5;
    }
}

int main(int words, char** word) {
    if (words != 2) {
        std::fputs("usage: plain_check CATEGORY\n", stderr);
        return 2;
    }
    Clock start;
    std::ifstream file(word[1], std::ios::binary);
    if (!file) {
        std::fputs("read fault\n", stderr);
        return 3;
    }
    std::string text{std::istreambuf_iterator<char>(file), {}};
    try {
        Category category = Reader(text).category();
        Checker checker(category);
        start.tell("read");
        int code = answer(category, checker);
        std::fprintf(stderr, "pentagon equations %ld\n", checker.pentagons);
        start.tell("done");
        return code;
    } catch (const BadLine& bad) {
        std::printf("refused category line %d\n", bad.line);
        return 1;
    }
}
