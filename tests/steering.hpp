// Which answers are new, and the inputs that brought them.
//
// An answer is new if no earlier one of its job was of its class by place or of its class by size. The class by place
// is the number, n, and where it points: the level (0, h, between, above), the involution, the dart (first, last, or in
// which quarter; of a record the same of its bytes). Of an accepted call it is how many binary digits each number found
// has. The class by size is the number with N in seven classes and h in six, their limits among them, and whether the
// dart is the first, the last or another. An input that brings something new joins the pool of its job, unless it is
// refused for a size (1 to 4), behind which nothing is looked at. Those that bring more are chosen more often.
#ifndef STEERING_HPP
#define STEERING_HPP

#include "cases.hpp"
#include "maps.hpp"

#include <unordered_set>

namespace steering {

using maps::Random;

// ---------------------------------------------------------------- what is new

// n, N and h as the input has them, of a record as its header has them; of an import, those of the base.
struct Sizes {
    unsigned n, darts, h;
};

inline Sizes sizes_of(const Case& c)
{
    if (c.what == IMPORT)
        return {2, 2 * c.darts, 0};
    if (c.what != TAKE)
        return {c.n, c.darts, c.h};
    const auto byte = [&](std::size_t k) { return k < c.bytes.size() ? unsigned(c.bytes[k]) : 0u; };
    return {byte(3), byte(5) + 256 * byte(6), byte(4)};
}

// At the bottom, at the top, between, or above.
inline unsigned class_of_level(unsigned level, unsigned h)
{
    return level == 0 ? 0 : level == h ? 1 : level < h ? 2 : 3;
}

// The first, one of a quarter, the last, or none that there is.
inline unsigned class_of_dart(unsigned dart, std::size_t darts)
{
    if (dart == 0 || dart >= darts)
        return dart ? 6 : 0;
    return dart + 1 == darts ? 5 : 1 + unsigned(4 * dart / darts);
}

// The class of a size between limits that rise.
template <std::size_t K> unsigned class_of_size(unsigned size, const unsigned (&limits)[K])
{
    return unsigned(std::lower_bound(limits, limits + K, size) - limits);
}

// Binary digits.
inline unsigned digits(unsigned value)
{
    unsigned count = 0;
    for (; value; value /= 2)
        count++;
    return count;
}

// The classes seen.
class Seen {
public:
    // How many of the answer's two classes are new.
    unsigned add(const Case& c, const Answer& a)
    {
        const Sizes s = sizes_of(c);
        const Refusal& r = a.refusal;
        const bool in_record = r.number >= 16 && r.number <= 19;
        const std::size_t of = in_record ? c.bytes.size() : c.what == IMPORT ? c.darts : s.darts;
        const unsigned dart = class_of_dart(r.dart, of);
        const bool place = r.number ? add({1, c.what, r.number, std::min(s.n, 5u), class_of_level(r.level, s.h),
                                           std::min(r.involution, 6u), dart})
                                    : add({2, c.what, std::min(s.n, 5u), digits(a.found[0]), digits(a.found[1]),
                                           digits(a.found[2])});
        const bool size = add({3, c.what, r.number, class_of_size(s.darts, {0, 1, 16, 256, 4095, 4096}),
                               class_of_size(s.h, {0, 1, 8, 31, 32}), dart == 0 || dart == 5 ? dart : 1});
        return place + size;
    }

private:
    bool add(std::initializer_list<unsigned> parts)
    {
        std::uint64_t key = 0;
        for (const unsigned part : parts)
            key = key * 32 + part;
        return classes.insert(key).second;
    }

    std::unordered_set<std::uint64_t> classes;
};

// ---------------------------------------------------------------- the pool

// Whether a call takes as long as many others.
inline bool is_large(unsigned darts) { return darts >= 700; }

// An input that brought something new, how often it was chosen since, and how often that brought something new.
struct Kept {
    Case input;
    unsigned chosen = 0, brought = 0;

    // What a turn of it brings for its time.
    double worth() const { return (brought + 2.0) / (chosen + 2.0) / (is_large(sizes_of(input).darts) ? 20 : 1); }
};

// The inputs kept of one job.
class Pool {
public:
    bool empty() const { return all.empty(); }
    const Case& any(Random& r) const { return all[r.below(all.size())].input; }

    // The best of three.
    Kept& choose(Random& r)
    {
        Kept* best = &all[r.below(all.size())];
        for (unsigned others = 2; others; others--) {
            Kept& one = all[r.below(all.size())];
            best = one.worth() > best->worth() ? &one : best;
        }
        best->chosen++;
        return *best;
    }

    // The one that brought least in all its turns makes room.
    void keep(const Case& c)
    {
        constexpr std::size_t most = 96;
        if (all.size() == most)
            all.erase(std::min_element(all.begin(), all.end(),
                                       [](const Kept& x, const Kept& y) { return x.worth() < y.worth(); }));
        all.push_back({c});
    }

private:
    std::vector<Kept> all;
};

} // namespace steering

#endif
