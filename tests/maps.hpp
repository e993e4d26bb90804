// Random maps and pyramids of dimension 1 to 4.
#ifndef MAPS_HPP
#define MAPS_HPP

#include "independent.hpp"

#include <algorithm>
#include <array>
#include <queue>
#include <utility>
#include <vector>

namespace maps {

using independent::Bytes;
using independent::Entries;
using independent::Kernel;
using independent::Map;
using independent::none;
using independent::stay;

// The same numbers everywhere for the same seed (splitmix64).
class Random {
public:
    explicit Random(std::uint64_t seed) : state(seed) {}

    std::uint64_t bits()
    {
        std::uint64_t z = (state += 0x9E3779B97F4A7C15u);
        z = (z ^ (z >> 30)) * 0xBF58476D1CE4E5B9u;
        z = (z ^ (z >> 27)) * 0x94D049BB133111EBu;
        return z ^ (z >> 31);
    }

    unsigned below(std::size_t bound) { return unsigned(bits() % bound); }
    unsigned between(unsigned least, unsigned most) { return least + below(most - least + 1); }
    bool chance(unsigned percent) { return below(100) < percent; }

    template <class List> void shuffle(List& list)
    {
        for (std::size_t k = list.size(); k > 1; k--)
            std::swap(list[k - 1], list[below(k)]);
    }

    template <class T, std::size_t K> T pick(const T (&list)[K]) { return list[below(K)]; }

private:
    std::uint64_t state;
};

// ---------------------------------------------------------------- grids of cubes

inline unsigned factorial(unsigned n) { return n < 2 ? 1 : n * factorial(n - 1); }

// The flags of an n-cube: a corner, and an order of the axes (the edge runs along the first, the face along the first
// two, ..).
struct Cube {
    unsigned n;
    std::vector<std::vector<unsigned>> orders;

    explicit Cube(unsigned n_) : n(n_)
    {
        std::vector<unsigned> order(n);
        std::iota(order.begin(), order.end(), 0u);
        do
            orders.push_back(order);
        while (std::next_permutation(order.begin(), order.end()));
    }

    unsigned flags() const { return unsigned(orders.size()) << n; }
    unsigned corner(unsigned flag) const { return flag / unsigned(orders.size()); }
    const std::vector<unsigned>& order(unsigned flag) const { return orders[flag % orders.size()]; }

    unsigned flag(unsigned corner, const std::vector<unsigned>& order) const
    {
        const auto at = std::lower_bound(orders.begin(), orders.end(), order);
        return corner * unsigned(orders.size()) + unsigned(at - orders.begin());
    }

    // a_i for i < n, and for i = n the flag opposite in the cube beyond.
    unsigned neighbour(unsigned i, unsigned f) const
    {
        if (i == 0)
            return flag(corner(f) ^ 1u << order(f)[0], order(f));
        if (i == n)
            return flag(corner(f) ^ 1u << order(f)[n - 1], order(f));
        std::vector<unsigned> swapped = order(f);
        std::swap(swapped[i - 1], swapped[i]);
        return flag(corner(f), swapped);
    }
};

struct Grid {
    unsigned n;
    std::vector<unsigned> size;
    std::vector<bool> wraps;   // for each axis
    std::vector<bool> missing; // for each cube
};

// The cube beyond an axis, or `none`.
inline unsigned cube_beyond(const Grid& g, unsigned cube, unsigned axis, bool upwards)
{
    unsigned stride = 1;
    for (unsigned k = 0; k < axis; k++)
        stride *= g.size[k];
    const unsigned size = g.size[axis], at = cube / stride % size;
    if (!g.wraps[axis] && at == (upwards ? size - 1 : 0))
        return none;
    const unsigned to = (at + (upwards ? 1 : size - 1)) % size;
    const unsigned beyond = cube - at * stride + to * stride;
    return g.missing[beyond] ? none : beyond;
}

inline Map grid(const Grid& g)
{
    const Cube cube(g.n);
    std::vector<unsigned> number(g.missing.size(), none); // of the cubes that are there
    unsigned cubes = 0;
    for (std::size_t c = 0; c < g.missing.size(); c++)
        if (!g.missing[c])
            number[c] = cubes++;
    Map m(g.n, cubes * cube.flags());
    for (unsigned c = 0; c < g.missing.size(); c++)
        for (unsigned f = 0; !g.missing[c] && f < cube.flags(); f++) {
            const unsigned d = number[c] * cube.flags() + f;
            for (unsigned i = 0; i < g.n; i++)
                m.a[i][d] = number[c] * cube.flags() + cube.neighbour(i, f);
            const unsigned axis = cube.order(f)[g.n - 1];
            const unsigned beyond = cube_beyond(g, c, axis, cube.corner(f) >> axis & 1);
            m.a[g.n][d] = beyond == none ? d : number[beyond] * cube.flags() + cube.neighbour(g.n, f);
        }
    return m;
}

inline Map random_grid(Random& r, unsigned n, unsigned most_darts)
{
    Grid g{n, std::vector<unsigned>(n, 1), std::vector<bool>(n), {}};
    unsigned cubes = 1, most = most_darts / (factorial(n) << n);
    for (unsigned tries = 0; tries < 40; tries++) {
        const unsigned axis = r.below(n);
        const unsigned longer = cubes / g.size[axis] * (g.size[axis] + 1);
        if (longer > most)
            continue;
        g.size[axis]++;
        cubes = longer;
    }
    for (unsigned axis = 0; axis < n; axis++)
        g.wraps[axis] = r.chance(25);
    g.missing.assign(cubes, false);
    for (unsigned c = 1; c < cubes && r.chance(40); c += r.between(1, 9))
        g.missing[c] = true;
    return grid(g);
}

// ---------------------------------------------------------------- any valid map

// The darts of each piece that hangs together by rows 0 to last.
inline std::vector<std::vector<unsigned>> pieces(const Map& m, int last)
{
    independent::Groups g(m.darts);
    for (int j = 0; j <= last; j++)
        for (unsigned d = 0; d < m.darts; d++)
            g.join(d, m.a[unsigned(j)][d]);
    std::vector<std::vector<unsigned>> all(m.darts);
    for (unsigned d = 0; d < m.darts; d++)
        all[g.find(d)].push_back(d);
    all.erase(std::remove_if(all.begin(), all.end(), [](const auto& p) { return p.empty(); }), all.end());
    return all;
}

// Maps the piece of dart d onto that of e so that rows 0 to last are kept; false if that can't be done.
inline bool carry(const Map& m, int last, unsigned d, unsigned e, std::vector<unsigned>& image)
{
    std::queue<unsigned> open;
    image[d] = e;
    open.push(d);
    while (!open.empty()) {
        const unsigned x = open.front();
        open.pop();
        for (int j = 0; j <= last; j++) {
            const unsigned y = m.a[unsigned(j)][x], to = m.a[unsigned(j)][image[x]];
            if (image[y] == none) {
                image[y] = to;
                open.push(y);
            } else if (image[y] != to)
                return false;
        }
    }
    return true;
}

// Links two pieces of the same size (or one with itself) by row i, if a map between them does it.
inline bool link(Map& m, unsigned i, const std::vector<unsigned>& piece, unsigned d, unsigned e)
{
    std::vector<unsigned> image(m.darts, none);
    if (!carry(m, int(i) - 2, d, e, image))
        return false;
    for (const unsigned x : piece)
        if (image[image[x]] != none && image[image[x]] != x)
            return false;
    for (const unsigned x : piece) {
        m.a[i][x] = image[x];
        m.a[i][image[x]] = x;
    }
    return true;
}

// A random row i that commutes with rows 0 to i-2: it takes their pieces to each other or to themselves.
inline void random_row(Random& r, Map& m, unsigned i)
{
    auto all = pieces(m, int(i) - 2);
    r.shuffle(all);
    std::stable_sort(all.begin(), all.end(), [](const auto& p, const auto& q) { return p.size() < q.size(); });
    const unsigned free = r.pick({0u, 10u, 40u}), folded = i < 2 ? 0 : r.pick({0u, 20u});
    for (unsigned d = 0; d < m.darts; d++)
        m.a[i][d] = d;
    for (std::size_t k = 0; k < all.size(); k++) {
        if (r.chance(free))
            continue;
        const auto& piece = all[k];
        if (r.chance(folded))
            link(m, i, piece, piece[0], piece[r.below(piece.size())]);
        else if (k + 1 < all.size() && all[k + 1].size() == piece.size())
            k += link(m, i, piece, piece[0], all[k + 1][r.below(piece.size())]);
    }
}

inline Map twice(const Map& m, unsigned rows)
{
    Map both(m.n, 2 * m.darts);
    for (unsigned i = 0; i < rows; i++)
        for (unsigned d = 0; d < m.darts; d++) {
            both.a[i][d] = m.a[i][d];
            both.a[i][m.darts + d] = m.darts + m.a[i][d];
        }
    return both;
}

// Row after row; now and then what there is so far is doubled, so that a later row finds equal pieces to link.
inline Map random_rows(Random& r, unsigned n, unsigned darts)
{
    unsigned doublings = n < 2 ? 0 : r.below(n);
    Map m(n, std::max(1u, darts >> doublings));
    for (unsigned i = 0; i <= n; i++) {
        if (i >= 2 && doublings && 2 * m.darts <= darts) {
            m = twice(m, i);
            doublings--;
        }
        random_row(r, m, i);
    }
    return m;
}

// Polygons (dimension 2) or cubes, linked at random.
inline Map glued(Random& r, unsigned n, unsigned most_darts)
{
    if (n == 2) {
        Map m(n, std::max(1u, most_darts / 2) * 2);
        for (unsigned d = 0; d < m.darts;) {
            const unsigned left = m.darts - d, darts = std::min(left, 2 * r.between(1, 6));
            for (unsigned k = 0; k < darts; k++) {
                m.a[0][d + k] = d + (k ^ 1);
                m.a[1][d + k] = d + (k % 2 ? k + 1 : k + darts - 1) % darts;
            }
            d += darts;
        }
        random_row(r, m, 2);
        return m;
    }
    const unsigned cubes = std::max(1u, most_darts / (factorial(n) << n));
    Map m = grid({n, {cubes, 1, 1, 1}, {false, false, false, false}, std::vector<bool>(cubes, false)});
    random_row(r, m, n);
    return m;
}

inline Map renumber(Random& r, const Map& m)
{
    std::vector<unsigned> name(m.darts);
    std::iota(name.begin(), name.end(), 0u);
    r.shuffle(name);
    Map other(m.n, m.darts);
    for (unsigned i = 0; i <= m.n; i++)
        for (unsigned d = 0; d < m.darts; d++)
            other.a[i][name[d]] = name[m.a[i][d]];
    return other;
}

inline Map random_map(Random& r, unsigned n, unsigned most_darts)
{
    const unsigned cube = factorial(n) << n, kind = r.below(3);
    Map m = kind == 0 || cube > most_darts ? random_rows(r, n, most_darts)
            : kind == 1                    ? random_grid(r, n, most_darts)
                                           : glued(r, n, most_darts);
    return r.chance(60) ? renumber(r, m) : m;
}

// ---------------------------------------------------------------- pyramids

// Which marks a pyramid has.
enum class Kinds { removals, contractions, both };

inline Kinds random_kinds(Random& r)
{
    return r.pick({Kinds::removals, Kinds::contractions, Kinds::both, Kinds::both});
}

// The bytes that are marks of these kinds, of all dimensions.
inline std::vector<unsigned> all_marks(unsigned n, Kinds kinds)
{
    std::vector<unsigned> all;
    for (unsigned k = 0; k < n; k++) {
        if (kinds != Kinds::contractions)
            all.push_back(k);
        if (kinds != Kinds::removals)
            all.push_back(independent::contracted + 1 + k);
    }
    return all;
}

// A cell that could be removed or contracted with its mark.
struct Cell {
    unsigned mark;
    bool fits; // removable or contractible, as it is marked
    std::vector<unsigned> darts;
};

inline std::vector<Cell> cells_to_mark(const Map& m, Kinds kinds)
{
    std::vector<Cell> all;
    for (const unsigned byte : all_marks(m.n, kinds)) {
        const independent::Mark mark = independent::mark_of(m.n, byte);
        independent::Groups g = independent::cells(m, mark.dimension);
        std::vector<unsigned> at(m.darts, none);
        for (unsigned d = 0; d < m.darts; d++) {
            if (!m.present(d))
                continue;
            unsigned& place = at[g.find(d)];
            if (place == none) {
                place = unsigned(all.size());
                all.push_back({byte, true, {}});
            }
            all[place].darts.push_back(d);
            all[place].fits = all[place].fits && independent::fits_at(m, mark, d);
        }
    }
    return all;
}

inline bool put(Kernel& kernel, const Cell& cell)
{
    for (const unsigned d : cell.darts)
        if (kernel[d] != stay)
            return false;
    for (const unsigned d : cell.darts)
        kernel[d] = cell.mark;
    return true;
}

// Disjoint cells that fit, each taken with the chance given.
inline Kernel random_kernel(Random& r, const Map& m, Kinds kinds, unsigned percent)
{
    Kernel kernel(m.darts, stay);
    auto all = cells_to_mark(m, kinds);
    r.shuffle(all);
    for (const auto& cell : all)
        if (cell.fits && r.chance(percent))
            put(kernel, cell);
    return kernel;
}

// A kernel of whole cells, at least one of which doesn't fit; false if the map has none.
inline bool bad_kernel(Random& r, const Map& m, Kinds kinds, Kernel& kernel)
{
    auto all = cells_to_mark(m, kinds);
    r.shuffle(all);
    const auto bad = std::find_if(all.begin(), all.end(), [](const Cell& c) { return !c.fits; });
    if (bad == all.end())
        return false;
    kernel.assign(m.darts, stay);
    put(kernel, *bad);
    for (const auto& cell : all)
        if (r.chance(20))
            put(kernel, cell);
    return true;
}

struct Pyramid {
    unsigned n = 0, darts = 0, h = 0;
    Entries rows;
    Bytes lambda, delta;
    std::vector<Map> levels; // explicit, as far as the kernels are good
};

inline Pyramid begin(const Map& base)
{
    Pyramid p;
    p.n = base.n;
    p.darts = base.darts;
    p.rows.resize(std::size_t(base.n + 1) * base.darts);
    base.write(p.rows);
    p.lambda.assign(p.darts, 0);
    p.delta.assign(p.darts, std::uint8_t(p.n));
    p.levels.push_back(base);
    return p;
}

inline void put_on_top(Pyramid& p, const Kernel& kernel)
{
    for (unsigned d = 0; d < p.darts; d++)
        if (kernel[d] != stay)
            p.delta[d] = std::uint8_t(kernel[d]);
        else if (p.lambda[d] == p.h)
            p.lambda[d] = std::uint8_t(p.h + 1);
    p.h++;
}

// Puts random kernels on a base up to a height.
inline void grow(Random& r, Pyramid& p, unsigned height, unsigned percent)
{
    const Kinds kinds = random_kinds(r);
    while (p.h < height) {
        const Kernel kernel = random_kernel(r, p.levels.back(), kinds, percent);
        put_on_top(p, kernel);
        p.levels.push_back(independent::reduce(p.levels.back(), kernel));
    }
}

inline Pyramid random_pyramid(Random& r, unsigned n, unsigned most_darts, unsigned height, unsigned percent)
{
    Pyramid p = begin(random_map(r, n, most_darts));
    grow(r, p, height, percent);
    return p;
}

// The same pyramid up to level h only.
inline Pyramid lower(const Pyramid& p, unsigned h)
{
    Pyramid q{p.n, p.darts, h, p.rows, p.lambda, p.delta, {}};
    for (unsigned d = 0; d < p.darts; d++)
        if (p.lambda[d] >= h) {
            q.lambda[d] = std::uint8_t(h);
            q.delta[d] = std::uint8_t(p.n);
        }
    return q;
}

} // namespace maps

#endif
