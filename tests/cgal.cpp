// Compares levels with CGAL's Generalized_map, which removes and contracts the same cells one by one, and the bases of
// partners' maps with its Combinatorial_map.
//
// Compiled with -DWITH_LIBRARY the levels come from the library, else from the independent implementation.
#include "maps.hpp"
#ifdef WITH_LIBRARY
#include "zompelgors.h"
#endif

#include <CGAL/Combinatorial_map.h>
#include <CGAL/Generalized_map.h>

#include <cstdio>
#include <cstdlib>
#include <map>
#include <type_traits>

namespace {

using independent::Bytes;
using independent::Entries;
using independent::Kind;
using independent::Map;
using independent::Sums;
using maps::Cell;
using maps::Pyramid;
using maps::Random;

// ---------------------------------------------------------------- where the levels come from

#ifdef WITH_LIBRARY

unsigned add_level(Pyramid& p, const Bytes& marks, Entries& table)
{
    const zg_height r = zg_add(std::uint8_t(p.n), std::uint16_t(p.darts), std::uint8_t(p.h), p.rows.data(),
                               p.rows.size(), p.lambda.data(), p.lambda.size(), p.delta.data(), p.delta.size(),
                               marks.data(), marks.size(), table.data(), table.size());
    p.h = r.height;
    return r.refusal.number;
}

unsigned import_map(unsigned m, const Entries& edges, const Entries& vertices, Entries& rows)
{
    return zg_import(std::uint16_t(m), edges.data(), edges.size(), vertices.data(), vertices.size(), rows.data(),
                     rows.size())
        .number;
}

unsigned check_pyramid(const Pyramid& p, Entries& table)
{
    return zg_check(std::uint8_t(p.n), std::uint16_t(p.darts), std::uint8_t(p.h), p.rows.data(), p.rows.size(),
                    p.lambda.data(), p.lambda.size(), p.delta.data(), p.delta.size(), table.data(), table.size())
        .number;
}

unsigned unfold_level(const Pyramid& p, unsigned level, Entries& table)
{
    return zg_unfold(std::uint8_t(p.n), std::uint16_t(p.darts), std::uint8_t(p.h), p.rows.data(), p.rows.size(),
                     p.lambda.data(), p.lambda.size(), p.delta.data(), p.delta.size(), std::uint8_t(level),
                     table.data(), table.size())
        .refusal.number;
}

unsigned mark_cells(const Pyramid& p, const Entries& table, unsigned dimension, Bytes& marks)
{
    return zg_mark_cells(std::uint8_t(p.n), std::uint16_t(p.darts), table.data(), table.size(),
                         std::uint8_t(dimension), marks.data(), marks.size())
        .number;
}

unsigned take_census(const Pyramid& p, Entries& table, Entries& counts, Sums& sums)
{
    return zg_census(std::uint8_t(p.n), std::uint16_t(p.darts), std::uint8_t(p.h), p.rows.data(), p.rows.size(),
                     p.lambda.data(), p.lambda.size(), p.delta.data(), p.delta.size(), table.data(), table.size(),
                     counts.data(), counts.size(), sums.data(), sums.size())
        .number;
}

#else

template <class Job> unsigned number_of(Job job)
{
    try {
        job();
    } catch (const independent::Refusal& r) {
        return r.number;
    }
    return 0;
}

unsigned add_level(Pyramid& p, const Bytes& marks, Entries& table)
{
    return number_of([&] { p.h = independent::add(p.n, p.darts, p.h, p.rows, p.lambda, p.delta, marks, table); });
}

unsigned import_map(unsigned m, const Entries& edges, const Entries& vertices, Entries& rows)
{
    return number_of([&] { independent::import_map(m, edges, vertices, rows); });
}

unsigned check_pyramid(const Pyramid& p, Entries& table)
{
    return number_of([&] { independent::check(p.n, p.darts, p.h, p.rows, p.lambda, p.delta, table); });
}

unsigned unfold_level(const Pyramid& p, unsigned level, Entries& table)
{
    return number_of([&] { independent::unfold(p.n, p.darts, p.h, p.rows, p.lambda, p.delta, level, table); });
}

unsigned mark_cells(const Pyramid& p, const Entries& table, unsigned dimension, Bytes& marks)
{
    return number_of([&] { independent::mark(p.n, p.darts, table, dimension, marks); });
}

unsigned take_census(const Pyramid& p, Entries& table, Entries& counts, Sums& sums)
{
    return number_of(
        [&] { independent::census(p.n, p.darts, p.h, p.rows, p.lambda, p.delta, table, counts, sums); });
}

#endif

// ---------------------------------------------------------------- CGAL's map

// The same map in CGAL, with the darts' numbers.
template <unsigned n> class Twin {
    using GMap = CGAL::Generalized_map<n>;
    using Dart = typename GMap::Dart_handle;

public:
    explicit Twin(const Map& m) : darts(m.darts), handles(m.darts)
    {
        for (unsigned d = 0; d < darts; d++) {
            handles[d] = gmap.create_dart();
            numbers[handles[d]] = d;
        }
        for (unsigned i = 0; i <= n; i++)
            for (unsigned d = 0; d < darts; d++)
                gmap.basic_link_alpha(handles[d], handles[m.a[i][d]], i);
    }

    bool valid() const { return gmap.is_valid(); }

    // CGAL's verdict: removable or contractible, as the cell is marked.
    bool fits(const Cell& cell) const
    {
        return with_dimension(cell, [&](auto i) {
            const auto dart = handles[cell.darts[0]];
            if constexpr (i < n)
                if (kind(cell) == Kind::removal)
                    return gmap.template is_removable<i>(dart);
            if constexpr (i > 0)
                if (kind(cell) == Kind::contraction)
                    return gmap.template is_contractible<i>(dart);
            return false;
        });
    }

    // Whether CGAL's cell has our darts, each once.
    bool lists(const Cell& cell)
    {
        std::vector<unsigned> there;
        with_dimension(cell, [&](auto i) {
            const auto mark = gmap.get_new_mark();
            CGAL::GMap_dart_iterator_basic_of_cell<GMap, i> it(gmap, handles[cell.darts[0]], mark);
            for (; it.cont(); ++it) {
                there.push_back(numbers.at(it));
                gmap.mark(it, mark);
            }
            gmap.free_mark(mark);
            return true;
        });
        std::sort(there.begin(), there.end());
        return there == cell.darts;
    }

    // Two involutions that commute take a dart of the cell to the same other dart. CGAL supposes that this doesn't
    // occur: it then goes through some cells twice, and fails in removing them.
    bool folded(const Cell& cell)
    {
        for (const unsigned d : cell.darts)
            for (unsigned i = 0; i + 2 <= n; i++)
                for (unsigned j = i + 2; j <= n; j++)
                    if (gmap.alpha(handles[d], i) == gmap.alpha(handles[d], j) && !gmap.is_free(handles[d], i))
                        return true;
        return false;
    }

    // Removes or contracts the cell; false if other darts go.
    bool take(const Cell& cell)
    {
        for (const unsigned d : cell.darts)
            numbers.erase(handles[d]);
        return with_dimension(cell, [&](auto i) {
            const auto dart = handles[cell.darts[0]];
            if constexpr (i < n)
                if (kind(cell) == Kind::removal)
                    return gmap.template remove_cell<i>(dart) == cell.darts.size();
            if constexpr (i > 0)
                if (kind(cell) == Kind::contraction)
                    return gmap.template contract_cell<i>(dart) == cell.darts.size();
            return false;
        });
    }

    // How many cells of each dimension there are, in five places. CGAL doesn't count those of a map without darts.
    Entries counts()
    {
        Entries all(5, 0);
        if (!numbers.empty())
            count_from<0>(all);
        return all;
    }

    Entries table()
    {
        Entries rows(std::size_t(n + 1) * darts, independent::none);
        for (unsigned i = 0; i <= n; i++)
            for (const auto& dart : numbers)
                rows[std::size_t(i) * darts + dart.second] = std::uint16_t(numbers.at(gmap.alpha(dart.first, i)));
        return rows;
    }

    // How many cells there are of each dimension, and pieces.
    std::vector<unsigned> cells() const { return gmap.count_all_cells(); }

private:
    template <unsigned i> void count_from(Entries& all)
    {
        if constexpr (i <= n) {
            all[i] = std::uint16_t(gmap.template one_dart_per_cell<i>().size());
            count_from<i + 1>(all);
        }
    }

    static Kind kind(const Cell& cell) { return independent::mark_of(n, cell.mark).kind; }

    // Calls something with the cell's dimension as a constant, for CGAL's templates.
    template <unsigned i = 0, class What> static bool with_dimension(const Cell& cell, What what)
    {
        if constexpr (i <= n) {
            if (independent::mark_of(n, cell.mark).dimension == i)
                return what(std::integral_constant<unsigned, i>());
            return with_dimension<i + 1>(cell, what);
        } else
            return false;
    }

    unsigned darts;
    GMap gmap;
    std::vector<Dart> handles;
    std::map<Dart, unsigned> numbers; // of the darts still there
};

// ---------------------------------------------------------------- the comparison

struct Verdicts {
    unsigned long fit = 0, others = 0;
};

struct Tally {
    unsigned long pyramids = 0, levels = 0, removed = 0, contracted = 0, left_out = 0, most_darts = 0, counted = 0;
    Verdicts removable, contractible;
    unsigned long partners = 0;
};

[[noreturn]] void differs(const char* what, const Pyramid& p)
{
    std::printf("cgal: %s; dimension %u, %u darts, height %u\n", what, p.n, p.darts, p.h);
    std::exit(1);
}

void demand(bool same, const char* what, const Pyramid& p)
{
    if (!same)
        differs(what, p);
}

Bytes marks_of(const Cell& cell, unsigned darts)
{
    Bytes marks(darts, 255);
    for (const unsigned d : cell.darts)
        marks[d] = std::uint8_t(cell.mark);
    return marks;
}

// Number 10 against CGAL's verdict on a cell.
void compare_adding(const Pyramid& p, const Cell& cell, bool verdict)
{
    Pyramid higher = p;
    Entries top(p.rows.size());
    const unsigned number = add_level(higher, marks_of(cell, p.darts), top);
    demand(number == (verdict ? 0 : 10), "number 10 for another cell", p);
}

// The marking job and number 10 against CGAL's verdicts: what is marked is removable, and some cells are tried by adding.
template <unsigned n>
void compare_verdicts(Random& r, const Pyramid& p, const Entries& table, const std::vector<Cell>& all,
                      const Twin<n>& twin, Tally& tally)
{
    std::vector<Bytes> marks(n, Bytes(p.darts));
    for (unsigned dimension = 0; dimension < n; dimension++)
        demand(mark_cells(p, table, dimension, marks[dimension]) == 0, "a level is refused by marking", p);
    for (const Cell& cell : all) {
        const bool verdict = twin.fits(cell), removal = cell.mark < n;
        if (removal)
            for (const unsigned d : cell.darts)
                demand(verdict || marks[cell.mark][d] == 255, "a cell is marked that isn't removable", p);
        if (all.size() <= 24 || r.chance(30)) {
            compare_adding(p, cell, verdict);
            Verdicts& of = removal ? tally.removable : tally.contractible;
            (verdict ? of.fit : of.others)++;
        }
    }
}

// Disjoint cells that fit by CGAL's verdict, removed and contracted there in any order; returns their marks.
template <unsigned n>
Bytes take_some(Random& r, const Pyramid& p, std::vector<Cell> all, Twin<n>& twin, Tally& tally)
{
    const unsigned percent = r.between(3, 50);
    independent::Kernel kernel(p.darts, independent::stay);
    std::vector<Cell> chosen;
    r.shuffle(all);
    for (const Cell& cell : all)
        if (r.chance(percent) && twin.fits(cell)) {
            const bool same = twin.lists(cell);
            demand(same || twin.folded(cell), "a cell has other darts", p);
            tally.left_out += !same;
            if (same && maps::put(kernel, cell))
                chosen.push_back(cell);
        }
    r.shuffle(chosen);
    for (const Cell& cell : chosen) {
        demand(twin.fits(cell) && twin.lists(cell), "a cell no longer fits beside others", p);
        demand(twin.take(cell), "another cell was taken", p);
        (cell.mark < n ? tally.removed : tally.contracted)++;
    }
    return Bytes(kernel.begin(), kernel.end());
}

// The census against the cells that CGAL counted on each level, and the sums against those counts.
void compare_census(const Pyramid& p, const std::vector<Entries>& counts, Tally& tally)
{
    Entries table(p.rows.size()), cells(165, 7);
    Sums sums(33, 7);
    demand(take_census(p, table, cells, sums) == 0, "the census is refused", p);
    for (unsigned l = 0; l < 33; l++) {
        const Entries row(cells.begin() + 5 * l, cells.begin() + 5 * l + 5);
        const Entries due = l <= p.h ? counts[l] : Entries(5, 0);
        demand(row == due, "a level has other numbers of cells", p);
        demand(sums[l] == due[0] - due[1] + due[2] - due[3] + due[4], "a level has another alternating sum", p);
        tally.counted += std::accumulate(due.begin(), due.end(), 0ul);
    }
}

template <unsigned n> void compare_pyramid(Random& r, Tally& tally)
{
    const unsigned darts = r.chance(50) ? r.between(1, 60) : r.between(40, n == 4 ? 800 : 400);
    const Map base = maps::random_map(r, n, darts);
    Pyramid p = maps::begin(base);
    Twin<n> twin(base);
    demand(twin.valid(), "CGAL finds the base not valid", p);
    std::vector<Entries> levels{twin.table()}, counts{twin.counts()};
    const maps::Kinds kinds = maps::random_kinds(r);
    for (unsigned height = r.between(1, 6); p.h < height;) {
        const Map top(n, p.darts, levels.back());
        compare_verdicts<n>(r, p, levels.back(), maps::cells_to_mark(top, maps::Kinds::both), twin, tally);
        const Bytes marks = take_some<n>(r, p, maps::cells_to_mark(top, kinds), twin, tally);
        Entries table(p.rows.size());
        demand(add_level(p, marks, table) == 0, "a kernel is refused", p);
        levels.push_back(twin.table());
        counts.push_back(twin.counts());
        demand(table == levels.back(), "the level added is another", p);
    }
    Entries table(p.rows.size());
    demand(check_pyramid(p, table) == 0 && table == levels.back(), "the top level of the check is another", p);
    for (unsigned l = 0; l <= p.h; l++)
        demand(unfold_level(p, l, table) == 0 && table == levels[l], "an unfolded level is another", p);
    compare_census(p, counts, tally);
    tally.pyramids++;
    tally.levels += levels.size();
    tally.most_darts = std::max<unsigned long>(tally.most_darts, p.darts);
}

// A partner's map of pairs of darts and a permutation around vertices. CGAL's Combinatorial_map is given the edge
// partner as beta 2 and as beta 1 the next dart around the face, the vertex successor of the edge partner: the base has
// the same numbers of vertices, edges, faces and pieces.
void compare_partner(Random& r, Tally& tally)
{
    using CMap = CGAL::Combinatorial_map<2>;
    const unsigned m = 2 * r.between(1, r.chance(50) ? 12 : 200);
    Entries order(m), edges(m), rows(std::size_t(6) * m);
    std::iota(order.begin(), order.end(), std::uint16_t(0));
    Entries vertices = order;
    r.shuffle(order);
    for (unsigned k = 0; k < m; k++)
        edges[order[k]] = order[k ^ 1];
    for (unsigned times = r.between(0, 2 * m); times; times--) // many vertices, or few
        std::swap(vertices[r.below(m)], vertices[r.below(m)]);
    CMap cmap;
    std::vector<CMap::Dart_handle> handles(m);
    for (auto& handle : handles)
        handle = cmap.create_dart();
    for (unsigned d = 0; d < m; d++) {
        cmap.link_beta<1>(handles[d], handles[vertices[edges[d]]]);
        if (d < edges[d])
            cmap.link_beta<2>(handles[d], handles[edges[d]]);
    }
    const Pyramid none;
    demand(cmap.is_valid(), "CGAL finds a combinatorial map not valid", none);
    demand(import_map(m, edges, vertices, rows) == 0, "a combinatorial map is refused", none);
    const Map base(2, 2 * m, rows);
    demand(Twin<2>(base).cells() == cmap.count_all_cells(), "the base of a combinatorial map has other cells", none);
    tally.partners++;
}

} // namespace

int main(int argc, char** argv)
{
    if (argc != 3) {
        std::fprintf(stderr, "cgal SEED PYRAMIDS\n");
        return 2;
    }
    Random r(std::strtoull(argv[1], nullptr, 10));
    Tally tally;
    for (unsigned long k = std::strtoul(argv[2], nullptr, 10); k; k--)
        switch (r.between(2, 4)) {
        case 2: compare_pyramid<2>(r, tally); break;
        case 3: compare_pyramid<3>(r, tally); break;
        default: compare_pyramid<4>(r, tally);
        }
    for (unsigned long k = std::strtoul(argv[2], nullptr, 10); k; k--)
        compare_partner(r, tally);
    std::printf("%lu pyramids of dimension 2 to 4 (to %lu darts), %lu levels, %lu cells removed and %lu contracted, "
                "verdicts on %lu removable and %lu other cells, %lu contractible and %lu other cells, %lu folded cells "
                "left out, %lu cells counted; %lu combinatorial maps: 0 differences\n",
                tally.pyramids, tally.most_darts, tally.levels, tally.removed, tally.contracted, tally.removable.fit,
                tally.removable.others, tally.contractible.fit, tally.contractible.others, tally.left_out, tally.counted,
                tally.partners);
    return 0;
}
