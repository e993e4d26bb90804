// All jobs of docs/SCOPE.md, written from its definitions on explicit maps, without regard to speed.
#ifndef INDEPENDENT_HPP
#define INDEPENDENT_HPP

#include <algorithm>
#include <cassert>
#include <cstddef>
#include <cstdint>
#include <map>
#include <numeric>
#include <set>
#include <string>
#include <vector>

namespace independent {

using Entries = std::vector<std::uint16_t>;
using Bytes = std::vector<std::uint8_t>;
using Words = std::vector<std::uint64_t>;
using Sums = std::vector<std::int32_t>;
using Counts = std::vector<std::uint32_t>;

constexpr unsigned none = 65535; // every row entry of a dart that is not on an explicit level
constexpr unsigned stay = 255;   // in a mark row

// Thrown by the jobs.
struct Refusal {
    unsigned number = 0, level = 0, involution = 0, dart = 0;
};

inline void demand(bool holds, unsigned number, unsigned level = 0, unsigned involution = 0, unsigned dart = 0)
{
    if (!holds)
        throw Refusal{number, level, involution, dart};
}

// ---------------------------------------------------------------- numbers 1 to 4

inline void demand_dimension(unsigned n) { demand(n >= 1 && n <= 4, 1); }
inline void demand_darts(unsigned darts) { demand(darts >= 1 && darts <= 4096, 2); }
inline void demand_height(unsigned h) { demand(h <= 32, 3); }
inline void demand_length(std::size_t length, std::size_t due) { demand(length == due, 4); }

// ---------------------------------------------------------------- explicit maps

// The darts of one level and their involutions: a[i][d], `none` where d is absent.
struct Map {
    unsigned n = 0, darts = 0;
    std::vector<std::vector<unsigned>> a;

    Map(unsigned n_, unsigned darts_) : n(n_), darts(darts_), a(n_ + 1, std::vector<unsigned>(darts_, none)) {}

    Map(unsigned n_, unsigned darts_, const Entries& rows) : Map(n_, darts_)
    {
        for (unsigned i = 0; i <= n; i++)
            for (unsigned d = 0; d < darts; d++)
                a[i][d] = rows[std::size_t(i) * darts + d];
    }

    bool present(unsigned d) const { return a[0][d] != none; }

    void write(Entries& rows) const
    {
        for (unsigned i = 0; i <= n; i++)
            for (unsigned d = 0; d < darts; d++)
                rows[std::size_t(i) * darts + d] = std::uint16_t(a[i][d]);
    }
};

// Sets of darts that belong together.
class Groups {
public:
    explicit Groups(unsigned darts) : parent(darts) { std::iota(parent.begin(), parent.end(), 0u); }

    unsigned find(unsigned d)
    {
        while (parent[d] != d)
            d = parent[d] = parent[parent[d]];
        return d;
    }

    void join(unsigned d, unsigned e) { parent[find(d)] = find(e); }

private:
    std::vector<unsigned> parent;
};

// What hangs together by the involutions that are used.
template <class Used> Groups connected(const Map& m, Used used)
{
    Groups g(m.darts);
    for (unsigned j = 0; j <= m.n; j++)
        for (unsigned d = 0; used(j) && d < m.darts; d++)
            if (m.present(d))
                g.join(d, m.a[j][d]);
    return g;
}

// The i-cells: all that a dart reaches by every involution but a_i.
inline Groups cells(const Map& m, unsigned i)
{
    return connected(m, [i](unsigned j) { return j != i; });
}

// Whether going by one row and then by the other ends at the same place as in the other order.
inline bool commute_at(const Map& m, unsigned i, unsigned j, unsigned d)
{
    return m.a[j][m.a[i][d]] == m.a[i][m.a[j][d]];
}

// The removal test of one dart in a cell of dimension delta, 0 to n-1.
inline bool removable_at(const Map& m, unsigned delta, unsigned d)
{
    return delta == m.n - 1 || commute_at(m, delta + 1, delta + 2, d);
}

// The contraction test of one dart in a cell of dimension delta, 1 to n.
inline bool contractible_at(const Map& m, unsigned delta, unsigned d)
{
    return delta == 1 || commute_at(m, delta - 1, delta - 2, d);
}

inline void demand_neighbours_in_base(const Map& m)
{
    for (unsigned i = 0; i <= m.n; i++)
        for (unsigned d = 0; d < m.darts; d++)
            demand(m.a[i][d] < m.darts, 5, 0, i, d);
}

inline void demand_neighbours_in_level(const Map& m)
{
    for (unsigned i = 0; i <= m.n; i++)
        for (unsigned d = 0; d < m.darts; d++) {
            const unsigned e = m.a[i][d];
            const bool good = m.present(d) ? e < m.darts && m.present(e) : e == none;
            demand(good, 5, 0, i, d);
        }
}

inline void demand_involutions(const Map& m)
{
    for (unsigned i = 0; i <= m.n; i++)
        for (unsigned d = 0; d < m.darts; d++)
            if (m.present(d))
                demand(m.a[i][m.a[i][d]] == d, 6, 0, i, d);
}

inline void demand_commuting(const Map& m)
{
    for (unsigned i = 0; i <= m.n; i++)
        for (unsigned j = i + 2; j <= m.n; j++)
            for (unsigned d = 0; d < m.darts; d++)
                if (m.present(d))
                    demand(commute_at(m, i, j, d), 7, 0, i, d);
}

// ---------------------------------------------------------------- marks

enum class Kind { none, removal, contraction };

// What a byte of a mark row or of Delta says of a dart.
struct Mark {
    Kind kind = Kind::none;
    unsigned dimension = 0;

    explicit operator bool() const { return kind != Kind::none; }

    // The row that a walk passes the dart by, beside that of its dimension.
    unsigned other_row() const { return kind == Kind::removal ? dimension + 1 : dimension - 1; }
};

constexpr unsigned contracted = 8; // what a contraction's dimension is stored above

inline Mark mark_of(unsigned n, unsigned byte)
{
    for (unsigned delta = 0; delta < n; delta++)
        if (byte == delta)
            return {Kind::removal, delta};
    for (unsigned delta = 1; delta <= n; delta++)
        if (byte == contracted + delta)
            return {Kind::contraction, delta};
    return {};
}

inline bool fits_at(const Map& m, Mark mark, unsigned d)
{
    return mark.kind == Kind::removal ? removable_at(m, mark.dimension, d) : contractible_at(m, mark.dimension, d);
}

// ---------------------------------------------------------------- kernels, and what is left of a level

// For each dart its mark as a byte, or `stay`.
using Kernel = std::vector<unsigned>;

inline void demand_whole_cells(const Map& m, const Kernel& kernel, unsigned level)
{
    for (unsigned d = 0; d < m.darts; d++)
        for (unsigned j = 0; kernel[d] != stay && j <= m.n; j++)
            if (j != mark_of(m.n, kernel[d]).dimension)
                demand(kernel[m.a[j][d]] == kernel[d], 9, level, j, d);
}

inline void demand_fitting_cells(const Map& m, const Kernel& kernel, unsigned level)
{
    for (unsigned d = 0; d < m.darts; d++)
        if (const Mark mark = mark_of(m.n, kernel[d]))
            demand(fits_at(m, mark, d), 10, level, mark.other_row(), d);
}

// The new a_i. Going by a_i from a survivor, and over darts of dimension i on by a_(i+1), if removed, or a_(i-1), if
// contracted, and by a_i in turn, never branches. So the darts so connected form chains, and the survivors at the ends
// of a chain are neighbours; a survivor that is alone in its chain is free.
inline void reduce_row(const Map& m, const Kernel& kernel, unsigned i, Map& next)
{
    Groups chains(m.darts);
    for (unsigned d = 0; d < m.darts; d++) {
        const Mark mark = mark_of(m.n, kernel[d]);
        if (!m.present(d) || (mark && mark.dimension != i))
            continue;
        chains.join(d, m.a[i][d]);
        if (mark)
            chains.join(d, m.a[mark.other_row()][d]);
    }
    std::vector<unsigned> first(m.darts, none), last(m.darts, none); // survivors of a chain
    for (unsigned d = 0; d < m.darts; d++) {
        if (!m.present(d) || kernel[d] != stay)
            continue;
        const unsigned chain = chains.find(d);
        assert(last[chain] == none || first[chain] == last[chain]);
        if (first[chain] == none)
            first[chain] = d;
        last[chain] = d;
    }
    for (unsigned d = 0; d < m.darts; d++)
        if (m.present(d) && kernel[d] == stay) {
            const unsigned chain = chains.find(d);
            next.a[i][d] = first[chain] == d ? last[chain] : first[chain];
        }
}

inline Map reduce(const Map& m, const Kernel& kernel)
{
    Map next(m.n, m.darts);
    for (unsigned i = 0; i <= m.n; i++)
        reduce_row(m, kernel, i, next);
    return next;
}

// ---------------------------------------------------------------- the folded form

inline bool marks_fit(unsigned n, unsigned h, unsigned lambda, unsigned delta)
{
    return lambda < h ? bool(mark_of(n, delta)) : lambda == h && delta == n;
}

inline void demand_folded(unsigned n, unsigned darts, unsigned h, const Bytes& lambda, const Bytes& delta,
                          unsigned level)
{
    for (unsigned d = 0; d < darts; d++)
        demand(marks_fit(n, h, lambda[d], delta[d]), 8, level, 0, d);
}

inline Kernel kernel_of(const Bytes& lambda, const Bytes& delta, unsigned level)
{
    Kernel kernel(lambda.size(), stay);
    for (std::size_t d = 0; d < lambda.size(); d++)
        if (lambda[d] == level)
            kernel[d] = delta[d];
    return kernel;
}

// Takes one kernel; the table holds its level if it is refused.
inline Map climb(const Map& m, const Kernel& kernel, unsigned level, Entries& table)
{
    m.write(table);
    demand_whole_cells(m, kernel, level);
    demand_fitting_cells(m, kernel, level);
    return reduce(m, kernel);
}

// ---------------------------------------------------------------- check and add

inline void demand_base(const Map& base)
{
    demand_neighbours_in_base(base);
    demand_involutions(base);
    demand_commuting(base);
}

inline void check_base(unsigned n, unsigned darts, const Entries& rows)
{
    demand_dimension(n);
    demand_darts(darts);
    demand_length(rows.size(), std::size_t(n + 1) * darts);
    demand_base(Map(n, darts, rows));
}

inline void demand_pyramid_lengths(unsigned n, unsigned darts, unsigned h, const Entries& rows, const Bytes& lambda,
                                   const Bytes& delta)
{
    demand_dimension(n);
    demand_darts(darts);
    demand_height(h);
    demand_length(rows.size(), std::size_t(n + 1) * darts);
    demand_length(lambda.size(), darts);
    demand_length(delta.size(), darts);
}

inline Map climb_to_top(Map level, unsigned h, const Bytes& lambda, const Bytes& delta, Entries& table)
{
    for (unsigned k = 0; k < h; k++)
        level = climb(level, kernel_of(lambda, delta, k), k, table);
    return level;
}

inline void check(unsigned n, unsigned darts, unsigned h, const Entries& rows, const Bytes& lambda, const Bytes& delta,
                  Entries& table)
{
    demand_pyramid_lengths(n, darts, h, rows, lambda, delta);
    demand_length(table.size(), rows.size());
    const Map base(n, darts, rows);
    demand_base(base);
    demand_folded(n, darts, h, lambda, delta, 0);
    climb_to_top(base, h, lambda, delta, table).write(table);
}

inline void demand_mark_row(unsigned n, unsigned darts, unsigned h, const Bytes& lambda, const Bytes& marks)
{
    for (unsigned d = 0; d < darts; d++)
        demand(marks[d] == stay || (mark_of(n, marks[d]) && lambda[d] == h), 8, h, 0, d);
}

// Returns the new height.
inline unsigned add(unsigned n, unsigned darts, unsigned h, const Entries& rows, Bytes& lambda, Bytes& delta,
                    const Bytes& marks, Entries& table)
{
    demand_pyramid_lengths(n, darts, h, rows, lambda, delta);
    demand_length(marks.size(), darts);
    demand_length(table.size(), rows.size());
    demand(h != 32, 20);
    const Map base(n, darts, rows);
    demand_base(base);
    demand_folded(n, darts, h, lambda, delta, 0);
    demand_mark_row(n, darts, h, lambda, marks);
    const Map top = climb_to_top(base, h, lambda, delta, table);
    climb(top, Kernel(marks.begin(), marks.end()), h, table).write(table);
    for (unsigned d = 0; d < darts; d++)
        if (marks[d] != stay)
            delta[d] = marks[d];
        else if (lambda[d] == h)
            lambda[d] = std::uint8_t(h + 1);
    return h + 1;
}

inline void marks(unsigned n, unsigned darts, unsigned h, const Bytes& lambda, const Bytes& delta, unsigned level,
                  Bytes& out)
{
    demand_dimension(n);
    demand_darts(darts);
    demand_height(h);
    demand_length(lambda.size(), darts);
    demand_length(delta.size(), darts);
    demand_length(out.size(), darts);
    demand(level <= h, 11, level);
    demand_folded(n, darts, h, lambda, delta, level);
    for (unsigned d = 0; d < darts; d++)
        out[d] = level < h && lambda[d] == level ? delta[d] : std::uint8_t(stay);
}

// ---------------------------------------------------------------- readings

struct Reading {
    unsigned neighbour = 0, count = 0;
    unsigned since = 0; // of a direct reading: one more than the largest Lambda passed, or 0
};

// One question to a folded pyramid: who is the neighbour of `dart` by `involution` on `level`?
class Question {
public:
    Question(unsigned n_, unsigned darts_, unsigned h_, const Entries& rows_, const Bytes& lambda_,
             const Bytes& delta_, unsigned level_, unsigned involution_, unsigned dart_)
        : n(n_), darts(darts_), h(h_), rows(rows_), lambda(lambda_), delta(delta_), level(level_),
          involution(involution_), dart(dart_)
    {
    }

    void demand_all_before_the_walk() const
    {
        demand_pyramid_lengths(n, darts, h, rows, lambda, delta);
        demand(level <= h, 11, level, involution, dart);
        demand(involution <= n, 13, level, involution, dart);
        demand(dart < darts, 12, level, involution, dart);
        demand(marks_fit(n, h, lambda[dart], delta[dart]), 8, level, involution, dart);
        demand(lambda[dart] >= level, 12, level, involution, dart);
    }

    Reading direct()
    {
        unsigned t = involution;
        unsigned met = read(t, dart), since = 0;
        while (lambda[met] < level) {
            since = std::max(since, lambda[met] + 1u);
            const Mark mark = mark_of(n, delta[met]);
            if (t == mark.dimension)
                t = mark.other_row();
            else if (t == mark.other_row())
                t = mark.dimension;
            else
                refuse_passing(met);
            met = read(t, met);
        }
        return {met, count, since};
    }

    Reading by_levels()
    {
        const unsigned met = on_level(level, involution, dart);
        return {met, count, 0};
    }

private:
    // One base entry.
    unsigned read(unsigned row, unsigned from)
    {
        demand(count < 1 + 2 * darts, 15, level, involution, dart);
        count++;
        last_row = row;
        const unsigned met = rows[std::size_t(row) * darts + from];
        demand(met < darts, 5, level, row, from);
        demand(marks_fit(n, h, lambda[met], delta[met]), 8, level, row, met);
        return met;
    }

    [[noreturn]] void refuse_passing(unsigned met) const { throw Refusal{14, level, last_row, met}; }

    unsigned on_level(unsigned l, unsigned i, unsigned from)
    {
        if (l == 0)
            return read(i, from);
        unsigned met = on_level(l - 1, i, from);
        while (lambda[met] < l) {
            const unsigned first = met;
            const Mark mark = mark_of(n, delta[first]);
            if (lambda[first] != l - 1 || mark.dimension != i)
                refuse_passing(first);
            const unsigned second = on_level(l - 1, mark.other_row(), first);
            if (lambda[second] != lambda[first] || delta[second] != delta[first])
                refuse_passing(second);
            met = on_level(l - 1, i, second);
        }
        return met;
    }

    const unsigned n, darts, h;
    const Entries& rows;
    const Bytes &lambda, &delta;
    const unsigned level, involution, dart;
    unsigned count = 0, last_row = 0;
};

inline Reading read(unsigned n, unsigned darts, unsigned h, const Entries& rows, const Bytes& lambda,
                    const Bytes& delta, unsigned level, unsigned involution, unsigned dart)
{
    Question question(n, darts, h, rows, lambda, delta, level, involution, dart);
    question.demand_all_before_the_walk();
    return question.direct();
}

inline Reading read_by_levels(unsigned n, unsigned darts, unsigned h, const Entries& rows, const Bytes& lambda,
                              const Bytes& delta, unsigned level, unsigned involution, unsigned dart)
{
    Question question(n, darts, h, rows, lambda, delta, level, involution, dart);
    question.demand_all_before_the_walk();
    return question.by_levels();
}

// ---------------------------------------------------------------- whole levels

struct Unfolding {
    unsigned total = 0, since = 0; // of all readings: the sum of their counts, the largest of their sinces
};

inline Unfolding unfold(unsigned n, unsigned darts, unsigned h, const Entries& rows, const Bytes& lambda,
                        const Bytes& delta, unsigned level, Entries& table)
{
    demand_pyramid_lengths(n, darts, h, rows, lambda, delta);
    demand_length(table.size(), rows.size());
    demand(level <= h, 11, level);
    demand_folded(n, darts, h, lambda, delta, level);
    table.assign(table.size(), none);
    Unfolding all;
    Map unfolded(n, darts);
    for (unsigned i = 0; i <= n; i++)
        for (unsigned d = 0; d < darts; d++)
            if (lambda[d] >= level) {
                const Reading r = Question(n, darts, h, rows, lambda, delta, level, i, d).direct();
                unfolded.a[i][d] = r.neighbour;
                all.total += r.count;
                all.since = std::max(all.since, r.since);
            }
    unfolded.write(table);
    return all;
}

struct Part {
    unsigned unfolded = 0, start = 0, length = 0;
};

inline Part row(unsigned n, unsigned darts, unsigned h, const Entries& base, const Entries& unfolded, unsigned level,
                unsigned involution)
{
    demand_dimension(n);
    demand_darts(darts);
    demand_height(h);
    demand_length(base.size(), std::size_t(n + 1) * darts);
    demand_length(unfolded.size(), std::size_t(n + 1) * darts);
    demand(level <= h, 11, level, involution);
    demand(involution <= n, 13, level, involution);
    return {level == 0 ? 0u : 1u, involution * darts, darts};
}

// Returns the number of survivors.
inline unsigned survivors(unsigned darts, unsigned h, const Bytes& lambda, unsigned level, Words& words)
{
    demand_darts(darts);
    demand_height(h);
    demand_length(lambda.size(), darts);
    demand_length(words.size(), 64);
    demand(level <= h, 11, level);
    for (unsigned d = 0; d < darts; d++)
        demand(lambda[d] <= h, 8, level, 0, d);
    words.assign(64, 0);
    unsigned count = 0;
    for (unsigned d = 0; d < darts; d++)
        if (lambda[d] >= level) {
            words[d / 64] += std::uint64_t(1) << d % 64;
            count++;
        }
    return count;
}

// The cells that would not be marked: not removable, or not of exactly two parts when two involutions are left out.
inline std::vector<bool> unfit(const Map& m, unsigned dimension, Groups& cell)
{
    Groups part = connected(m, [=](unsigned j) { return j != dimension && j != dimension + 1; });
    std::vector<std::set<unsigned>> parts(m.darts);
    std::vector<bool> stays(m.darts, false);
    for (unsigned d = 0; d < m.darts; d++) {
        parts[cell.find(d)].insert(part.find(d));
        if (!m.present(d) || !removable_at(m, dimension, d))
            stays[cell.find(d)] = true;
    }
    for (unsigned d = 0; d < m.darts; d++)
        if (parts[cell.find(d)].size() != 2)
            stays[cell.find(d)] = true;
    return stays;
}

// Adds the cell of the lowest dart of each connected piece of which no dart stays.
inline void keep_pieces(const Map& m, Groups& cell, std::vector<bool>& stays)
{
    Groups piece = connected(m, [](unsigned) { return true; });
    std::vector<bool> kept(m.darts, false);
    for (unsigned d = 0; d < m.darts; d++)
        if (stays[cell.find(d)])
            kept[piece.find(d)] = true;
    for (unsigned d = 0; d < m.darts; d++)
        if (!kept[piece.find(d)])
            kept[piece.find(d)] = stays[cell.find(d)] = true;
}

inline void mark(unsigned n, unsigned darts, const Entries& table, unsigned dimension, Bytes& out)
{
    demand_dimension(n);
    demand_darts(darts);
    demand_length(table.size(), std::size_t(n + 1) * darts);
    demand_length(out.size(), darts);
    demand(dimension < n, 13, 0, dimension);
    const Map m(n, darts, table);
    demand_neighbours_in_level(m);
    demand_involutions(m);
    demand_commuting(m);
    Groups cell = cells(m, dimension);
    std::vector<bool> stays = unfit(m, dimension, cell);
    keep_pieces(m, cell, stays);
    for (unsigned d = 0; d < darts; d++)
        out[d] = std::uint8_t(stays[cell.find(d)] ? stay : dimension);
}

// ---------------------------------------------------------------- records

// The fields of a record, one after the other.
class Fields {
public:
    explicit Fields(const Bytes& bytes_) : bytes(bytes_) {}

    unsigned offset() const { return unsigned(at); }
    bool at_end() const { return at == bytes.size(); }
    unsigned tag() const
    {
        demand(at < bytes.size(), 16, 0, 0, offset());
        return bytes[at];
    }

    // Steps over a field and returns its body.
    Bytes next(unsigned due_tag, std::size_t due_length)
    {
        demand(tag() == due_tag, 17, 0, 0, offset());
        demand(bytes.size() - at >= 3, 16, 0, 0, offset());
        demand(bytes[at + 1] + 256u * bytes[at + 2] == due_length, 18, 0, 0, offset());
        demand(bytes.size() - at - 3 >= due_length, 16, 0, 0, offset());
        const auto body = bytes.begin() + std::ptrdiff_t(at) + 3;
        at += 3 + due_length;
        return Bytes(body, body + std::ptrdiff_t(due_length));
    }

private:
    const Bytes& bytes;
    std::size_t at = 0;
};

struct Record {
    unsigned n = 0, h = 0, darts = 0;
    Entries rows;
    Bytes lambda, delta;
};

// Old records, which only the program convert takes, have one byte an entry where N is at most 256; the tag of the first
// row says which.
enum class Rows { wide, either };

inline Record parse(const Bytes& bytes, Rows allowed = Rows::wide)
{
    Fields fields(bytes);
    Record r;
    const Bytes header = fields.next(0x01, 4);
    r.n = header[0];
    r.h = header[1];
    r.darts = header[2] + 256u * header[3];
    demand_dimension(r.n);
    demand_darts(r.darts);
    demand_height(r.h);
    const bool one_byte = allowed == Rows::either && r.darts <= 256 && fields.tag() == 0x20;
    for (unsigned i = 0; i <= r.n; i++) {
        const Bytes row = fields.next((one_byte ? 0x20 : 0x10) + i, (one_byte ? 1 : 2) * r.darts);
        for (unsigned d = 0; d < r.darts; d++)
            r.rows.push_back(std::uint16_t(one_byte ? row[d] : row[2 * d] + 256u * row[2 * d + 1]));
    }
    r.lambda = fields.next(0x30, r.darts);
    r.delta = fields.next(0x31, r.darts);
    demand(fields.at_end(), 19, 0, 0, fields.offset());
    return r;
}

// After 5 to 10 the rows and marks hold the record, and the front of the table what the check leaves.
inline Record take(const Bytes& bytes, Entries& rows, Bytes& lambda, Bytes& delta, Entries& table)
{
    const Record r = parse(bytes);
    demand(rows.size() >= r.rows.size() && lambda.size() >= r.darts && delta.size() >= r.darts &&
               table.size() >= r.rows.size(),
           4);
    std::copy(r.rows.begin(), r.rows.end(), rows.begin());
    std::copy(r.lambda.begin(), r.lambda.end(), lambda.begin());
    std::copy(r.delta.begin(), r.delta.end(), delta.begin());
    Entries front(table.begin(), table.begin() + std::ptrdiff_t(r.rows.size()));
    try {
        check(r.n, r.darts, r.h, r.rows, r.lambda, r.delta, front);
    } catch (const Refusal&) {
        std::copy(front.begin(), front.end(), table.begin());
        throw;
    }
    std::copy(front.begin(), front.end(), table.begin());
    return r;
}

inline void put_field(Bytes& record, unsigned tag, const Bytes& body)
{
    for (const std::size_t byte : {std::size_t(tag), body.size() % 256, body.size() / 256})
        record.push_back(std::uint8_t(byte));
    record.insert(record.end(), body.begin(), body.end());
}

inline unsigned write(unsigned n, unsigned darts, unsigned h, const Entries& rows, const Bytes& lambda,
                      const Bytes& delta, Entries& table, Bytes& bytes)
{
    check(n, darts, h, rows, lambda, delta, table);
    Bytes record;
    put_field(record, 0x01, {std::uint8_t(n), std::uint8_t(h), std::uint8_t(darts % 256), std::uint8_t(darts / 256)});
    for (unsigned i = 0; i <= n; i++) {
        Bytes body;
        for (unsigned d = 0; d < darts; d++) {
            const unsigned entry = rows[std::size_t(i) * darts + d];
            body.push_back(std::uint8_t(entry % 256));
            body.push_back(std::uint8_t(entry / 256));
        }
        put_field(record, 0x10 + i, body);
    }
    put_field(record, 0x30, lambda);
    put_field(record, 0x31, delta);
    demand(record.size() <= bytes.size(), 4);
    std::copy(record.begin(), record.end(), bytes.begin());
    return unsigned(record.size());
}

// The bits of the double nearest to a / b, for a >= b: 53 binary digits from the first 1 on by long division, rounded by
// what is left, to the even one at a tie.
inline std::uint64_t nearest_double(std::uint64_t a, std::uint64_t b)
{
    std::uint64_t exponent = 1023, digits = 0;
    for (; a >= 2 * b; exponent++)
        b *= 2;
    for (unsigned k = 0; k < 53; k++) {
        const bool one = a >= b;
        digits = 2 * digits + one;
        a = 2 * (a - (one ? b : 0));
    }
    digits += a > b || (a == b && digits % 2);
    return (exponent << 52) + (digits - (std::uint64_t(1) << 52));
}

struct Factor {
    bool empty;
    std::uint64_t factor; // bits
};

inline Factor decimation(unsigned n, unsigned darts, unsigned h, const Entries& rows, const Bytes& lambda,
                         const Bytes& delta, Entries& table, unsigned level)
{
    check(n, darts, h, rows, lambda, delta, table);
    demand(level < h, 11, level);
    const auto on = [&](unsigned l) {
        return std::uint64_t(std::count_if(lambda.begin(), lambda.end(), [&](unsigned at) { return at >= l; }));
    };
    const std::uint64_t next = on(level + 1);
    return next ? Factor{false, nearest_double(on(level), next)} : Factor{true, 0};
}

// ---------------------------------------------------------------- the census

inline unsigned count_cells(const Map& m, unsigned i)
{
    Groups cell = cells(m, i);
    unsigned count = 0;
    for (unsigned d = 0; d < m.darts; d++)
        count += m.present(d) && cell.find(d) == d;
    return count;
}

inline void census(unsigned n, unsigned darts, unsigned h, const Entries& rows, const Bytes& lambda,
                   const Bytes& delta, Entries& table, Entries& counts, Sums& sums)
{
    demand_pyramid_lengths(n, darts, h, rows, lambda, delta);
    demand_length(table.size(), rows.size());
    demand_length(counts.size(), 165);
    demand_length(sums.size(), 33);
    check(n, darts, h, rows, lambda, delta, table);
    counts.assign(165, 0);
    sums.assign(33, 0);
    Map level(n, darts, rows);
    for (unsigned l = 0; l <= h; l++) {
        for (unsigned i = 0; i <= n; i++) {
            const unsigned count = count_cells(level, i);
            counts[5 * l + i] = std::uint16_t(count);
            sums[l] += i % 2 ? -int(count) : int(count);
        }
        if (l < h)
            level = reduce(level, kernel_of(lambda, delta, l));
    }
}

// ---------------------------------------------------------------- all levels

// The explicit levels one behind the other, made by removal, and what unfolding each answers. Where a kernel fails, the
// levels up to its own are there all the same.
inline void unfold_all(unsigned n, unsigned darts, unsigned h, const Entries& rows, const Bytes& lambda,
                       const Bytes& delta, Entries& tables, Counts& counts, Bytes& since)
{
    demand_pyramid_lengths(n, darts, h, rows, lambda, delta);
    demand_length(tables.size(), (h + 1) * rows.size());
    demand_length(counts.size(), 33);
    demand_length(since.size(), 33);
    Entries table(rows.size());
    const auto put_levels = [&](unsigned last) {
        Map level(n, darts, rows);
        for (unsigned l = 0; l <= last; l++) {
            level.write(table);
            std::copy(table.begin(), table.end(), tables.begin() + std::ptrdiff_t(l * rows.size()));
            if (l < last)
                level = reduce(level, kernel_of(lambda, delta, l));
        }
    };
    try {
        check(n, darts, h, rows, lambda, delta, table);
    } catch (const Refusal& r) {
        if (r.number == 9 || r.number == 10)
            put_levels(r.level);
        throw;
    }
    put_levels(h);
    counts.assign(33, 0);
    since.assign(33, 0);
    for (unsigned l = 0; l <= h; l++) {
        const Unfolding all = unfold(n, darts, h, rows, lambda, delta, l, table);
        counts[l] = all.total;
        since[l] = std::uint8_t(all.since);
    }
}

// ---------------------------------------------------------------- the programs

inline std::string said(const Refusal& r)
{
    return "refused " + std::to_string(r.number) + ' ' + std::to_string(r.level) + ' ' +
           std::to_string(r.involution) + ' ' + std::to_string(r.dart);
}

// What the program census prints, its lines joined by " / ".
inline std::string census_program(const Bytes& bytes)
{
    try {
        const Record r = parse(bytes);
        Entries table(r.rows.size()), counts(165);
        Sums sums(33);
        census(r.n, r.darts, r.h, r.rows, r.lambda, r.delta, table, counts, sums);
        std::string text;
        for (unsigned l = 0; l <= r.h; l++) {
            text += (l ? " / " : "") + std::to_string(l);
            for (unsigned i = 0; i <= r.n; i++)
                text += ' ' + std::to_string(counts[5 * l + i]);
            text += ' ' + std::to_string(sums[l]);
        }
        return text;
    } catch (const Refusal& r) {
        return said(r);
    }
}

// A partner's 2D combinatorial map, dart by dart.
inline void import_map(unsigned m, const Entries& edges, const Entries& vertices, Entries& rows)
{
    demand(m >= 1 && m <= 2048, 2);
    demand_length(edges.size(), m);
    demand_length(vertices.size(), m);
    demand_length(rows.size(), std::size_t(6) * m);
    for (unsigned d = 0; d < m; d++)
        demand(edges[d] < m, 5, 0, 0, d);
    for (unsigned d = 0; d < m; d++)
        demand(vertices[d] < m, 5, 0, 1, d);
    for (unsigned d = 0; d < m; d++)
        demand(edges[edges[d]] == d, 6, 0, 0, d);
    std::set<unsigned> images;
    for (unsigned d = 0; d < m; d++)
        demand(images.insert(vertices[d]).second, 21, 0, 1, d);
    Map base(2, 2 * m);
    const auto join = [&](unsigned i, unsigned x, unsigned y) {
        base.a[i][x] = y;
        base.a[i][y] = x;
    };
    for (unsigned d = 0; d < m; d++) {
        join(2, 2 * d, 2 * d + 1);
        join(1, 2 * d + 1, 2u * vertices[d]);
        base.a[0][2 * d] = 2u * edges[d] + 1;
        base.a[0][2 * d + 1] = 2u * edges[d];
    }
    base.write(rows);
}

// No other two rows can yield a base than those that a0 of its even and a1 of its odd darts name; they are tried.
inline void export_map(unsigned n, unsigned darts, const Entries& rows, Entries& edges, Entries& vertices)
{
    demand(n == 2, 1);
    demand_darts(darts);
    const unsigned m = darts / 2;
    demand_length(rows.size(), std::size_t(3) * darts);
    demand_length(edges.size(), m);
    demand_length(vertices.size(), m);
    demand_base(Map(n, darts, rows));
    Entries to_edges(m), to_vertices(m), again(std::size_t(6) * m);
    for (unsigned d = 0; d < m; d++) {
        to_edges[d] = rows[2 * d] / 2;
        to_vertices[d] = rows[darts + 2 * d + 1] / 2;
    }
    try {
        import_map(m, to_edges, to_vertices, again);
    } catch (const Refusal&) {
        throw Refusal{22};
    }
    demand(again == rows, 22);
    edges = to_edges;
    vertices = to_vertices;
}

// ---------------------------------------------------------------- regions

// Every dart takes the lowest name near it, until none changes.
inline Entries lowest_reached(const Map& base, const Bytes& lambda, const Bytes& delta, unsigned level)
{
    const auto over = [&](unsigned d) { return lambda[d] < level && delta[d] + 1u == base.n; };
    Entries names(base.darts);
    std::iota(names.begin(), names.end(), std::uint16_t(0));
    for (bool changed = true; changed;) {
        changed = false;
        for (unsigned d = 0; d < base.darts; d++)
            for (unsigned i = 0; i < base.n + over(d); i++)
                if (names[base.a[i][d]] < names[d]) {
                    names[d] = names[base.a[i][d]];
                    changed = true;
                }
    }
    return names;
}

inline void regions(unsigned n, unsigned darts, unsigned h, const Entries& rows, const Bytes& lambda,
                    const Bytes& delta, Entries& table, unsigned level, Entries& names)
{
    demand_pyramid_lengths(n, darts, h, rows, lambda, delta);
    demand_length(names.size(), darts);
    check(n, darts, h, rows, lambda, delta, table);
    demand(level <= h, 11, level);
    for (unsigned d = 0; d < darts; d++)
        demand(mark_of(n, delta[d]).kind != Kind::contraction, 23, 0, 0, d);
    names = lowest_reached(Map(n, darts, rows), lambda, delta, level);
}

// Returns the new height. The joined kernel is made of the two and tested on its level; the table keeps the top.
inline unsigned join(unsigned n, unsigned darts, unsigned h, const Entries& rows, Bytes& lambda, const Bytes& delta,
                     Entries& table, unsigned level)
{
    check(n, darts, h, rows, lambda, delta, table);
    demand(level + 1 < h, 11, level);
    const Entries top = table;
    const Map at = climb_to_top(Map(n, darts, rows), level, lambda, delta, table);
    Kernel both = kernel_of(lambda, delta, level);
    const Kernel next = kernel_of(lambda, delta, level + 1);
    for (unsigned d = 0; d < darts; d++)
        if (both[d] == stay)
            both[d] = next[d];
    climb(at, both, level, table);
    table = top;
    for (auto& one : lambda)
        one = std::uint8_t(one - (one > level));
    return h - 1;
}

// ---------------------------------------------------------------- starting again

struct Base {
    unsigned darts, h;
};

// Makes level the base. Every list is made anew, with the values of the darts kept in front and the filler behind.
inline Base rebase(unsigned n, unsigned darts, unsigned h, Entries& rows, Bytes& lambda, Bytes& delta, Entries& table,
                   unsigned level, Entries& old)
{
    demand_dimension(n);
    demand_darts(darts);
    demand_height(h);
    demand_length(old.size(), darts);
    check(n, darts, h, rows, lambda, delta, table);
    demand(level <= h, 11, level);
    std::vector<unsigned> kept;
    std::map<unsigned, unsigned> number;
    for (unsigned d = 0; d < darts; d++)
        if (lambda[d] >= level) {
            number[d] = unsigned(kept.size());
            kept.push_back(d);
        }
    demand(!kept.empty(), 2);
    Map base(n, darts, rows);
    for (unsigned k = 0; k < level; k++)
        base = reduce(base, kernel_of(lambda, delta, k));
    Entries new_rows, new_old;
    Bytes new_lambda, new_delta;
    for (unsigned i = 0; i <= n; i++)
        for (const unsigned d : kept)
            new_rows.push_back(std::uint16_t(number.at(base.a[i][d])));
    for (const unsigned d : kept) {
        new_lambda.push_back(std::uint8_t(lambda[d] - level));
        new_delta.push_back(delta[d]);
        new_old.push_back(std::uint16_t(d));
    }
    new_rows.resize(rows.size(), 65535);
    new_lambda.resize(darts, stay);
    new_delta.resize(darts, stay);
    new_old.resize(darts, 65535);
    rows = new_rows;
    lambda = new_lambda;
    delta = new_delta;
    old = new_old;
    return {unsigned(kept.size()), h - level};
}

// ---------------------------------------------------------------- the programs again

// What the program convert writes, as the vectors have it: the bytes as a list, then " / " and its error line.
inline std::string convert(const Bytes& bytes)
{
    try {
        const Record r = parse(bytes, Rows::either);
        Entries table(r.rows.size());
        Bytes record(49180);
        record.resize(write(r.n, r.darts, r.h, r.rows, r.lambda, r.delta, table, record));
        std::string text = std::to_string(record.size());
        for (const unsigned byte : record)
            text += ' ' + std::to_string(byte);
        return text;
    } catch (const Refusal& r) {
        return "0 / " + said(r);
    }
}

// What the program levels prints, its lines joined by " / ".
inline std::string levels(const Bytes& bytes)
{
    try {
        const Record r = parse(bytes);
        Entries table(r.rows.size());
        check(r.n, r.darts, r.h, r.rows, r.lambda, r.delta, table);
        std::string text = std::to_string(r.n) + ' ' + std::to_string(r.darts) + ' ' + std::to_string(r.h);
        for (unsigned l = 0; l <= r.h; l++) {
            const Unfolding all = unfold(r.n, r.darts, r.h, r.rows, r.lambda, r.delta, l, table);
            Words words(64);
            const unsigned count = survivors(r.darts, r.h, r.lambda, l, words);
            text += " / " + std::to_string(l) + ' ' + std::to_string(count) + ' ' + std::to_string(all.total) + ' ' +
                    std::to_string(all.since);
        }
        return text;
    } catch (const Refusal& r) {
        return said(r);
    }
}

} // namespace independent

#endif
