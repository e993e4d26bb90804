// Small random changes of what a case lends and asks, made so that some still go deep before they are refused.
#ifndef MUTATIONS_HPP
#define MUTATIONS_HPP

#include "pyramid_mutations.hpp"

namespace mutations {

// ---------------------------------------------------------------- numbers

// Changes a number of the case. The lists follow n and N now and then, so that more than lengths is tested.
inline void change_number(Random& r, Case& c, char item)
{
    switch (item) {
    case 'n': c.n = changed(r, c.n, 8); break;
    case 'D': c.darts = changed(r, c.darts, 16); break;
    case 'h': c.h = changed(r, c.h, 8); break;
    case 'l': c.level = changed(r, c.level, 8); break;
    case 'i': c.involution = changed(r, c.involution, 8); break;
    case 'd': c.dart = changed(r, c.dart, 16); break;
    }
    const bool small = c.n <= 6 && c.darts <= 4097 && (c.darts < 300 || r.chance(10));
    if ((item == 'n' || item == 'D') && small && r.chance(60))
        fit_lengths(c);
}

// ---------------------------------------------------------------- lists

// Takes a part of another list over, most often to where it stood there.
template <class List> void copy_part(Random& r, List& list, const List& other)
{
    const std::size_t shorter = std::min(list.size(), other.size());
    if (!shorter)
        return;
    const std::size_t length = r.between(1, unsigned(r.chance(70) ? std::min<std::size_t>(shorter, 8) : shorter));
    const std::size_t from = r.below(other.size() - length + 1);
    const bool same_place = from + length <= list.size() && r.chance(70);
    const std::size_t to = same_place ? from : r.below(list.size() - length + 1);
    std::copy_n(other.begin() + std::ptrdiff_t(from), length, list.begin() + std::ptrdiff_t(to));
}

// A bit, one more or less, or an entry or a part from elsewhere.
template <class List> void change_entry(Random& r, List& list, const List& other)
{
    using Value = typename List::value_type;
    if (list.empty())
        return;
    Value& entry = list[place_below(r, list.size())];
    switch (r.below(6)) {
    case 0: entry = Value(std::uint64_t(entry) ^ std::uint64_t(1) << r.below(8 * sizeof(Value))); break;
    case 1: entry = Value(std::uint64_t(entry) + 1); break;
    case 2: entry = Value(std::uint64_t(entry) - 1); break;
    case 3: std::swap(entry, list[r.below(list.size())]); break;
    case 4: entry = list[r.below(list.size())]; break;
    default: copy_part(r, list, other);
    }
}

// Another length, now and then far too large, or an entry.
template <class List> void change_list(Random& r, List& list, const List& other)
{
    if (r.chance(1))
        list.resize(r.pick({65535u, 65536u, 70000u}));
    else if (r.chance(12))
        change_length(r, list);
    else
        change_entry(r, list, other);
}

// Changes one item of the case as the items of another have it.
inline void change_item(Random& r, Case& c, const Case& other, char item)
{
    switch (item) {
    case 'R': change_list(r, c.rows, other.rows); break;
    case 'T': change_list(r, c.table, other.table); break;
    case 'L': change_list(r, c.lambda, other.lambda); break;
    case 'E': change_list(r, c.delta, other.delta); break;
    case 'M': change_list(r, c.marks, other.marks); break;
    case 'B': change_list(r, c.bytes, other.bytes); break;
    case 'W': change_list(r, c.words, other.words); break;
    case 'C': change_list(r, c.cells, other.cells); break;
    case 'S': change_list(r, c.sums, other.sums); break;
    case 'P': change_list(r, c.edges, other.edges); break;
    case 'V': change_list(r, c.vertices, other.vertices); break;
    case 'N': change_list(r, c.names, other.names); break;
    case 'O': change_list(r, c.old, other.old); break;
    case 'A': change_list(r, c.tables, other.tables); break;
    case 'K': change_list(r, c.counts, other.counts); break;
    case 'G': change_list(r, c.since, other.since); break;
    default: change_number(r, c, item);
    }
}

// ---------------------------------------------------------------- records

// Where the fields of a record start, as their lengths say, and its end.
inline std::vector<std::size_t> field_starts(const Bytes& record)
{
    std::vector<std::size_t> starts;
    for (std::size_t at = 0; at < record.size();) {
        starts.push_back(at);
        at += 3 + (at + 2 < record.size() ? record[at + 1] + 256u * record[at + 2] : 0u);
    }
    starts.push_back(record.size());
    return starts;
}

// Two fields change places, or one is left out or comes twice.
inline void change_fields(Random& r, Bytes& record)
{
    const auto starts = field_starts(record);
    const std::size_t k = r.below(starts.size() - 1), l = r.below(starts.size() - 1);
    const auto field = [&](std::size_t x) {
        return Bytes(record.begin() + std::ptrdiff_t(starts[x]), record.begin() + std::ptrdiff_t(starts[x + 1]));
    };
    const unsigned how = r.below(3);
    Bytes changed;
    for (std::size_t x = 0; x + 1 < starts.size(); x++) {
        const Bytes due = field(how != 0 ? x : x == k ? l : x == l ? k : x);
        if (how != 1 || x != k)
            changed.insert(changed.end(), due.begin(), due.end());
        if (how == 2 && x == k)
            changed.insert(changed.end(), due.begin(), due.end());
    }
    record = changed;
}

// The pyramid that a record holds, as a check would be lent it.
inline std::optional<Case> held_by(const Bytes& record)
{
    try {
        const auto held = independent::parse(record);
        Case c;
        c.what = CHECK;
        c.n = held.n;
        c.h = held.h;
        c.darts = held.darts;
        c.rows = held.rows;
        c.lambda = held.lambda;
        c.delta = held.delta;
        return c;
    } catch (const Refusal&) {
        return {};
    }
}

// Changes the pyramid in a record that can be read; its memory becomes large enough again, or not.
inline void change_held(Random& r, Case& c)
{
    auto held = held_by(c.bytes);
    if (!held)
        return;
    change_pyramid(r, *held);
    std::vector<std::size_t> starts;
    c.bytes = record_of(*held, held->darts <= 256 && r.chance(1), starts);
    if (r.chance(80)) {
        held->table.resize(held->rows.size());
        lend_for_record(r, *held);
        c.rows = held->rows;
        c.table = held->table;
        c.lambda = held->lambda;
        c.delta = held->delta;
    }
}

// The record's bytes, its fields, what it holds, or the memory lent for that.
inline void change_record(Random& r, Case& c, const Case& other)
{
    switch (r.below(10)) {
    case 0: change_list(r, c.bytes, other.bytes); break;
    case 1: change_entry(r, c.bytes, other.bytes); break;
    case 2:
        if (!c.bytes.empty())
            change_fields(r, c.bytes);
        break;
    case 3:
    case 4: damage_record(r, c.bytes, field_starts(c.bytes)); break;
    case 5: change_item(r, c, other, r.pick({'R', 'L', 'E', 'T'})); break;
    default: change_held(r, c);
    }
}

// ---------------------------------------------------------------- all jobs

// The two rows of an import: changes that keep an involution and a permutation, so that it goes deep, or don't.
inline void change_partner(Random& r, Case& c)
{
    const bool exact = c.edges.size() == c.darts && c.vertices.size() == c.darts && c.darts;
    if (exact && r.chance(30))
        link_others(r, c.edges, c.darts);
    else if (exact && r.chance(30))
        std::swap(c.vertices[place_below(r, c.darts)], c.vertices[r.below(c.darts)]);
    else
        damage_partner(r, c, r.chance(50) ? c.edges : c.vertices);
}

// A base or an explicit level without marks.
inline void change_level(Random& r, Case& c, Entries& rows)
{
    if (!c.darts || rows.size() != std::size_t(c.n + 1) * c.darts)
        return;
    switch (r.below(4)) {
    case 0: link_others(r, rows, c.darts); break;
    case 1: unlink(r, rows, c.darts); break;
    case 2: damage_rows(r, rows, c.darts); break;
    default: swap_darts(r, c);
    }
}

// One change that suits the job, or any of an item.
inline void change_once(Random& r, Case& c, const Case& other)
{
    const char* form = case_forms[c.what];
    if (c.what == TAKE)
        change_record(r, c, other);
    else if (c.what == IMPORT && r.chance(60))
        change_partner(r, c);
    else if ((c.what == CHECK_BASE || c.what == EXPORT) && r.chance(60))
        change_level(r, c, c.rows);
    else if (c.what == MARK && r.chance(60))
        change_level(r, c, c.table);
    else if ((c.what == MARKS || c.what == SURVIVORS) && r.chance(40))
        damage_marks(r, c, r.chance(50) ? c.lambda : c.delta);
    else if (has_pyramid(c) && r.chance(65))
        change_pyramid(r, c);
    else
        change_item(r, c, other, form[r.below(std::strlen(form))]);
}

// One change, now and then several at once.
inline void change(Random& r, Case& c, const Case& other)
{
    for (unsigned times = r.chance(70) ? 1 : r.chance(75) ? r.between(2, 3) : r.between(4, 12); times; times--)
        change_once(r, c, other);
}

} // namespace mutations

#endif
