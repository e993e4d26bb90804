/* The jobs in plain C, written for speed by whatever way is fastest: no intrinsics, no check beyond those of
 * docs/SCOPE.md.
 *
 * What is done for speed: a test says only whether all is well, over many entries at once, and the place is sought only
 * if it isn't; what runs over the rows is compiled for each n; a pyramid's darts are listed by kernel and mark once, so
 * that a level costs what its kernel has and all darts of a list use the same rows; a removal starts from the kernel's
 * darts, in place, and the entries of all darts gone are cleared once, at the end; every job climbs once. */
#include "plain.h"

#include <stdbool.h>
#include <string.h>

#define RESULT(type, ...) ((type){__VA_ARGS__})
#define UNLIKELY(x) __builtin_expect(x, 0)

/* A function of n that is compiled for each n, so that its loops over rows are none; WITH_N calls it. */
#define FOR_EACH_N static inline __attribute__((always_inline))
#define WITH_N(n, f, ...) \
    ((n) == 1 ? f(1, __VA_ARGS__) : (n) == 2 ? f(2, __VA_ARGS__) : (n) == 3 ? f(3, __VA_ARGS__) : f(4, __VA_ARGS__))

/* As memcpy, of a row at most: for so few bytes gcc puts 'rep movs', which takes the fewest instructions. */
__attribute__((noinline)) static void copy(void *to, const void *from, size_t len)
{
    if (len > 2 * ZG_MOST_DARTS)
        __builtin_unreachable();
    memcpy(to, from, len);
}

static void copy_rows(unsigned n, unsigned darts, uint16_t *to, const uint16_t *from)
{
    for (unsigned i = 0; i <= n; i++)
        copy(to + i * darts, from + i * darts, darts * sizeof *to);
}

/* Number 1, 2 or 3, or 0. */
static unsigned bad_size(unsigned n, unsigned darts, unsigned h)
{
    if (n - 1 > 3)
        return 1;
    if (darts - 1 > ZG_MOST_DARTS - 1)
        return 2;
    return h > 32 ? 3 : 0;
}

uint32_t plain_version(void) { return ZG_VERSION; }

/* ---------------------------------------------------------------- numbers 5 to 8 */

static zg_refusal find_bad_neighbour(unsigned n, unsigned darts, const uint16_t *rows)
{
    for (unsigned i = 0; i <= n; i++)
        for (unsigned d = 0; d < darts; d++)
            if (rows[i * darts + d] >= darts)
                return RESULT(zg_refusal, 5, 0, i, d);
    return RESULT(zg_refusal, 0);
}

/* The largest entry first, without a branch for each: the place is sought only if there is one. */
static bool all_below(const uint16_t *rows, size_t len, unsigned darts)
{
    uint16_t most = 0;
    for (size_t k = 0; k < len; k++)
        most = rows[k] > most ? rows[k] : most;
    return most < darts;
}

/* The first place of number 6 or 7; there is one. */
static zg_refusal find_bad_rows(unsigned n, unsigned darts, const uint16_t *rows)
{
    for (unsigned i = 0; i <= n; i++) {
        const uint16_t *a = rows + i * darts;
        for (unsigned d = 0; d < darts; d++)
            if (a[a[d]] != d)
                return RESULT(zg_refusal, 6, 0, i, d);
    }
    for (unsigned i = 0; i + 2 <= n; i++)
        for (unsigned j = i + 2; j <= n; j++) {
            const uint16_t *a = rows + i * darts, *b = rows + j * darts;
            for (unsigned d = 0; d < darts; d++)
                if (b[a[d]] != a[b[d]])
                    return RESULT(zg_refusal, 7, 0, i, d);
        }
    return RESULT(zg_refusal, 0);
}

/* Whether a dart has neither number 6 nor 7. Its neighbours are read once, for all tests of it. */
FOR_EACH_N bool dart_fits(unsigned n, const uint16_t *const *row, size_t at)
{
    uint16_t d = (uint16_t)at, to[5];
    for (unsigned i = 0; i <= n; i++) {
        to[i] = row[i][at];
        if (row[i][to[i]] != d)
            return false;
    }
    for (unsigned j = 2; j <= n; j++)
        for (unsigned i = 0; i + 2 <= j; i++)
            if (row[j][to[i]] != row[i][to[j]])
                return false;
    return true;
}

FOR_EACH_N bool rows_fit(unsigned n, size_t darts, const uint16_t *rows)
{
    const uint16_t *row[5];
    for (unsigned i = 0; i <= n; i++)
        row[i] = rows + i * darts;
#pragma GCC unroll 4
    for (size_t d = 0; d < darts; d++)
        if (!dart_fits(n, row, d))
            return false;
    return true;
}

static zg_refusal check_rows(unsigned n, unsigned darts, const uint16_t *rows)
{
    if (!all_below(rows, (size_t)(n + 1) * darts, darts))
        return find_bad_neighbour(n, darts, rows);
    if (!WITH_N(n, rows_fit, darts, rows))
        return find_bad_rows(n, darts, rows);
    return RESULT(zg_refusal, 0);
}

/* A mark is a dimension below n, or ZG_CONTRACT and a dimension from 1 to n. n is at most 4, so the three low bits are
 * the dimension of either kind. */
static unsigned dimension_of(unsigned mark) { return mark & 7; }
static bool contracts(unsigned mark) { return mark & ZG_CONTRACT; }
static bool is_mark(unsigned n, uint8_t mark) { return (mark < n) | ((uint8_t)(mark - ZG_CONTRACT - 1) < n); }

/* The lower of the two rows between which a walk passes a dart: a removed one goes between its dimension and the next,
 * a contracted one between its dimension and the one before. */
static unsigned lower_row(unsigned mark) { return contracts(mark) ? mark - ZG_CONTRACT - 1 : mark; }

static bool marks_fit(unsigned n, unsigned h, uint8_t lambda, uint8_t delta)
{
    return (lambda < h && is_mark(n, delta)) || (lambda == h && delta == n);
}

/* The first dart with marks that don't fit, or darts; again the place is sought only if there is one. A mark is one
 * exactly if it is below n, or what is left of it after taking off 9; where Lambda is h, all of Delta is compared, and
 * one less than n is below n. */
static unsigned first_unfit(unsigned n, unsigned darts, unsigned h, const uint8_t *lambda, const uint8_t *delta)
{
    uint8_t top = (uint8_t)h, dimension = (uint8_t)n, highest = 0, most = 0, differ = 0;
    for (unsigned d = 0; d < darts; d++) {
        uint8_t less = (uint8_t)(delta[d] - ZG_CONTRACT - 1), row = delta[d] < less ? delta[d] : less;
        uint8_t stays = lambda[d] == top ? 255 : 0, asked = (uint8_t)(row + stays);
        differ |= (uint8_t)((delta[d] ^ dimension) & stays);
        most = asked > most ? asked : most;
        highest = lambda[d] > highest ? lambda[d] : highest;
    }
    bool bad = highest > top || most >= dimension || differ;
    unsigned d = bad ? 0 : darts;
    while (d < darts && marks_fit(n, h, lambda[d], delta[d]))
        d++;
    return d;
}

/* ---------------------------------------------------------------- kernels */

/* The kind of a dart is its kernel and its mark in one number: 16 times Lambda, and Delta, which is below 16. */
enum { MARKS = 16, KINDS = 33 * MARKS };

static unsigned least_kind(unsigned level) { return level * MARKS; }

/* Kinds of one kernel differ in their mark alone. */
static bool same_kernel(unsigned kind, unsigned other) { return (kind ^ other) < MARKS; }

/* The kind of each dart, and the darts of each kind, rising: the first, and which comes after each; ZG_ABSENT ends. A
 * list takes one pass, a sorted row would take two. */
struct kinds {
    uint16_t of[ZG_MOST_DARTS], next[ZG_MOST_DARTS], first[KINDS];
};

static void set_kinds(unsigned darts, const uint8_t *restrict lambda, const uint8_t *restrict delta,
                      uint16_t *restrict of)
{
    for (unsigned d = 0; d < darts; d++)
        of[d] = (uint16_t)(lambda[d] * MARKS + delta[d]);
}

static void list_kinds(unsigned darts, struct kinds *kinds)
{
    memset(kinds->first, 255, sizeof kinds->first);
#pragma GCC unroll 4
    for (size_t d = darts; d-- > 0;) {
        size_t kind = kinds->of[d];
        kinds->next[d] = kinds->first[kind];
        kinds->first[kind] = (uint16_t)d;
    }
}

/* The rows of a mark: that of its dimension, then the other that a walk passes by, then the one that must commute with
 * this one, if there is one, then the rest. */
struct ways {
    unsigned row[5];
    bool beyond;
};

static struct ways ways_of(unsigned n, unsigned mark)
{
    int own = (int)dimension_of(mark), step = contracts(mark) ? -1 : 1, beyond = own + 2 * step;
    struct ways w = {{(unsigned)own, (unsigned)(own + step)}, beyond >= 0 && beyond <= (int)n};
    unsigned known = 2;
    if (w.beyond)
        w.row[known++] = (unsigned)beyond;
    for (int i = 0; i <= (int)n; i++)
        if (i != own && i != own + step && i != beyond)
            w.row[known++] = (unsigned)i;
    return w;
}

/* FOR_KINDS: the kinds of a kernel that a dart has. */
#define FOR_KINDS(n, level, kinds, kind) \
    for (unsigned kind = least_kind(level); kind < least_kind(level) + ZG_CONTRACT + 1 + (n); kind++) \
        if ((kinds)->first[kind] != ZG_ABSENT)

/* Whether the darts of a kind have neither number 9 nor 10. */
FOR_EACH_N bool kind_fits(unsigned n, size_t darts, const uint16_t *table, const struct kinds *kinds, uint16_t kind,
                          bool beyond, const struct ways *w)
{
    const uint16_t *row[5] = {0};
    for (unsigned j = 1; j <= n; j++)
        row[j] = table + w->row[j] * darts;
    for (size_t d = kinds->first[kind]; d != ZG_ABSENT; d = kinds->next[d]) {
        size_t to[5] = {0};
        for (unsigned j = 1; j <= n; j++) {
            to[j] = row[j][d];
            if (UNLIKELY(kinds->of[to[j]] != kind))
                return false;
        }
        if (beyond && UNLIKELY(row[2][to[1]] != row[1][to[2]]))
            return false;
    }
    return true;
}

FOR_EACH_N bool kernel_fits_n(unsigned n, size_t darts, unsigned level, const uint16_t *table,
                              const struct kinds *kinds)
{
    FOR_KINDS(n, level, kinds, kind)
    {
        struct ways w = ways_of(n, kind % MARKS);
        if (!(w.beyond ? kind_fits(n, darts, table, kinds, (uint16_t)kind, true, &w)
                       : kind_fits(n, darts, table, kinds, (uint16_t)kind, false, &w)))
            return false;
    }
    return true;
}

static bool kernel_fits(unsigned n, size_t darts, unsigned level, const uint16_t *table, const struct kinds *kinds)
{
    return WITH_N(n, kernel_fits_n, darts, level, table, kinds);
}

/* The first place of number 9 or 10, in the table of a level; there is one. */
static zg_refusal find_unfit(unsigned n, unsigned darts, unsigned level, const uint16_t *table, const uint16_t *of)
{
    for (unsigned d = 0; d < darts; d++)
        for (unsigned j = 0; j <= n && of[d] / MARKS == level; j++)
            if (j != dimension_of(of[d]) && of[table[j * darts + d]] != of[d])
                return RESULT(zg_refusal, 9, level, j, d);
    for (unsigned d = 0; d < darts; d++) {
        if (of[d] / MARKS != level)
            continue;
        struct ways w = ways_of(n, of[d] % MARKS);
        if (!w.beyond)
            continue;
        const uint16_t *a = table + w.row[1] * darts, *b = table + w.row[2] * darts;
        if (b[a[d]] != a[b[d]])
            return RESULT(zg_refusal, 10, level, w.row[1], d);
    }
    return RESULT(zg_refusal, 0);
}

/* Where the walk goes on from a dart of the kernel whose kind is another than that of the darts passed: it has the same
 * dimension, since cells are whole. */
__attribute__((noinline)) static unsigned walk_on(size_t darts, const uint16_t *table, const uint16_t *of, unsigned met)
{
    unsigned own = of[met];
    const uint16_t *a = table + dimension_of(own) * darts;
    for (unsigned kind = own; same_kernel(kind, own); kind = of[met]) {
        const uint16_t *b = contracts(kind) ? a - darts : a + darts;
        do
            met = a[b[met]];
        while (of[met] == kind);
    }
    return met;
}

/* Walks run over entries of the kernel's darts alone, so the survivors' entries can be set in place, at both ends of a
 * link at once: a survivor that no longer leads back has its link already. */
static void remove_kernel(unsigned n, size_t darts, unsigned level, uint16_t *table, const struct kinds *kinds)
{
    FOR_KINDS(n, level, kinds, kind)
    {
        uint16_t *a = table + dimension_of(kind) * darts;
        const uint16_t *b = contracts(kind) ? a - darts : a + darts;
        for (size_t d = kinds->first[kind]; d != ZG_ABSENT; d = kinds->next[d]) {
            size_t survivor = a[d], met = d;
            if (same_kernel(kinds->of[survivor], kind) || a[survivor] != (uint16_t)d)
                continue;
            do
                met = a[(size_t)b[met]];
            while (kinds->of[met] == (uint16_t)kind);
            if (UNLIKELY(same_kernel(kinds->of[met], kind)))
                met = walk_on(darts, table, kinds->of, (unsigned)met);
            a[survivor] = (uint16_t)met;
            a[met] = (uint16_t)survivor;
        }
    }
}

/* Clears the entries of the darts gone below a level. No walk and no test reads them, so once is enough. */
static void clear_gone(unsigned n, unsigned darts, unsigned level, const uint16_t *restrict of,
                       uint16_t *restrict table)
{
    int16_t least = (int16_t)least_kind(level);
    for (unsigned i = 0; i <= n; i++, table += darts)
        for (unsigned d = 0; d < darts; d++)
            table[d] |= (int16_t)of[d] < least ? ZG_ABSENT : 0;
}

/* Takes kernels from level to end-1 in the table, which holds level, but for the entries of darts gone, which are
 * cleared only in a refusal. */
static zg_refusal climb(unsigned n, unsigned darts, unsigned level, unsigned end, const struct kinds *kinds,
                        uint16_t *table)
{
    for (; level < end; level++) {
        if (UNLIKELY(!kernel_fits(n, darts, level, table, kinds))) {
            clear_gone(n, darts, level, kinds->of, table);
            return find_unfit(n, darts, level, table, kinds->of);
        }
        remove_kernel(n, darts, level, table, kinds);
    }
    return RESULT(zg_refusal, 0);
}

/* ---------------------------------------------------------------- check and add */

zg_refusal plain_check_base(uint8_t n, uint16_t darts, const uint16_t *rows, size_t rows_len)
{
    unsigned bad = bad_size(n, darts, 0);
    if (bad)
        return RESULT(zg_refusal, bad);
    if (rows_len != (size_t)(n + 1) * darts)
        return RESULT(zg_refusal, 4);
    return check_rows(n, darts, rows);
}

/* Numbers 1 to 8. */
static zg_refusal check_folded(unsigned n, unsigned darts, unsigned h, const uint16_t *rows, size_t rows_len,
                               const uint8_t *lambda, size_t lambda_len, const uint8_t *delta, size_t delta_len,
                               size_t table_len)
{
    unsigned bad = bad_size(n, darts, h);
    if (bad)
        return RESULT(zg_refusal, bad);
    size_t len = (size_t)(n + 1) * darts;
    if (rows_len != len || lambda_len != darts || delta_len != darts || table_len != len)
        return RESULT(zg_refusal, 4);
    zg_refusal r = check_rows(n, darts, rows);
    if (r.number)
        return r;
    unsigned unfit = first_unfit(n, darts, h, lambda, delta);
    if (unfit < darts)
        return RESULT(zg_refusal, 8, 0, 0, unfit);
    return r;
}

/* The base in the table, and the kinds of its darts. */
static void start_climb(unsigned n, unsigned darts, const uint16_t *rows, const uint8_t *lambda, const uint8_t *delta,
                        struct kinds *kinds, uint16_t *table)
{
    copy_rows(n, darts, table, rows);
    set_kinds(darts, lambda, delta, kinds->of);
    list_kinds(darts, kinds);
}

zg_refusal plain_check(uint8_t n, uint16_t darts, uint8_t h, const uint16_t *rows, size_t rows_len,
                       const uint8_t *lambda, size_t lambda_len, const uint8_t *delta, size_t delta_len,
                       uint16_t *table, size_t table_len)
{
    struct kinds kinds;
    zg_refusal r = check_folded(n, darts, h, rows, rows_len, lambda, lambda_len, delta, delta_len, table_len);
    if (r.number)
        return r;
    start_climb(n, darts, rows, lambda, delta, &kinds, table);
    r = climb(n, darts, 0, h, &kinds, table);
    if (!r.number)
        clear_gone(n, darts, h, kinds.of, table);
    return r;
}

/* The first dart whose entry of a mark row isn't allowed, or darts. */
static unsigned first_bad_mark(unsigned n, unsigned darts, unsigned h, const uint8_t *lambda, const uint8_t *marks)
{
    uint8_t top = (uint8_t)h, dimension = (uint8_t)n, bad = 0;
    for (unsigned d = 0; d < darts; d++) {
        uint8_t contracted = (uint8_t)(marks[d] - ZG_CONTRACT - 1) < dimension;
        uint8_t removed = (uint8_t)((lambda[d] == top) & ((marks[d] < dimension) | contracted));
        bad |= (uint8_t)((removed | (marks[d] == ZG_STAY)) ^ 1);
    }
    unsigned d = bad ? 0 : darts;
    while (d < darts && (marks[d] == ZG_STAY || (is_mark(n, marks[d]) && lambda[d] == h)))
        d++;
    return d;
}

/* Lambda and Delta with the mark row as kernel h. */
static void raise_marks(unsigned darts, unsigned h, const uint8_t *restrict marks, uint8_t *restrict lambda,
                        uint8_t *restrict delta)
{
    uint8_t top = (uint8_t)h;
    for (unsigned d = 0; d < darts; d++) {
        bool stays = marks[d] == ZG_STAY;
        delta[d] = stays ? delta[d] : marks[d];
        lambda[d] = (uint8_t)(lambda[d] + (stays & (lambda[d] == top)));
    }
}

zg_height plain_add(uint8_t n, uint16_t darts, uint8_t h, const uint16_t *rows, size_t rows_len, uint8_t *lambda,
                    size_t lambda_len, uint8_t *delta, size_t delta_len, const uint8_t *marks, size_t marks_len,
                    uint16_t *table, size_t table_len)
{
    unsigned bad = bad_size(n, darts, h);
    if (bad)
        return RESULT(zg_height, {bad}, h);
    size_t len = (size_t)(n + 1) * darts;
    if (rows_len != len || lambda_len != darts || delta_len != darts || marks_len != darts || table_len != len)
        return RESULT(zg_height, {4}, h);
    if (h == 32)
        return RESULT(zg_height, {20}, h);
    zg_refusal r = check_folded(n, darts, h, rows, len, lambda, darts, delta, darts, len);
    if (r.number)
        return RESULT(zg_height, r, h);
    unsigned wrong = first_bad_mark(n, darts, h, lambda, marks);
    if (wrong < darts)
        return RESULT(zg_height, {8, h, 0, wrong}, h);
    uint8_t new_lambda[ZG_MOST_DARTS], new_delta[ZG_MOST_DARTS];
    struct kinds kinds;
    copy(new_lambda, lambda, darts);
    copy(new_delta, delta, darts);
    raise_marks(darts, h, marks, new_lambda, new_delta);
    start_climb(n, darts, rows, new_lambda, new_delta, &kinds, table);
    r = climb(n, darts, 0, h + 1u, &kinds, table);
    if (r.number)
        return RESULT(zg_height, r, h);
    clear_gone(n, darts, h + 1u, kinds.of, table);
    copy(lambda, new_lambda, darts);
    copy(delta, new_delta, darts);
    return RESULT(zg_height, .height = (uint8_t)(h + 1));
}

zg_refusal plain_marks_of(uint8_t n, uint16_t darts, uint8_t h, const uint8_t *lambda, size_t lambda_len,
                          const uint8_t *delta, size_t delta_len, uint8_t level, uint8_t *marks, size_t marks_len)
{
    unsigned bad = bad_size(n, darts, h);
    if (bad)
        return RESULT(zg_refusal, bad);
    if (lambda_len != darts || delta_len != darts || marks_len != darts)
        return RESULT(zg_refusal, 4);
    if (level > h)
        return RESULT(zg_refusal, 11, level);
    unsigned unfit = first_unfit(n, darts, h, lambda, delta);
    if (unfit < darts)
        return RESULT(zg_refusal, 8, level, 0, unfit);
    uint8_t kernel = level < h ? level : ZG_STAY; /* of level h there is none, and no lambda is so large */
    for (unsigned d = 0; d < darts; d++) {
        uint8_t mark = delta[d]; /* read in any case, so that many are chosen at once */
        marks[d] = lambda[d] == kernel ? mark : ZG_STAY;
    }
    return RESULT(zg_refusal, 0);
}

/* ---------------------------------------------------------------- readings */

/* Number 1, 2, 3, 4, 11, 13, 12 or 8 before a walk, or 0. */
static inline __attribute__((always_inline)) unsigned
bad_question(unsigned n, unsigned darts, unsigned h, size_t rows_len, const uint8_t *lambda, size_t lambda_len,
             const uint8_t *delta, size_t delta_len, unsigned level, unsigned involution, unsigned dart)
{
    unsigned bad = bad_size(n, darts, h);
    if (bad)
        return bad;
    if (rows_len != (size_t)(n + 1) * darts || lambda_len != darts || delta_len != darts)
        return 4;
    if (level > h)
        return 11;
    if (involution > n)
        return 13;
    if (dart >= darts)
        return 12;
    if (!marks_fit(n, h, lambda[dart], delta[dart]))
        return 8;
    return lambda[dart] < level ? 12 : 0;
}

__attribute__((noinline)) static zg_refusal refuse_question(unsigned number, unsigned level, unsigned involution,
                                                            unsigned dart)
{
    if (number <= 4)
        return RESULT(zg_refusal, number);
    return RESULT(zg_refusal, number, level, involution, dart);
}

/* Whether the first entry read answers the question: most do, so this comes first, and the walks are apart. */
static inline __attribute__((always_inline)) bool answers(unsigned n, unsigned darts, unsigned h, const uint8_t *lambda,
                                                          const uint8_t *delta, unsigned level, unsigned met)
{
    return met < darts && lambda[met] >= level && marks_fit(n, h, lambda[met], delta[met]);
}

__attribute__((noinline)) static zg_link read_on(unsigned n, unsigned darts, unsigned h, const uint16_t *rows,
                                                 const uint8_t *lambda, const uint8_t *delta, uint8_t level,
                                                 uint8_t involution, uint16_t dart)
{
    unsigned t = involution, most = 1 + 2u * darts, since = 0;
    size_t at = dart;
    const uint16_t *row = rows + t * darts;
    for (unsigned reads = 1;; reads++) {
        if (reads > most)
            return RESULT(zg_link, {15, level, involution, dart});
        size_t met = row[at];
        if (met >= darts)
            return RESULT(zg_link, {5, level, t, (uint16_t)at});
        if (!marks_fit(n, h, lambda[met], delta[met]))
            return RESULT(zg_link, {8, level, t, (uint16_t)met});
        if (lambda[met] >= level)
            return RESULT(zg_link, .count = reads, .neighbour = (uint16_t)met, .since = (uint8_t)since);
        if (since <= lambda[met])
            since = lambda[met] + 1u;
        unsigned low = lower_row(delta[met]);
        if (low == t) {
            t++;
            row += darts;
        } else if (low + 1 == t) {
            t--;
            row -= darts;
        } else
            return RESULT(zg_link, {14, level, t, (uint16_t)met});
        at = met;
    }
}

zg_link plain_read(uint8_t n, uint16_t darts, uint8_t h, const uint16_t *rows, size_t rows_len,
                   const uint8_t *lambda, size_t lambda_len, const uint8_t *delta, size_t delta_len, uint8_t level,
                   uint8_t involution, uint16_t dart)
{
    unsigned bad = bad_question(n, darts, h, rows_len, lambda, lambda_len, delta, delta_len, level, involution, dart);
    if (UNLIKELY(bad))
        return RESULT(zg_link, refuse_question(bad, level, involution, dart));
    unsigned met = rows[(size_t)involution * darts + dart];
    if (answers(n, darts, h, lambda, delta, level, met))
        return RESULT(zg_link, .count = 1, .neighbour = (uint16_t)met);
    return read_on(n, darts, h, rows, lambda, delta, level, involution, dart);
}

/* What a reading by levels keeps in all its depths. */
struct question {
    const uint16_t *rows;
    const uint8_t *lambda, *delta;
    unsigned n, darts, h, level, involution, dart;
    unsigned reads, last_row;
    zg_reading refused;
};

/* A base entry, or ZG_ABSENT if the reading is refused. */
static unsigned read_base(struct question *q, unsigned i, unsigned from)
{
    if (q->reads > 2 * q->darts) {
        q->refused = RESULT(zg_reading, {15, q->level, q->involution, q->dart});
        return ZG_ABSENT;
    }
    q->reads++;
    q->last_row = i;
    unsigned met = q->rows[i * q->darts + from];
    if (met >= q->darts) {
        q->refused = RESULT(zg_reading, {5, q->level, i, from});
        return ZG_ABSENT;
    }
    if (!marks_fit(q->n, q->h, q->lambda[met], q->delta[met])) {
        q->refused = RESULT(zg_reading, {8, q->level, i, met});
        return ZG_ABSENT;
    }
    return met;
}

static unsigned cannot_pass(struct question *q, unsigned met)
{
    q->refused = RESULT(zg_reading, {14, q->level, q->last_row, met});
    return ZG_ABSENT;
}

/* The neighbour on level l by a walk over level l-1; each step is a reading one level lower. */
static unsigned read_level(struct question *q, unsigned l, unsigned i, unsigned from)
{
    if (l == 0)
        return read_base(q, i, from);
    unsigned met = read_level(q, l - 1, i, from);
    while (met != ZG_ABSENT && q->lambda[met] < l) {
        unsigned mark = q->delta[met];
        if (q->lambda[met] != l - 1 || dimension_of(mark) != i)
            return cannot_pass(q, met);
        met = read_level(q, l - 1, contracts(mark) ? i - 1 : i + 1, met);
        if (met == ZG_ABSENT)
            return ZG_ABSENT;
        if (q->lambda[met] != l - 1 || q->delta[met] != mark)
            return cannot_pass(q, met);
        met = read_level(q, l - 1, i, met);
    }
    return met;
}

zg_reading plain_read_level_by_level(uint8_t n, uint16_t darts, uint8_t h, const uint16_t *rows, size_t rows_len,
                                     const uint8_t *lambda, size_t lambda_len, const uint8_t *delta, size_t delta_len,
                                     uint8_t level, uint8_t involution, uint16_t dart)
{
    unsigned bad = bad_question(n, darts, h, rows_len, lambda, lambda_len, delta, delta_len, level, involution, dart);
    if (bad)
        return RESULT(zg_reading, refuse_question(bad, level, involution, dart));
    struct question q = {rows, lambda, delta, n, darts, h, level, involution, dart, 0, 0, {{0}}};
    unsigned met = read_level(&q, level, involution, dart);
    if (met == ZG_ABSENT)
        return q.refused;
    return RESULT(zg_reading, .count = q.reads, .neighbour = (uint16_t)met);
}

/* A pass that has begun: from which level and row, and with which mark it must end. */
struct begun {
    uint8_t level, row, mark;
};

/* A dart with Lambda k is met unchanged on every level up to k, so what it is passed on is level k. There the other row
 * is read, which is a reading like the first one, with fewer levels; what was begun waits, at most once for each level.
 * After a pass the reading goes on where it was: on the levels from k up to its own the rules are the same. */
__attribute__((noinline)) static zg_reading read_by_passes(unsigned n, unsigned darts, unsigned h, const uint16_t *rows,
                                                           const uint8_t *lambda, const uint8_t *delta, uint8_t level,
                                                           uint8_t involution, uint16_t dart)
{
    struct begun waiting[ZG_MOST_LEVELS + 1], *begun = waiting;
    unsigned l = level, t = involution, most = 1 + 2u * darts;
    size_t at = dart;
    const uint16_t *row = rows + t * darts;
    for (unsigned reads = 1;; reads++) {
        if (reads > most)
            return RESULT(zg_reading, {15, level, involution, dart});
        size_t met = row[at];
        if (met >= darts)
            return RESULT(zg_reading, {5, level, t, (uint16_t)at});
        unsigned lambda_met = lambda[met], mark = delta[met];
        if (!marks_fit(n, h, (uint8_t)lambda_met, (uint8_t)mark))
            return RESULT(zg_reading, {8, level, t, (uint16_t)met});
        if (lambda_met < l) {
            if (dimension_of(mark) != t)
                return RESULT(zg_reading, {14, level, t, (uint16_t)met});
            *begun++ = (struct begun){(uint8_t)l, (uint8_t)t, (uint8_t)mark};
            l = lambda_met;
            t = contracts(mark) ? t - 1 : t + 1;
            row = contracts(mark) ? row - darts : row + darts;
        } else if (begun == waiting)
            return RESULT(zg_reading, .count = reads, .neighbour = (uint16_t)met);
        else {
            begun--;
            if (lambda_met != l || mark != begun->mark)
                return RESULT(zg_reading, {14, level, t, (uint16_t)met});
            l = begun->level;
            row = begun->row < t ? row - darts : row + darts;
            t = begun->row;
        }
        at = met;
    }
}

zg_reading plain_read_by_levels(uint8_t n, uint16_t darts, uint8_t h, const uint16_t *rows, size_t rows_len,
                                const uint8_t *lambda, size_t lambda_len, const uint8_t *delta, size_t delta_len,
                                uint8_t level, uint8_t involution, uint16_t dart)
{
    unsigned bad = bad_question(n, darts, h, rows_len, lambda, lambda_len, delta, delta_len, level, involution, dart);
    if (UNLIKELY(bad))
        return RESULT(zg_reading, refuse_question(bad, level, involution, dart));
    unsigned met = rows[(size_t)involution * darts + dart];
    if (answers(n, darts, h, lambda, delta, level, met))
        return RESULT(zg_reading, .count = 1, .neighbour = (uint16_t)met);
    return read_by_passes(n, darts, h, rows, lambda, delta, level, involution, dart);
}

/* ---------------------------------------------------------------- whole levels */

/* The darts of a level, rising. */
struct present {
    uint16_t dart[ZG_MOST_DARTS];
    unsigned size;
};

/* What an unfolding reads of a dart: 256 times one more than Lambda, and the lower of the two rows between which it is
 * passed. */
static void set_passes(unsigned darts, const uint8_t *restrict lambda, const uint8_t *restrict delta,
                       uint16_t *restrict passes)
{
    for (unsigned d = 0; d < darts; d++) {
        uint8_t low = delta[d] > ZG_CONTRACT ? (uint8_t)(delta[d] - ZG_CONTRACT - 1) : delta[d];
        passes[d] = (uint16_t)((lambda[d] + 1) << 8 | low);
    }
}

/* Walks from each survivor, by involution, then dart. Where no entry of the base strays, none is tested. Apart from the
 * tests before it, so that its loops have the registers to themselves. */
static inline __attribute__((always_inline)) zg_unfolding unfold_rows(unsigned n, unsigned darts, const uint16_t *rows,
                                                                      const uint16_t *passes, unsigned level,
                                                                      const struct present *present, bool strays,
                                                                      uint16_t *table)
{
    size_t least = (level + 1) << 8, most = 0, size = present->size;
    unsigned total = (n + 1) * present->size;
    const uint16_t *row[5] = {0};
    for (unsigned i = 0; i <= n; i++)
        row[i] = rows + i * darts;
    for (unsigned i = 0; i <= n; i++, table += darts) {
        const uint16_t *own = row[i];
        for (size_t k = 0; k < size; k++) {
            size_t d = present->dart[k], met = own[d], pass;
            if (strays && met >= darts)
                return RESULT(zg_unfolding, {5, level, i, d});
            if ((pass = passes[met]) < least) {
                const uint16_t *by = own;
                unsigned left = 2 * darts;
                do {
                    size_t from = met, low = pass % 256;
                    most = pass > most ? pass : most;
                    if (by == row[low])
                        by = row[low + 1];
                    else if (by == row[low + 1])
                        by = row[low];
                    else
                        return RESULT(zg_unfolding, {14, level, (by - rows) / darts, met});
                    if (left-- == 0)
                        return RESULT(zg_unfolding, {15, level, i, d});
                    met = by[from];
                    if (strays && met >= darts)
                        return RESULT(zg_unfolding, {5, level, (by - rows) / darts, from});
                } while ((pass = passes[met]) < least);
                total += 2 * darts - left;
            }
            table[d] = (uint16_t)met;
        }
    }
    return RESULT(zg_unfolding, .count = total, .since = (uint8_t)(most >> 8));
}

__attribute__((noinline)) static zg_unfolding unfold_strict(unsigned n, unsigned darts, const uint16_t *rows,
                                                            const uint16_t *passes, unsigned level,
                                                            const struct present *present, uint16_t *table)
{
    return unfold_rows(n, darts, rows, passes, level, present, true, table);
}

__attribute__((noinline)) static zg_unfolding unfold_sound(unsigned n, unsigned darts, const uint16_t *rows,
                                                           const uint16_t *passes, unsigned level,
                                                           const struct present *present, uint16_t *table)
{
    return unfold_rows(n, darts, rows, passes, level, present, false, table);
}

static void list_survivors(unsigned darts, unsigned level, const uint8_t *lambda, struct present *present)
{
    unsigned size = 0;
#pragma GCC unroll 4
    for (unsigned d = 0; d < darts; d++) {
        present->dart[size] = (uint16_t)d;
        size += lambda[d] >= level;
    }
    present->size = size;
}

zg_unfolding plain_unfold(uint8_t n, uint16_t darts, uint8_t h, const uint16_t *rows, size_t rows_len,
                          const uint8_t *lambda, size_t lambda_len, const uint8_t *delta, size_t delta_len,
                          uint8_t level, uint16_t *table, size_t table_len)
{
    unsigned bad = bad_size(n, darts, h);
    if (bad)
        return RESULT(zg_unfolding, {bad});
    size_t len = (size_t)(n + 1) * darts;
    if (rows_len != len || lambda_len != darts || delta_len != darts || table_len != len)
        return RESULT(zg_unfolding, {4});
    if (level > h)
        return RESULT(zg_unfolding, {11, level});
    unsigned unfit = first_unfit(n, darts, h, lambda, delta);
    if (unfit < darts)
        return RESULT(zg_unfolding, {8, level, 0, unfit});
    bool strays = !all_below(rows, len, darts);
    if (level == 0 && !strays) {
        copy_rows(n, darts, table, rows);
        return RESULT(zg_unfolding, .count = (uint32_t)len);
    }
    struct present present;
    uint16_t passes[ZG_MOST_DARTS];
    set_passes(darts, lambda, delta, passes);
    list_survivors(darts, level, lambda, &present);
    memset(table, 255, len * sizeof *table);
    zg_unfolding r = strays ? unfold_strict(n, darts, rows, passes, level, &present, table)
                            : unfold_sound(n, darts, rows, passes, level, &present, table);
    if (r.refusal.number)
        memset(table, 255, len * sizeof *table);
    return r;
}

/* Takes a kernel out of the table and carries along what each link reads and since which level it stands: a link that
 * leads into the kernel reads what those read that it is made of. It reads the same from both ends. The darts of the
 * kernel read nothing any more, and their entries are cleared, since the block stays. */
static void carry_kernel(unsigned n, size_t darts, unsigned level, uint16_t *table, const struct kinds *kinds,
                         uint16_t *reads, uint8_t *stands)
{
    FOR_KINDS(n, level, kinds, kind)
    {
        size_t row = dimension_of(kind) * darts;
        uint16_t *a = table + row;
        for (size_t d = kinds->first[kind]; d != ZG_ABSENT; d = kinds->next[d]) {
            size_t survivor = a[d], met = d;
            if (same_kernel(kinds->of[survivor], kind) || a[survivor] != (uint16_t)d)
                continue;
            unsigned sum = reads[row + survivor];
            do {
                size_t other = contracts(kinds->of[met]) ? row - darts : row + darts, past = table[other + met];
                sum += reads[other + met] + reads[row + past];
                met = a[past];
            } while (same_kernel(kinds->of[met], kind));
            a[survivor] = (uint16_t)met;
            a[met] = (uint16_t)survivor;
            reads[row + survivor] = reads[row + met] = (uint16_t)sum;
            stands[row + survivor] = stands[row + met] = (uint8_t)(level + 1);
        }
    }
    FOR_KINDS(n, level, kinds, kind)
    for (size_t d = kinds->first[kind]; d != ZG_ABSENT; d = kinds->next[d])
        for (size_t at = d; at < (n + 1) * darts; at += darts) {
            table[at] = ZG_ABSENT;
            reads[at] = 0;
            stands[at] = 0;
        }
}

static uint32_t sum_reads(const uint16_t *reads, size_t len)
{
    uint32_t sum = 0;
    for (size_t k = 0; k < len; k++)
        sum += reads[k];
    return sum;
}

static uint8_t latest_of(const uint8_t *stands, size_t len)
{
    uint8_t latest = 0;
    for (size_t k = 0; k < len; k++)
        latest = stands[k] > latest ? stands[k] : latest;
    return latest;
}

/* Every level out of the one below, in its own block. */
static zg_refusal climb_blocks(unsigned n, unsigned darts, unsigned h, const struct kinds *kinds, uint16_t *tables,
                               uint32_t *counts, uint8_t *since)
{
    uint16_t reads[ZG_MOST_ENTRIES];
    uint8_t stands[ZG_MOST_ENTRIES];
    size_t len = (size_t)(n + 1) * darts;
    for (size_t k = 0; k < len; k++)
        reads[k] = 1;
    memset(stands, 0, len);
    counts[0] = (uint32_t)len;
    for (unsigned l = 0; l < h; l++) {
        uint16_t *table = tables + l * len;
        if (UNLIKELY(!kernel_fits(n, darts, l, table, kinds)))
            return find_unfit(n, darts, l, table, kinds->of);
        copy_rows(n, darts, table + len, table);
        carry_kernel(n, darts, l, table + len, kinds, reads, stands);
        counts[l + 1] = sum_reads(reads, len);
        since[l + 1] = latest_of(stands, len);
    }
    return RESULT(zg_refusal, 0);
}

/* Counts and levels since which are kept apart until all kernels are accepted. */
zg_refusal plain_unfold_all(uint8_t n, uint16_t darts, uint8_t h, const uint16_t *rows, size_t rows_len,
                            const uint8_t *lambda, size_t lambda_len, const uint8_t *delta, size_t delta_len,
                            uint16_t *tables, size_t tables_len, uint32_t *counts, size_t counts_len, uint8_t *since,
                            size_t since_len)
{
    unsigned bad = bad_size(n, darts, h);
    if (bad)
        return RESULT(zg_refusal, bad);
    size_t len = (size_t)(n + 1) * darts;
    if (rows_len != len || lambda_len != darts || delta_len != darts || tables_len != (h + 1u) * len ||
        counts_len != ZG_LEVELS || since_len != ZG_LEVELS)
        return RESULT(zg_refusal, 4);
    zg_refusal r = check_rows(n, darts, rows);
    if (r.number)
        return r;
    unsigned unfit = first_unfit(n, darts, h, lambda, delta);
    if (unfit < darts)
        return RESULT(zg_refusal, 8, 0, 0, unfit);
    struct kinds kinds;
    uint32_t all_counts[ZG_LEVELS] = {0};
    uint8_t all_since[ZG_LEVELS] = {0};
    start_climb(n, darts, rows, lambda, delta, &kinds, tables);
    r = climb_blocks(n, darts, h, &kinds, tables, all_counts, all_since);
    if (r.number)
        return r;
    memcpy(counts, all_counts, sizeof all_counts);
    memcpy(since, all_since, sizeof all_since);
    return r;
}

zg_part plain_row(uint8_t n, uint16_t darts, uint8_t h, const uint16_t *base, size_t base_len,
                  const uint16_t *unfolded, size_t unfolded_len, uint8_t level, uint8_t involution)
{
    (void)base, (void)unfolded;
    unsigned bad = bad_size(n, darts, h);
    if (bad)
        return RESULT(zg_part, {bad});
    size_t len = (size_t)(n + 1) * darts;
    if (base_len != len || unfolded_len != len)
        return RESULT(zg_part, {4});
    if (level > h)
        return RESULT(zg_part, {11, level, involution});
    if (involution > n)
        return RESULT(zg_part, {13, level, involution});
    return RESULT(zg_part, .unfolded = level > 0, .start = (uint16_t)(involution * darts), .length = darts);
}

/* How many darts are on a level. A byte holds the count of 128 of them, so 16 are counted at a time. */
static unsigned survivors_on(const uint8_t *lambda, unsigned darts, uint8_t level)
{
    unsigned count = 0, d = 0;
    for (; d + 128 <= darts; d += 128) {
        uint8_t some = 0;
        for (unsigned k = 0; k < 128; k++)
            some += lambda[d + k] >= level;
        count += some;
    }
    for (; d < darts; d++)
        count += lambda[d] >= level;
    return count;
}

/* Eight bytes in one number, the first lowest; compilers make it one load where it is one. */
static uint64_t eight_bytes(const uint8_t *from)
{
    uint64_t bytes = 0;
    for (unsigned k = 0; k < 8; k++)
        bytes |= (uint64_t)from[k] << 8 * k;
    return bytes;
}

/* A word, by eight darts at a time: a sum that reaches 128 says of each byte whether it is level or more, since no
 * Lambda is above 32, and a product brings the eight signs together. */
static uint64_t word_of(const uint8_t *lambda, uint8_t level)
{
    const uint64_t ones = 0x0101010101010101, together = 0x0102040810204080;
    uint64_t word = 0, more = ones * (128u - level);
#pragma GCC unroll 8
    for (unsigned k = 0; k < 8; k++)
        word |= ((eight_bytes(lambda + 8 * k) + more) >> 7 & ones) * together >> 56 << 8 * k;
    return word;
}

zg_count plain_survivors(uint16_t darts, uint8_t h, const uint8_t *lambda, size_t lambda_len, uint8_t level,
                         uint64_t *words, size_t words_len)
{
    unsigned bad = bad_size(1, darts, h);
    if (bad)
        return RESULT(zg_count, {bad});
    if (lambda_len != darts || words_len != 64)
        return RESULT(zg_count, {4});
    if (level > h)
        return RESULT(zg_count, {11, level});
    uint8_t most = 0;
    for (unsigned d = 0; d < darts; d++)
        most = lambda[d] > most ? lambda[d] : most;
    for (unsigned d = 0; most > h; d++)
        if (lambda[d] > h)
            return RESULT(zg_count, {8, level, 0, d});
    unsigned w = 0;
    for (; w < darts / 64; w++)
        words[w] = word_of(lambda + 64 * w, level);
    if (w < 64) {
        memset(words + w, 0, (64 - w) * sizeof *words);
        for (unsigned d = 64 * w; d < darts; d++)
            words[w] |= (uint64_t)(lambda[d] >= level) << d % 64;
    }
    return RESULT(zg_count, .count = survivors_on(lambda, darts, level));
}

/* ---------------------------------------------------------------- marking */

/* The first place of number 5, 6 or 7 in an explicit level, if there is one. */
static zg_refusal find_bad_level(unsigned n, unsigned darts, const uint16_t *table)
{
    for (unsigned i = 0; i <= n; i++) {
        const uint16_t *a = table + i * darts;
        for (unsigned d = 0; d < darts; d++)
            if (table[d] == ZG_ABSENT ? a[d] != ZG_ABSENT : a[d] >= darts || table[a[d]] == ZG_ABSENT)
                return RESULT(zg_refusal, 5, 0, i, d);
    }
    for (unsigned i = 0; i <= n; i++) {
        const uint16_t *a = table + i * darts;
        for (unsigned d = 0; d < darts; d++)
            if (a[d] != ZG_ABSENT && a[a[d]] != d)
                return RESULT(zg_refusal, 6, 0, i, d);
    }
    for (unsigned i = 0; i + 2 <= n; i++)
        for (unsigned j = i + 2; j <= n; j++) {
            const uint16_t *a = table + i * darts, *b = table + j * darts;
            for (unsigned d = 0; d < darts; d++)
                if (a[d] != ZG_ABSENT && b[a[d]] != a[b[d]])
                    return RESULT(zg_refusal, 7, 0, i, d);
        }
    return RESULT(zg_refusal, 0);
}

/* Whether every dart is absent in all rows or in none, and no neighbour is darts or more. That a neighbour is absent
 * shows where it doesn't lead back. */
static bool entries_fit(unsigned n, unsigned darts, const uint16_t *table)
{
    uint16_t most = 0, differ = 0;
    for (unsigned i = 0; i <= n; i++) {
        const uint16_t *a = table + i * darts;
        for (unsigned d = 0; d < darts; d++) {
            uint16_t after = (uint16_t)(a[d] + 1); /* 0 if absent */
            most = after > most ? after : most;
            differ |= (uint16_t)((a[d] == ZG_ABSENT) ^ (table[d] == ZG_ABSENT));
        }
    }
    return most <= darts && !differ;
}

static void list_present(unsigned darts, const uint16_t *table, struct present *present)
{
    unsigned size = 0;
#pragma GCC unroll 4
    for (unsigned d = 0; d < darts; d++) {
        present->dart[size] = (uint16_t)d;
        size += table[d] != ZG_ABSENT;
    }
    present->size = size;
}

static void list_all(unsigned darts, struct present *present)
{
    for (unsigned d = 0; d < darts; d++)
        present->dart[d] = (uint16_t)d;
    present->size = darts;
}

FOR_EACH_N bool level_fits(unsigned n, size_t darts, const uint16_t *table, const struct present *present)
{
    const uint16_t *row[5];
    for (unsigned i = 0; i <= n; i++)
        row[i] = table + i * darts;
#pragma GCC unroll 4
    for (size_t k = 0; k < present->size; k++)
        if (!dart_fits(n, row, present->dart[k]))
            return false;
    return true;
}

static zg_refusal check_level(unsigned n, unsigned darts, const uint16_t *table, struct present *present)
{
    bool fits = false;
    present->size = 0;
    if (all_below(table, (size_t)(n + 1) * darts, darts)) {
        list_all(darts, present);
        fits = WITH_N(n, rows_fit, darts, table);
    } else if (entries_fit(n, darts, table)) {
        list_present(darts, table, present);
        fits = WITH_N(n, level_fits, darts, table, present);
    }
    return fits ? RESULT(zg_refusal, 0) : find_bad_level(n, darts, table);
}

/* Gives a value to all darts of a cell that don't have it yet. */
static void reach_cell(unsigned n, unsigned darts, const uint16_t *table, unsigned dimension, unsigned start,
                       uint8_t *set, uint8_t value)
{
    uint16_t open[ZG_MOST_DARTS];
    unsigned opens = 1;
    open[0] = (uint16_t)start;
    set[start] = value;
    while (opens) {
        const uint16_t *to = table + open[--opens];
        for (unsigned j = 0; j <= n; j++, to += darts)
            if (j != dimension && set[*to] != value) {
                set[*to] = value;
                open[opens++] = *to;
            }
    }
}

void plain_removable(unsigned n, unsigned darts, const uint16_t *table, unsigned dimension, uint8_t *marks)
{
    for (unsigned d = 0; d < darts; d++)
        marks[d] = table[d] == ZG_ABSENT ? ZG_STAY : (uint8_t)dimension;
    if (dimension + 2 > n)
        return;
    const uint16_t *a = table + (dimension + 1) * darts, *b = a + darts;
    for (unsigned d = 0; d < darts; d++)
        if (marks[d] != ZG_STAY && b[a[d]] != a[b[d]])
            reach_cell(n, darts, table, dimension, d, marks, ZG_STAY);
}

/* Marks the darts that a row leads neither to themselves nor to where another does; absent ones have 65,535 in both. */
static void mark_where_apart(unsigned darts, const uint16_t *restrict a, const uint16_t *restrict left, uint8_t mark,
                             uint8_t *restrict marks)
{
    uint16_t d = 0;
    for (unsigned k = 0; k < darts; k++, d++) {
        uint16_t together = (a[k] == d) | (a[k] == left[k]);
        marks[k] = together ? ZG_STAY : mark;
    }
}

static void mark_where_taken(unsigned darts, const uint16_t *restrict a, uint8_t mark, uint8_t *restrict marks)
{
    uint16_t d = 0;
    for (unsigned k = 0; k < darts; k++, d++) {
        uint16_t stays = (a[k] == d) | (a[k] == ZG_ABSENT);
        marks[k] = stays ? ZG_STAY : mark;
    }
}

/* With n up to 2 a part is a dart, or a dart and its neighbour by the one row left, so each dart tells for itself. */
static void mark_darts(unsigned n, size_t darts, const uint16_t *table, unsigned dimension,
                       const struct present *present, uint8_t *marks)
{
    const uint16_t *a = table + (dimension + 1) * darts, *left = table + 2 * darts;
    if (n == 1)
        mark_where_taken((unsigned)darts, a, (uint8_t)dimension, marks);
    else if (dimension == 1)
        mark_where_apart((unsigned)darts, a, table, (uint8_t)dimension, marks);
    else {
        memset(marks, ZG_STAY, darts);
        for (size_t k = 0; k < present->size; k++) {
            size_t d = present->dart[k], to = a[d], other = left[d];
            if (to != d && to != other && left[to] == a[other])
                marks[d] = (uint8_t)dimension;
        }
    }
}

/* One search serves all: a cell is removable exactly if one of its parts has no dart that says otherwise, since
 * a(dimension+1) then takes the part to a part, and the two are the cell. So a part that fits is marked with the one
 * that a(dimension+1) leads to, unless it leads into the same.
 *
 * What the rows p and q reach is walked along, by the one and the other in turn. What is asked of a dart, and where the
 * third row leads that n = 4 has, is the same for both darts of a step by p, so it is asked of one of the two. */
FOR_EACH_N void mark_parts(unsigned n, size_t darts, const uint16_t *table, unsigned dimension, bool beyond,
                           const struct present *present, uint8_t *marks)
{
    uint16_t part[ZG_MOST_DARTS] = {0}, members[ZG_MOST_DARTS], open[ZG_MOST_DARTS], stamp = 0;
    unsigned first_row = dimension == 0 ? 2 : dimension == 1 && n == 4 ? 3 : 0;
    unsigned second_row = first_row || dimension == 1 ? 3 + (first_row == 3) : 1;
    const uint16_t *p = table + first_row * darts, *q = table + second_row * darts;
    const uint16_t *r = table + (dimension == 1 ? 0 : dimension == 3 ? 2 : 4) * darts;
    const uint16_t *a = table + (dimension + 1) * darts, *b = a + darts;
    memset(marks, ZG_STAY, darts);
    for (size_t k = 0; k < present->size; k++) {
        size_t first = present->dart[k], size = 0, opens = 1;
        bool fits = true;
        if (part[first])
            continue;
        stamp++;
        open[0] = (uint16_t)first;
        do {
            size_t start = open[--opens], d = start;
            if (n == 4 && part[d] == stamp)
                continue;
            do {
                part[d] = stamp;
                members[size++] = (uint16_t)d;
                if (beyond)
                    fits &= b[(size_t)a[d]] == a[(size_t)b[d]];
                if (n == 4 && part[(size_t)r[d]] != stamp)
                    open[opens++] = r[d];
                d = p[d];
                part[d] = stamp;
                d = q[d];
            } while (d != start);
        } while (n == 4 && opens);
        if (!fits || part[(size_t)a[first]] == stamp)
            continue;
        for (size_t m = 0; m < size; m++) {
            size_t d = members[m], e = a[d], beside_d = p[d], beside_e = p[e];
            marks[d] = marks[beside_d] = marks[e] = marks[beside_e] = (uint8_t)dimension;
            part[e] = part[beside_e] = stamp;
        }
    }
}

static void mark_candidates(unsigned n, unsigned darts, const uint16_t *table, unsigned dimension,
                            const struct present *present, uint8_t *marks)
{
    if (n <= 2)
        mark_darts(n, darts, table, dimension, present, marks);
    else if (n == 3 && dimension + 2 <= n)
        mark_parts(3, darts, table, dimension, true, present, marks);
    else if (n == 3)
        mark_parts(3, darts, table, dimension, false, present, marks);
    else if (dimension + 2 <= n)
        mark_parts(4, darts, table, dimension, true, present, marks);
    else
        mark_parts(4, darts, table, dimension, false, present, marks);
}

/* Whether a search of a piece meets a dart that is unmarked, or that an earlier search has met: that ended so too. */
FOR_EACH_N bool meets_other(unsigned n, const uint16_t *const *row, size_t first, uint16_t *met, uint16_t stamp)
{
    uint16_t open[ZG_MOST_DARTS];
    size_t opens = 1;
    open[0] = (uint16_t)first;
    while (opens) {
        size_t d = open[--opens];
        for (unsigned j = 0; j <= n; j++) {
            size_t e = row[j][d];
            if (met[e] == stamp)
                continue;
            if (met[e])
                return true;
            met[e] = stamp;
            open[opens++] = (uint16_t)e;
        }
    }
    return false;
}

/* Takes the marks off the cell of the lowest dart of each piece that is marked as a whole. Most darts have a neighbour
 * that tells at once that theirs is none. */
FOR_EACH_N void spare(unsigned n, size_t darts, const uint16_t *table, unsigned dimension,
                      const struct present *present, uint8_t *marks)
{
    uint16_t met[ZG_MOST_DARTS], stamp = 1;
    const uint16_t *row[5];
    for (unsigned j = 0; j <= n; j++)
        row[j] = table + j * darts;
    for (unsigned d = 0; d < darts; d++)
        met[d] = marks[d] == ZG_STAY;
    for (size_t k = 0; k < present->size; k++) {
        size_t first = present->dart[k];
        if (met[first])
            continue;
        bool known = false;
        for (unsigned j = 0; j <= n && !known; j++)
            known = met[(size_t)row[j][first]];
        met[first] = ++stamp;
        if (!known && !meets_other(n, row, first, met, stamp))
            reach_cell(n, (unsigned)darts, table, dimension, (unsigned)first, marks, ZG_STAY);
    }
}

static void spare_pieces(unsigned n, unsigned darts, const uint16_t *table, unsigned dimension,
                         const struct present *present, uint8_t *marks)
{
    WITH_N(n, spare, darts, table, dimension, present, marks);
}

zg_refusal plain_mark_cells(uint8_t n, uint16_t darts, const uint16_t *table, size_t table_len, uint8_t dimension,
                            uint8_t *marks, size_t marks_len)
{
    struct present present;
    unsigned bad = bad_size(n, darts, 0);
    if (bad)
        return RESULT(zg_refusal, bad);
    if (table_len != (size_t)(n + 1) * darts || marks_len != darts)
        return RESULT(zg_refusal, 4);
    if (dimension >= n)
        return RESULT(zg_refusal, 13, 0, dimension);
    zg_refusal r = check_level(n, darts, table, &present);
    if (r.number)
        return r;
    mark_candidates(n, darts, table, dimension, &present, marks);
    spare_pieces(n, darts, table, dimension, &present, marks);
    return r;
}

/* ---------------------------------------------------------------- records */

/* Number 16, 17 or 18 for the field that starts at a byte, or 0. */
static unsigned bad_field(const uint8_t *bytes, size_t len, size_t at, unsigned tag, unsigned length)
{
    size_t left = len - at;
    if (left == 0)
        return 16;
    if (bytes[at] != tag)
        return 17;
    if (left < 3)
        return 16;
    if ((bytes[at + 1] | bytes[at + 2] << 8) != (int)length)
        return 18;
    return left - 3 < length ? 16 : 0;
}

static void take_row(uint16_t *row, const uint8_t *body, unsigned darts)
{
#if __BYTE_ORDER__ == __ORDER_LITTLE_ENDIAN__
    copy(row, body, 2 * darts);
#else
    for (unsigned d = 0; d < darts; d++)
        row[d] = (uint16_t)(body[2 * d] | body[2 * d + 1] << 8);
#endif
}

zg_record plain_take(const uint8_t *bytes, size_t bytes_len, uint16_t *rows, size_t rows_len, uint8_t *lambda,
                     size_t lambda_len, uint8_t *delta, size_t delta_len, uint16_t *table, size_t table_len)
{
    unsigned bad = bad_field(bytes, bytes_len, 0, 0x01, 4);
    if (bad)
        return RESULT(zg_record, {bad});
    unsigned n = bytes[3], h = bytes[4], darts = bytes[5] | bytes[6] << 8;
    bad = bad_size(n, darts, h);
    if (bad)
        return RESULT(zg_record, {bad});
    size_t at = 7;
    unsigned length = 2 * darts;
    for (unsigned i = 0; i <= n; i++, at += 3 + length)
        if ((bad = bad_field(bytes, bytes_len, at, 0x10 + i, length)))
            return RESULT(zg_record, {bad, .dart = (uint16_t)at});
    for (unsigned k = 0; k < 2; k++, at += 3 + darts)
        if ((bad = bad_field(bytes, bytes_len, at, 0x30 + k, darts)))
            return RESULT(zg_record, {bad, .dart = (uint16_t)at});
    if (at != bytes_len)
        return RESULT(zg_record, {19, .dart = (uint16_t)at});
    size_t entries = (size_t)(n + 1) * darts;
    if (rows_len < entries || lambda_len < darts || delta_len < darts || table_len < entries)
        return RESULT(zg_record, {4});
    for (unsigned i = 0; i <= n; i++)
        take_row(rows + i * darts, bytes + 10 + i * (3 + length), darts);
    copy(lambda, bytes + at - 3 - 2 * darts, darts);
    copy(delta, bytes + at - darts, darts);
    zg_refusal checked = plain_check((uint8_t)n, (uint16_t)darts, (uint8_t)h, rows, entries, lambda, darts, delta,
                                     darts, table, entries);
    if (checked.number)
        return RESULT(zg_record, checked);
    return RESULT(zg_record, .n = (uint8_t)n, .h = (uint8_t)h, .darts = (uint16_t)darts);
}

/* ---------------------------------------------------------------- write */

static uint8_t *put_head(uint8_t *to, unsigned tag, unsigned length)
{
    *to++ = (uint8_t)tag;
    *to++ = (uint8_t)length;
    *to++ = (uint8_t)(length >> 8);
    return to;
}

static uint8_t *put_row(uint8_t *to, const uint16_t *row, unsigned darts)
{
#if __BYTE_ORDER__ == __ORDER_LITTLE_ENDIAN__
    copy(to, row, 2 * darts);
#else
    for (unsigned d = 0; d < darts; d++) {
        to[2 * d] = (uint8_t)row[d];
        to[2 * d + 1] = (uint8_t)(row[d] >> 8);
    }
#endif
    return to + 2 * darts;
}

zg_written plain_write(uint8_t n, uint16_t darts, uint8_t h, const uint16_t *rows, size_t rows_len,
                       const uint8_t *lambda, size_t lambda_len, const uint8_t *delta, size_t delta_len,
                       uint16_t *table, size_t table_len, uint8_t *bytes, size_t bytes_len)
{
    zg_refusal bad = plain_check(n, darts, h, rows, rows_len, lambda, lambda_len, delta, delta_len, table, table_len);
    if (bad.number)
        return (zg_written){.refusal = bad};
    uint32_t length = 7 + (n + 1u) * (3 + 2u * darts) + 2 * (3u + darts);
    if (bytes_len < length)
        return RESULT(zg_written, {4});
    uint8_t *to = put_head(bytes, 0x01, 4);
    *to++ = n;
    *to++ = h;
    *to++ = (uint8_t)darts;
    *to++ = (uint8_t)(darts >> 8);
    for (unsigned i = 0; i <= n; i++)
        to = put_row(put_head(to, 0x10 + i, 2u * darts), rows + i * darts, darts);
    to = put_head(to, 0x30, darts);
    copy(to, lambda, darts);
    to = put_head(to + darts, 0x31, darts);
    copy(to, delta, darts);
    return (zg_written){.length = length};
}

/* ---------------------------------------------------------------- decimation */

zg_factor plain_decimation(uint8_t n, uint16_t darts, uint8_t h, const uint16_t *rows, size_t rows_len,
                           const uint8_t *lambda, size_t lambda_len, const uint8_t *delta, size_t delta_len,
                           uint16_t *table, size_t table_len, uint8_t level)
{
    zg_refusal bad = plain_check(n, darts, h, rows, rows_len, lambda, lambda_len, delta, delta_len, table, table_len);
    if (bad.number)
        return (zg_factor){.refusal = bad};
    if (level >= h)
        return RESULT(zg_factor, {11, level});
    unsigned count = survivors_on(lambda, darts, level), next = survivors_on(lambda, darts, (uint8_t)(level + 1));
    if (!next)
        return (zg_factor){.empty = 1};
    return (zg_factor){.factor = (double)count / (double)next};
}

/* ---------------------------------------------------------------- census */

/* Darts to search from, each with the row that led to it. */
struct starts {
    uint16_t dart[ZG_MOST_DARTS];
    uint8_t by[ZG_MOST_DARTS];
    unsigned size;
};

/* The rows by which a cell is searched: what the first two reach is walked along, by the one and the other in turn. All
 * after these commute with the first, so they lead from both darts of a step by it to one such walk, and are followed
 * from one of the two. */
static void order_rows(unsigned n, unsigned dimension, unsigned *order)
{
    unsigned first = dimension == 0 ? 1 : dimension == 1 && n >= 3 ? 2 : 0;
    *order++ = first;
    for (unsigned i = first + 1; i <= n; i++)
        if (i != dimension)
            *order++ = i;
    for (unsigned i = 0; i < first; i++)
        if (i != dimension)
            *order++ = i;
}

/* How many cells of one dimension have one of the darts to which another row led. A stamp for each count spares the set
 * that would have to be cleared. A walk whose way back passes a free end takes its darts twice. */
FOR_EACH_N unsigned count_cells_n(unsigned n, size_t darts, const uint16_t *table, unsigned dimension,
                                  const struct starts *from, uint16_t *stamps, uint16_t stamp)
{
    uint16_t open[2 * ZG_MOST_DARTS];
    const uint16_t *row[4];
    unsigned order[4], count = 0;
    order_rows(n, dimension, order);
    for (unsigned j = 0; j < n; j++)
        row[j] = table + order[j] * darts;
    for (size_t k = 0; k < from->size; k++) {
        if (stamps[from->dart[k]] == stamp || from->by[k] == dimension)
            continue;
        size_t opens = 1;
        open[0] = from->dart[k];
        count++;
        do {
            size_t first = open[--opens], d = first;
            if (n > 2 && stamps[d] == stamp)
                continue;
            do {
                stamps[d] = stamp;
                for (unsigned j = 2; j < n; j++) {
                    size_t e = row[j][d];
                    if (stamps[e] != stamp)
                        open[opens++] = (uint16_t)e;
                }
                d = row[0][d];
                stamps[d] = stamp;
                if (n > 1)
                    d = row[1][d];
            } while (n > 1 && d != first);
        } while (n > 2 && opens);
    }
    return count;
}

static unsigned count_cells(unsigned n, size_t darts, const uint16_t *table, unsigned dimension,
                            const struct starts *from, uint16_t *stamps, uint16_t stamp)
{
    return WITH_N(n, count_cells_n, darts, table, dimension, from, stamps, stamp);
}

static void start_from_all(struct starts *from, unsigned darts)
{
    for (unsigned d = 0; d < darts; d++)
        from->dart[d] = (uint16_t)d;
    memset(from->by, ZG_STAY, darts);
    from->size = darts;
}

static void start_from(struct starts *from, unsigned n, unsigned level, const struct kinds *kinds)
{
    from->size = 0;
    FOR_KINDS(n, level, kinds, kind)
    for (unsigned d = kinds->first[kind]; d != ZG_ABSENT; d = kinds->next[d])
        from->dart[from->size++] = (uint16_t)d;
    memset(from->by, ZG_STAY, from->size);
}

/* The survivors that a row leads to from the kernel: it is made of whole cells, so only that of a dart's own dimension
 * leads out of it. */
static void start_beside(struct starts *from, unsigned n, size_t darts, unsigned level, const uint16_t *table,
                         const struct kinds *kinds)
{
    from->size = 0;
    FOR_KINDS(n, level, kinds, kind)
    for (unsigned d = kinds->first[kind]; d != ZG_ABSENT; d = kinds->next[d]) {
        unsigned survivor = table[dimension_of(kind) * darts + d];
        from->dart[from->size] = (uint16_t)survivor;
        from->by[from->size] = (uint8_t)dimension_of(kind);
        from->size += !same_kernel(kinds->of[survivor], kind);
    }
}

/* Climbs, and counts on the way. The base is counted whole. From level to level a cell that meets no dart of the kernel
 * stands: those that do are counted before the removal, and after it those that have a survivor beside the kernel. */
static zg_refusal count_levels(unsigned n, unsigned darts, unsigned h, const struct kinds *kinds, uint16_t *table,
                               uint16_t *cells)
{
    uint16_t stamps[ZG_MOST_DARTS] = {0}, stamp = 1;
    struct starts from;
    start_from_all(&from, darts);
    for (unsigned i = 0; i <= n; i++)
        cells[i] = (uint16_t)count_cells(n, darts, table, i, &from, stamps, stamp++);
    for (unsigned l = 0; l < h; l++, cells += 5) {
        if (!kernel_fits(n, darts, l, table, kinds))
            return climb(n, darts, l, l + 1, kinds, table);
        start_from(&from, n, l, kinds);
        for (unsigned i = 0; i <= n; i++)
            cells[5 + i] = (uint16_t)(cells[i] - count_cells(n, darts, table, i, &from, stamps, stamp++));
        start_beside(&from, n, darts, l, table, kinds);
        remove_kernel(n, darts, l, table, kinds);
        for (unsigned i = 0; i <= n; i++)
            cells[5 + i] = (uint16_t)(cells[5 + i] + count_cells(n, darts, table, i, &from, stamps, stamp++));
    }
    clear_gone(n, darts, h, kinds->of, table);
    return RESULT(zg_refusal, 0);
}

zg_refusal plain_census(uint8_t n, uint16_t darts, uint8_t h, const uint16_t *rows, size_t rows_len,
                        const uint8_t *lambda, size_t lambda_len, const uint8_t *delta, size_t delta_len,
                        uint16_t *table, size_t table_len, uint16_t *cells, size_t cells_len, int32_t *sums,
                        size_t sums_len)
{
    struct kinds kinds;
    uint16_t counted[ZG_CELLS] = {0};
    unsigned bad = bad_size(n, darts, h);
    if (bad)
        return RESULT(zg_refusal, bad);
    if (cells_len != ZG_CELLS || sums_len != ZG_SUMS)
        return RESULT(zg_refusal, 4);
    zg_refusal r = check_folded(n, darts, h, rows, rows_len, lambda, lambda_len, delta, delta_len, table_len);
    if (r.number)
        return r;
    start_climb(n, darts, rows, lambda, delta, &kinds, table);
    r = count_levels(n, darts, h, &kinds, table, counted);
    if (r.number)
        return r;
    memcpy(cells, counted, sizeof counted);
    memset(sums, 0, ZG_SUMS * sizeof *sums);
    for (unsigned l = 0; l <= h; l++)
        for (unsigned i = 0; i <= n; i++)
            sums[l] += i & 1 ? -(int32_t)cells[5 * l + i] : (int32_t)cells[5 * l + i];
    return r;
}

/* ---------------------------------------------------------------- combinatorial maps */

static zg_refusal find_bad_partner(unsigned m, const uint16_t *row, unsigned i)
{
    for (unsigned d = 0; d < m; d++)
        if (row[d] >= m)
            return RESULT(zg_refusal, 5, 0, i, d);
    return RESULT(zg_refusal, 0);
}

/* The first dart whose image an earlier dart had; there is one. */
static zg_refusal find_two_to_one(unsigned m, const uint16_t *vertices)
{
    bool had[2048] = {false};
    unsigned d = 0;
    for (; d < m && !had[vertices[d]]; d++)
        had[vertices[d]] = true;
    return RESULT(zg_refusal, 21, 0, 1, d);
}

/* A row of m darts below m sends two to one exactly if some dart is no image. */
static bool is_permutation(unsigned m, const uint16_t *row)
{
    uint8_t image[2048] = {0}, all = 1;
#pragma GCC unroll 4
    for (unsigned d = 0; d < m; d++)
        image[row[d]] = 1;
    for (unsigned d = 0; d < m; d++)
        all &= image[d];
    return all;
}

static zg_refusal check_partner(unsigned m, const uint16_t *edges, const uint16_t *vertices)
{
    if (!all_below(edges, m, m))
        return find_bad_partner(m, edges, 0);
    if (!all_below(vertices, m, m))
        return find_bad_partner(m, vertices, 1);
#pragma GCC unroll 4
    for (unsigned d = 0; d < m; d++)
        if (edges[edges[d]] != (uint16_t)d)
            return RESULT(zg_refusal, 6, 0, 0, d);
    return is_permutation(m, vertices) ? RESULT(zg_refusal, 0) : find_two_to_one(m, vertices);
}

zg_refusal plain_import(uint16_t m, const uint16_t *edges, size_t edges_len, const uint16_t *vertices,
                        size_t vertices_len, uint16_t *rows, size_t rows_len)
{
    if (m - 1u > 2047)
        return RESULT(zg_refusal, 2);
    if (edges_len != m || vertices_len != m || rows_len != 6u * m)
        return RESULT(zg_refusal, 4);
    zg_refusal bad = check_partner(m, edges, vertices);
    if (bad.number)
        return bad;
    uint16_t *restrict a0 = rows, *restrict a1 = rows + 2 * m, *restrict a2 = rows + 4 * m;
    for (unsigned d = 0; d < m; d++) {
        a0[2 * d] = (uint16_t)(2 * edges[d] + 1);
        a0[2 * d + 1] = (uint16_t)(2 * edges[d]);
    }
#pragma GCC unroll 4
    for (size_t d = 0; d < m; d++) {
        size_t to = 2 * (size_t)vertices[d];
        a1[2 * d + 1] = (uint16_t)to;
        a1[to] = (uint16_t)(2 * d + 1);
    }
    for (unsigned d = 0; d < 2u * m; d++)
        a2[d] = (uint16_t)(d ^ 1);
    return RESULT(zg_refusal, 0);
}

/* Whether the rows are valid and two rows yield them, all at once. a_2 is as it must be, and a_0 takes pairs to pairs,
 * so the two commute, and that the even darts come back by a_0 is enough. a_1 takes odd darts to even ones; where all
 * odd ones come back by it, the even ones are all met, and come back too. */
static bool yields(unsigned m, const uint16_t *rows)
{
    const uint16_t *a0 = rows, *a1 = rows + 2 * m, *a2 = rows + 4 * m;
    uint16_t differ = 0, even = 0, odd = 1;
    if (!all_below(rows, 6 * (size_t)m, 2 * m))
        return false;
    for (unsigned d = 0; d < 2 * m; d++)
        differ |= (uint16_t)(a2[d] ^ d ^ 1);
    for (unsigned d = 0; d < m; d++) {
        differ |= (uint16_t)(a0[2 * d] ^ a0[2 * d + 1] ^ 1);
        even |= a1[2 * d + 1];
        odd &= a0[2 * d];
    }
    if (differ | (even & 1) | !odd)
        return false;
#pragma GCC unroll 2
    for (size_t d = 0; d < 2 * m; d += 2)
        if (a0[a0[d]] != (uint16_t)d || a1[a1[d + 1]] != (uint16_t)(d + 1))
            return false;
    return true;
}

zg_refusal plain_export(uint8_t n, uint16_t darts, const uint16_t *rows, size_t rows_len, uint16_t *edges,
                        size_t edges_len, uint16_t *vertices, size_t vertices_len)
{
    unsigned m = darts / 2u;
    if (n != 2)
        return RESULT(zg_refusal, 1);
    if (darts - 1u > ZG_MOST_DARTS - 1)
        return RESULT(zg_refusal, 2);
    if (rows_len != 3u * darts || edges_len != m || vertices_len != m)
        return RESULT(zg_refusal, 4);
    if (darts % 2 || !yields(m, rows)) {
        zg_refusal bad = check_rows(2, darts, rows);
        return bad.number ? bad : RESULT(zg_refusal, 22);
    }
    const uint16_t *a0 = rows, *a1 = rows + darts;
    for (unsigned d = 0; d < m; d++) {
        edges[d] = a0[2 * d] / 2;
        vertices[d] = a1[2 * d + 1] / 2;
    }
    return RESULT(zg_refusal, 0);
}

/* ---------------------------------------------------------------- regions */

/* Names what a dart reaches by a_0, and by a_1 where it may: the region is a row of edges or a ring. */
static void name_line(const uint16_t *a0, const uint16_t *a1, const uint8_t *passes, unsigned start, uint16_t *names)
{
    unsigned d = start;
    for (;;) {
        names[d] = (uint16_t)start;
        d = a0[d];
        names[d] = (uint16_t)start;
        if (!passes[d] || names[a1[d]] != ZG_ABSENT)
            break;
        d = a1[d];
    }
    for (d = start; passes[d] && names[a1[d]] == ZG_ABSENT; d = a0[d]) {
        d = a1[d];
        names[d] = names[a0[d]] = (uint16_t)start;
    }
}

/* Names all darts that one reaches and that have no name yet. What a_0 and a_1 reach is walked along, by the one and
 * the other in turn. The other rows commute with a_0, and lead from both darts of a step by a_0 to one such walk, so
 * they are followed from one of the two. A walk whose way back passes a free end takes its darts twice. */
FOR_EACH_N void name_region(unsigned n, size_t darts, const uint16_t *rows, const uint8_t *passes, unsigned start,
                            uint16_t *names)
{
    uint16_t open[3 * ZG_MOST_DARTS];
    unsigned opens = 1;
    open[0] = (uint16_t)start;
    while (opens) {
        unsigned first = open[--opens], d = first;
        if (names[first] != ZG_ABSENT)
            continue;
        do {
            names[d] = (uint16_t)start;
            for (unsigned j = 2; j < n; j++)
                if (names[rows[j * darts + d]] == ZG_ABSENT)
                    open[opens++] = rows[j * darts + d];
            if (passes[d] && names[rows[n * darts + d]] == ZG_ABSENT)
                open[opens++] = rows[n * darts + d];
            d = rows[d];
            names[d] = (uint16_t)start;
            d = rows[darts + d];
        } while (d != first);
    }
}

FOR_EACH_N void name_all(unsigned n, size_t darts, const uint16_t *rows, const uint8_t *passes, uint16_t *names)
{
    for (unsigned d = 0; d < darts; d++)
        if (names[d] == ZG_ABSENT) {
            if (n == 1)
                name_line(rows, rows + darts, passes, d, names);
            else
                name_region(n, darts, rows, passes, d, names);
        }
}

static void name_regions(unsigned n, unsigned darts, const uint16_t *rows, const uint8_t *passes, uint16_t *names)
{
    WITH_N(n, name_all, darts, rows, passes, names);
}

zg_refusal plain_regions(uint8_t n, uint16_t darts, uint8_t h, const uint16_t *rows, size_t rows_len,
                         const uint8_t *lambda, size_t lambda_len, const uint8_t *delta, size_t delta_len,
                         uint16_t *table, size_t table_len, uint8_t level, uint16_t *names, size_t names_len)
{
    unsigned bad = bad_size(n, darts, h);
    if (bad || names_len != darts)
        return RESULT(zg_refusal, (uint16_t)(bad ? bad : 4));
    zg_refusal r = plain_check(n, darts, h, rows, rows_len, lambda, lambda_len, delta, delta_len, table, table_len);
    if (r.number)
        return r;
    if (level > h)
        return RESULT(zg_refusal, 11, level);
    uint8_t passes[ZG_MOST_DARTS], last = (uint8_t)(n - 1), most = 0;
    for (unsigned d = 0; d < darts; d++) {
        passes[d] = (lambda[d] < level) & (delta[d] == last);
        most = delta[d] > most ? delta[d] : most;
    }
    for (unsigned d = 0; most > ZG_CONTRACT; d++)
        if (delta[d] > ZG_CONTRACT)
            return RESULT(zg_refusal, 23, 0, 0, (uint16_t)d);
    memset(names, 255, darts * sizeof *names);
    name_regions(n, darts, rows, passes, names);
    return r;
}

/* ---------------------------------------------------------------- join */

/* Whether kernels l and l+1 are whole cells of level l together. Kernel l is, so only the darts of the next one are
 * tested: each other row must lead to the same mark in one of the two. */
static bool joins(unsigned n, size_t darts, unsigned level, const uint16_t *table, const struct kinds *kinds)
{
    FOR_KINDS(n, level + 1, kinds, kind)
    for (unsigned d = kinds->first[kind]; d != ZG_ABSENT; d = kinds->next[d]) {
        const uint16_t *to = table + d;
        for (unsigned j = 0; j <= n; j++, to += darts) {
            unsigned met = kinds->of[*to];
            if (UNLIKELY(met != kind) && met != kind - MARKS && j != dimension_of(kind))
                return false;
        }
    }
    return true;
}

/* Climbs to level l once more, for the place where the joined kernel isn't whole. */
static zg_refusal find_unjoined(unsigned n, unsigned darts, unsigned level, const uint16_t *rows, struct kinds *kinds,
                                uint16_t *table)
{
    copy_rows(n, darts, table, rows);
    for (unsigned k = 0; k < level; k++)
        remove_kernel(n, darts, k, table, kinds);
    clear_gone(n, darts, level, kinds->of, table);
    for (unsigned d = 0; d < darts; d++)
        if (kinds->of[d] >= least_kind(level + 1))
            kinds->of[d] = (uint16_t)(kinds->of[d] - MARKS);
    return find_unfit(n, darts, level, table, kinds->of);
}

/* One climb: whether the kernels can be joined is seen in passing, and said after all that a check says. */
zg_height plain_join(uint8_t n, uint16_t darts, uint8_t h, const uint16_t *rows, size_t rows_len, uint8_t *lambda,
                     size_t lambda_len, const uint8_t *delta, size_t delta_len, uint16_t *table, size_t table_len,
                     uint8_t level)
{
    struct kinds kinds;
    zg_refusal r = check_folded(n, darts, h, rows, rows_len, lambda, lambda_len, delta, delta_len, table_len);
    if (r.number)
        return RESULT(zg_height, r, h);
    bool is_level = level + 1 < h, joined = false;
    start_climb(n, darts, rows, lambda, delta, &kinds, table);
    if (is_level) {
        r = climb(n, darts, 0, level, &kinds, table);
        joined = !r.number && joins(n, darts, level, table, &kinds);
    }
    if (!r.number)
        r = climb(n, darts, is_level ? level : 0, h, &kinds, table);
    if (!r.number && is_level && !joined)
        r = find_unjoined(n, darts, level, rows, &kinds, table);
    if (r.number)
        return RESULT(zg_height, r, h);
    clear_gone(n, darts, h, kinds.of, table);
    if (!is_level)
        return RESULT(zg_height, {11, level}, h);
    for (unsigned d = 0; d < darts; d++)
        lambda[d] = (uint8_t)(lambda[d] - (lambda[d] > level));
    return RESULT(zg_height, .height = (uint8_t)(h - 1));
}

/* ---------------------------------------------------------------- starting again */

/* A level under new numbers, kept while the climb goes on. */
struct packed {
    uint16_t rows[ZG_MOST_ENTRIES], old[ZG_MOST_DARTS];
    unsigned darts;
};

static void pack(unsigned n, unsigned darts, unsigned level, const uint16_t *table, const uint16_t *of,
                 struct packed *packed)
{
    uint16_t number[ZG_MOST_DARTS];
    uint16_t *next = packed->rows, *old = packed->old;
    unsigned least = least_kind(level), size = 0;
#pragma GCC unroll 4
    for (unsigned d = 0; d < darts; d++) {
        number[d] = (uint16_t)size;
        old[size] = (uint16_t)d;
        size += of[d] >= least;
    }
    packed->darts = size;
    for (unsigned i = 0; i <= n; i++, table += darts)
#pragma GCC unroll 4
        for (unsigned k = 0; k < size; k++)
            *next++ = number[table[old[k]]];
}

/* Lambda, Delta and rows of the level packed; each mark is written at or before the place where it was read. */
static void unpack(unsigned n, unsigned darts, unsigned level, const struct packed *packed, uint16_t *rows,
                   uint8_t *lambda, uint8_t *delta, uint16_t *old)
{
    size_t size = packed->darts, gone = darts - size;
    copy_rows(n, packed->darts, rows, packed->rows);
    copy(old, packed->old, size * sizeof *old);
#pragma GCC unroll 4
    for (size_t k = 0; k < size; k++) {
        lambda[k] = (uint8_t)(lambda[packed->old[k]] - level);
        delta[k] = delta[packed->old[k]];
    }
    memset(rows + (n + 1) * size, 255, (n + 1) * gone * sizeof *rows);
    memset(lambda + size, 255, gone);
    memset(delta + size, 255, gone);
    memset(old + size, 255, gone * sizeof *old);
}

/* One climb: level l is packed in passing, and put in the rows' place when all is accepted. */
zg_base plain_rebase(uint8_t n, uint16_t darts, uint8_t h, uint16_t *rows, size_t rows_len, uint8_t *lambda,
                     size_t lambda_len, uint8_t *delta, size_t delta_len, uint16_t *table, size_t table_len,
                     uint8_t level, uint16_t *old, size_t old_len)
{
    struct kinds kinds;
    struct packed packed;
    unsigned bad = bad_size(n, darts, h), middle = level <= h ? level : h;
    if (bad)
        return RESULT(zg_base, {bad}, darts, h);
    if (old_len != darts)
        return RESULT(zg_base, {4}, darts, h);
    zg_refusal r = check_folded(n, darts, h, rows, rows_len, lambda, lambda_len, delta, delta_len, table_len);
    if (r.number)
        return (zg_base){r, darts, h};
    start_climb(n, darts, rows, lambda, delta, &kinds, table);
    r = climb(n, darts, 0, middle, &kinds, table);
    if (r.number)
        return (zg_base){r, darts, h};
    pack(n, darts, middle, table, kinds.of, &packed);
    r = climb(n, darts, middle, h, &kinds, table);
    if (r.number)
        return (zg_base){r, darts, h};
    clear_gone(n, darts, h, kinds.of, table);
    if (level > h)
        return RESULT(zg_base, {11, level}, darts, h);
    if (!packed.darts)
        return RESULT(zg_base, {2}, darts, h);
    unpack(n, darts, level, &packed, rows, lambda, delta, old);
    return (zg_base){{0}, (uint16_t)packed.darts, (uint8_t)(h - level)};
}
