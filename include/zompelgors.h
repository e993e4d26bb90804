/* The C interface to pyramids of generalized maps in folded form. docs/SCOPE.md has the rules, docs/INTEGRATING.md how
 * to link it, the bytes to lend and the stack. zompelgors_pyramid.h has the same functions on a struct, with fewer
 * arguments and in one order. */
#ifndef ZOMPELGORS_H
#define ZOMPELGORS_H

/* The archive is ELF for x86-64 by the System V calling convention. Plain C that stands in for it has no such bound. */
#if !defined(ZG_ANY_TARGET) && (!defined(__x86_64__) || defined(__ILP32__) || defined(_WIN32))
#error "libzompelgors.a is for x86-64 Linux and its like; define ZG_ANY_TARGET where something else stands in for it"
#endif

#include <stddef.h>
#include <stdint.h>

/* An answer that is dropped is a refusal unseen: the compiler warns of it. */
#if defined(__GNUC__)
#define ZG_MUST_LOOK __attribute__((warn_unused_result))
#else
#define ZG_MUST_LOOK
#endif

#ifdef __cplusplus
extern "C" {
#endif

/*
 * The version of this header. zg_version() is that of the archive; a program that compares the two knows that they
 * belong together. Names, the order of arguments and the first field of every answer stay. MAJOR rises when a function
 * answers or is lent something else than before or an old name goes, MINOR when the archive has something more, PATCH
 * when neither is seen from here.
 */
#define ZG_VERSION_MAJOR 6
#define ZG_VERSION_MINOR 3
#define ZG_VERSION_PATCH 0
#define ZG_VERSION (ZG_VERSION_MAJOR * 65536 + ZG_VERSION_MINOR * 256 + ZG_VERSION_PATCH)

#define ZG_MOST_DIMENSION 4        /* n is 1 to 4 */
#define ZG_MOST_DARTS 4096         /* N is 1 to 4,096 */
#define ZG_MOST_PARTNER_DARTS 2048 /* M is 1 to 2,048 */
#define ZG_MOST_HEIGHT 32          /* h is 0 to 32; levels are 0 to h, so 33 of them at most */
#define ZG_MOST_LEVELS 32          /* the same number under its older name: the levels above the base */
#define ZG_MOST_ENTRIES ((ZG_MOST_DIMENSION + 1) * ZG_MOST_DARTS) /* of rows, or of a table */
#define ZG_MOST_RECORD 49180 /* bytes of the largest record */
#define ZG_WORDS 64          /* survivor words */
#define ZG_CELLS 165         /* counts of a census: 33 rows of 5 */
#define ZG_SUMS 33           /* sums of a census */
#define ZG_LEVELS 33         /* levels at most: counts, and levels since which, of unfolding all */
#define ZG_ABSENT 65535      /* in an explicit level every entry of a dart that is removed or contracted */
#define ZG_STAY 255          /* in a mark row: the dart stays */
#define ZG_CONTRACT 8        /* in marks and delta: ZG_CONTRACT + d, 9 to 8+n, is a contraction of dimension d */

/*
 * What is lent
 *
 *   n        dimension, 1 to 4
 *   darts    N, 1 to 4,096; darts are 0 to N-1
 *   h        height, 0 to 32; levels run 0 to h
 *   rows     the base: involutions a0 to an, row 0 first, (n+1)N entries
 *   lambda   for each dart the number of the kernel that removes or contracts it, h if none does: N entries
 *   delta    for each dart its mark in that kernel, n if it is in none: N entries
 *   table    an explicit level, laid out as rows: (n+1)N entries; those of darts that aren't on it are ZG_ABSENT
 *   marks    a mark row, N entries: below n, remove with that dimension; 9 to 8+n, contract with dimension
 *            mark - ZG_CONTRACT; ZG_STAY, stay
 *   words    survivor words, ZG_WORDS entries: dart d at bit d mod 64 of word d div 64
 *   cells    the counts of a census, ZG_CELLS entries: row l, the counts of level l, starts at entry 5 l
 *   sums     the alternating sums of a census, ZG_SUMS entries
 *
 *   bytes    a record, or a buffer for one
 *   edges    of a 2D combinatorial map of M darts, 0 to M-1: for each dart the other of its edge, or itself
 *   vertices for each of its darts the next around its vertex
 *   old      for each dart of a new base its number in the old one: N entries
 *   names    for each dart the name of its region: N entries (zompelgors_regions.h)
 *   tables   all explicit levels, one behind the other, level 0 first: (h+1)(n+1)N entries
 *   counts   for each level the base entries that unfolding it reads, ZG_LEVELS entries
 *   since    for each level since which level all its links stand, ZG_LEVELS entries
 *
 * Every length is in entries, not bytes, and must be exact (what zg_take writes to and the buffer of zg_write alone may
 * be longer). A pointer must be aligned as its type asks and good for the length that is given with it, also where that
 * length is wrong; at length 0 it must still not be null, but any other address will do (zompelgors_pyramid.h takes
 * null there). Memory is lent for the call only; no pointer is kept. Memory that is not const must not overlap any
 * other memory lent to the same call; const memory may overlap const memory.
 *
 * 'Lent to read' is const and stays as it is. 'Lent to change' is read and written: lambda and delta of zg_add, lambda
 * of zg_join, rows, lambda and delta of zg_rebase. 'Lent to write' is not read: whatever table, marks, words, cells,
 * sums, bytes, names, old, edges, vertices, tables, counts, since and rows held before makes no difference where they
 * are lent to write.
 *
 * Nothing is allocated and nothing is kept between calls, so calls may run at once on several threads where none writes
 * what another is lent. zg_unfold_all takes the most stack, about 89 KiB; no other function takes more than 35 KiB.
 *
 * What is returned
 *
 * Every answer begins with its refusal. Its number is ZG_ACCEPTED (then level, involution and dart are 0 too), or says
 * why the call is refused. Each function tests its numbers in the order given with it; the first place found is the one
 * reported. A field that says nothing is 0; DIMENSION, DARTS, HEIGHT, LENGTH, FULL and NO_ROWS have all three 0.
 * Counts, and whatever else is found, are 0 in a refusal (a height, and the darts of zg_rebase, are as given). Unless
 * said otherwise, a refusal leaves everything lent as it was.
 *
 * With the functions the numbers stand by name, without ZG_E_. 'After a check' says which can still come when zg_check,
 * zg_take, zg_add, zg_join or zg_rebase accepted the same pyramid before and it is lent with the lengths due; no other
 * number comes then.
 */

/* The numbers of refusal. Their names begin with ZG_E_, so that none is taken for a size (ZG_DARTS is 2). */
enum zg_number {
    ZG_ACCEPTED = 0,
    ZG_E_DIMENSION = 1,        /* n not 1..4; zg_export: not 2 */
    ZG_E_DARTS = 2,            /* N not 1..4,096; zg_import: M not 1..2,048 */
    ZG_E_HEIGHT = 3,           /* h above 32 */
    ZG_E_LENGTH = 4,           /* a length is not exact; records: too short */
    ZG_E_STRAYS = 5,           /* a neighbour is N or more; explicit levels: or absent, or an absent dart has one */
    ZG_E_NOT_TWICE = 6,        /* an a_i twice isn't the identity */
    ZG_E_NOT_COMMUTING = 7,    /* a_i and a_j don't commute, j >= i+2 */
    ZG_E_MARKS = 8,            /* Lambda, Delta or mark not allowed */
    ZG_E_NOT_WHOLE = 9,        /* kernel isn't whole cells */
    ZG_E_NOT_REMOVABLE = 10,   /* cell to be removed is not removable, or cell to be contracted not contractible */
    ZG_E_NO_LEVEL = 11,        /* level above h; for a decimation, h or more; for a join, the next level is */
    ZG_E_NO_DART = 12,         /* dart is N or more, or not on the level */
    ZG_E_NO_INVOLUTION = 13,   /* involution above n; for marking, dimension n or more */
    ZG_E_NO_PASS = 14,         /* walk meets a removed or contracted dart that it can't pass */
    ZG_E_TOO_LONG = 15,        /* walk needs more than 1 + 2N reads */
    ZG_E_ENDS_EARLY = 16,      /* record ends early */
    ZG_E_OTHER_TAG = 17,       /* other tag than due */
    ZG_E_WRONG_LENGTH = 18,    /* wrong length of a field */
    ZG_E_BYTES_AFTER = 19,     /* bytes after the record's end */
    ZG_E_FULL = 20,            /* a level is added at h = 32 */
    ZG_E_TWO_TO_ONE = 21,      /* a vertex row sends two darts to one */
    ZG_E_NO_ROWS = 22,         /* no two rows yield the base */
    ZG_E_CONTRACTED = 23       /* region names: a dart is contracted (zompelgors_regions.h) */

#ifndef ZG_NO_OLD_NAMES
    /* The names that the numbers had before: they go with the next MAJOR. ZG_NO_OLD_NAMES leaves them out today. */
    ,
    ZG_DIMENSION = ZG_E_DIMENSION,
    ZG_DARTS = ZG_E_DARTS,
    ZG_HEIGHT = ZG_E_HEIGHT,
    ZG_LENGTH = ZG_E_LENGTH,
    ZG_STRAYS = ZG_E_STRAYS,
    ZG_NOT_TWICE = ZG_E_NOT_TWICE,
    ZG_NOT_COMMUTING = ZG_E_NOT_COMMUTING,
    ZG_MARKS = ZG_E_MARKS,
    ZG_NOT_WHOLE = ZG_E_NOT_WHOLE,
    ZG_NOT_REMOVABLE = ZG_E_NOT_REMOVABLE,
    ZG_NO_LEVEL = ZG_E_NO_LEVEL,
    ZG_NO_DART = ZG_E_NO_DART,
    ZG_NO_INVOLUTION = ZG_E_NO_INVOLUTION,
    ZG_NO_PASS = ZG_E_NO_PASS,
    ZG_TOO_LONG = ZG_E_TOO_LONG,
    ZG_ENDS_EARLY = ZG_E_ENDS_EARLY,
    ZG_OTHER_TAG = ZG_E_OTHER_TAG,
    ZG_WRONG_LENGTH = ZG_E_WRONG_LENGTH,
    ZG_BYTES_AFTER = ZG_E_BYTES_AFTER,
    ZG_FULL = ZG_E_FULL,
    ZG_TWO_TO_ONE = ZG_E_TWO_TO_ONE,
    ZG_NO_ROWS = ZG_E_NO_ROWS,
    ZG_CONTRACTED = ZG_E_CONTRACTED
#endif
};

typedef struct {
    uint16_t number, level, involution, dart; /* of a record: dart is a byte offset */
} zg_refusal;

typedef struct {
    zg_refusal refusal;
    uint32_t count; /* base entries read */
    uint16_t neighbour;
} zg_reading;

typedef struct {
    zg_refusal refusal;
    uint32_t count; /* base entries read */
    uint16_t neighbour;
    uint8_t since; /* the lowest level on which the dart already has this neighbour */
} zg_link;

typedef struct {
    zg_refusal refusal;
    uint32_t count; /* base entries read in all */
    uint8_t since;  /* the largest of its readings */
} zg_unfolding;

typedef struct {
    zg_refusal refusal;
    uint32_t count; /* survivors */
} zg_count;

typedef struct {
    zg_refusal refusal;
    uint8_t height; /* after an add or a join; as given in a refusal */
} zg_height;

typedef struct {
    zg_refusal refusal;
    uint8_t unfolded; /* 0: a part of base; 1: a part of unfolded */
    uint16_t start, length;
} zg_part;

typedef struct {
    zg_refusal refusal;
    uint8_t n, h;
    uint16_t darts;
} zg_record;

typedef struct {
    zg_refusal refusal;
    uint32_t length; /* bytes of the record */
} zg_written;

typedef struct {
    zg_refusal refusal;
    uint8_t empty; /* 1: the next level has no dart, so there is no factor */
    double factor; /* a level's survivors by those of the next; 0 where empty is 1 */
} zg_factor;

typedef struct {
    zg_refusal refusal;
    uint16_t darts; /* N of the new base */
    uint8_t h;      /* its height; both as given in a refusal */
} zg_base;

/*
 * What a number says, in a phrase. It stands here, so that the archive has proved code alone. Where ZG_TEXT_SYMBOL is
 * defined it is a function that others can link: one file of the shared library does so.
 */
#ifdef ZG_TEXT_SYMBOL
#define ZG_TEXT_LINKAGE
const char *zg_refusal_text(uint16_t number);
#else
#define ZG_TEXT_LINKAGE static inline
#endif
ZG_TEXT_LINKAGE const char *zg_refusal_text(uint16_t number)
{
    static const char *const texts[] = {
        "accepted",
        "the dimension is not 1 to 4, or not 2 for a combinatorial map",
        "the number of darts is not 1 to 4096 (of a combinatorial map 2048), or a new base has none",
        "the height is above 32",
        "a length is not the one due",
        "an entry names no dart that is there",
        "an involution applied twice is not the identity",
        "two involutions do not commute",
        "a mark is not allowed",
        "a kernel is not made of whole cells",
        "a cell is not removable or not contractible",
        "the level asked is above the height, or too near it for a decimation or a join",
        "the dart asked is not on the level",
        "the involution or dimension asked is too large",
        "a walk meets a removed or contracted dart that it cannot pass",
        "a walk needs more than 1 + 2N reads",
        "the record ends early",
        "the record has another tag than the one due",
        "a field of the record has a wrong length",
        "bytes follow the end of the record",
        "a level is added at height 32",
        "a vertex row sends two darts to one",
        "no two rows yield the base",
        "regions have names only in a pyramid without contraction"
    };
    return number < sizeof texts / sizeof texts[0] ? texts[number] : "no number of a refusal";
}

/* The version of the archive, made as ZG_VERSION is. */
uint32_t zg_version(void) ZG_MUST_LOOK;

/*
 * Checks a base. Lent to read: rows, (n+1)N.
 * Refused DIMENSION, DARTS, LENGTH, STRAYS, NOT_TWICE, NOT_COMMUTING. STRAYS and NOT_TWICE name the row (involution)
 * and the dart, NOT_COMMUTING the smaller row i and the dart.
 * After a check: none.
 */
zg_refusal zg_check_base(uint8_t n, uint16_t darts, const uint16_t *rows, size_t rows_len) ZG_MUST_LOOK;

/*
 * Checks a whole pyramid. Lent to read: rows, (n+1)N; lambda, N; delta, N. Lent to write: table, (n+1)N.
 * Accepted: table holds the explicit level h.
 * Refused DIMENSION, DARTS, HEIGHT, LENGTH, STRAYS, NOT_TWICE, NOT_COMMUTING (as zg_check_base), MARKS (the dart), then
 * for each kernel in rising order NOT_WHOLE (the kernel's level, the involution that leaves the kernel, the dart) and
 * NOT_REMOVABLE (the kernel's level; dimension + 1 for a dart to be removed, dimension - 1 for one to be contracted;
 * the dart).
 * After NOT_WHOLE or NOT_REMOVABLE table holds the explicit level whose kernel failed; after any other it is untouched.
 * After a check: LENGTH of table.
 */
zg_refusal zg_check(uint8_t n, uint16_t darts, uint8_t h, const uint16_t *rows, size_t rows_len,
                    const uint8_t *lambda, size_t lambda_len, const uint8_t *delta, size_t delta_len,
                    uint16_t *table, size_t table_len) ZG_MUST_LOOK;

/*
 * Adds a level on top: the same check, with marks as kernel h. Lent to read: rows, (n+1)N; marks, N (a dart not on
 * level h must have ZG_STAY). Lent to change: lambda, N; delta, N. Lent to write: table, (n+1)N.
 * Accepted: height is h + 1; darts marked have Lambda = h and their mark as Delta, the other survivors Lambda = h + 1;
 * table holds the new top level.
 * Refused DIMENSION, DARTS, HEIGHT, LENGTH, FULL (h is 32), STRAYS, NOT_TWICE, NOT_COMMUTING, MARKS, NOT_WHOLE,
 * NOT_REMOVABLE: as zg_check. MARKS of lambda and delta (level 0) comes before MARKS of marks (level h). At h = 0 both
 * have level 0: it is marks if lambda[dart] is 0 and delta[dart] is n, else it is lambda or delta. height is then h as
 * given. After NOT_WHOLE or NOT_REMOVABLE table holds the explicit level whose kernel failed, which may be any from 0
 * to h, and lambda and delta are untouched; after any other nothing lent has changed.
 * After a check: LENGTH of marks or table, FULL, MARKS of marks, NOT_WHOLE and NOT_REMOVABLE of kernel h. What
 * zg_mark_cells made of the top level is always accepted, but for FULL.
 */
zg_height zg_add(uint8_t n, uint16_t darts, uint8_t h, const uint16_t *rows, size_t rows_len,
                 uint8_t *lambda, size_t lambda_len, uint8_t *delta, size_t delta_len,
                 const uint8_t *marks, size_t marks_len, uint16_t *table, size_t table_len) ZG_MUST_LOOK;

/*
 * Reads the mark row of a level back out of Lambda and Delta. Lent to read: lambda, N; delta, N. Lent to write:
 * marks, N.
 * Accepted: marks hold Delta where Lambda is that level, else ZG_STAY; for level h ZG_STAY throughout.
 * Refused DIMENSION, DARTS, HEIGHT, LENGTH, NO_LEVEL (the level asked), MARKS (the level asked, 0, the dart).
 * After a check: LENGTH of marks, NO_LEVEL.
 */
zg_refusal zg_marks_of(uint8_t n, uint16_t darts, uint8_t h, const uint8_t *lambda, size_t lambda_len,
                       const uint8_t *delta, size_t delta_len, uint8_t level, uint8_t *marks,
                       size_t marks_len) ZG_MUST_LOOK;

/*
 * Reads one neighbour on a level by the direct walk, on any tables, checked before or not. Lent to read: rows,
 * (n+1)N; lambda, N; delta, N.
 * Accepted: neighbour, and count, the base entries read; at most 1 + 2N. since is one more than the largest Lambda
 * passed, or 0 if no dart was passed: in an accepted pyramid the lowest level from which on the link has stood.
 * Refused DIMENSION, DARTS, HEIGHT, LENGTH, NO_LEVEL, NO_INVOLUTION, NO_DART (N or more), then for the starting dart
 * MARKS and NO_DART (not on the level), then at each read TOO_LONG, STRAYS, MARKS, NO_PASS. level is the one asked.
 * NO_LEVEL, NO_INVOLUTION, NO_DART and the start's MARKS have the involution and the dart asked, so has TOO_LONG;
 * STRAYS has the row read and the dart whose entry it is, MARKS and NO_PASS the row read last and the dart met.
 * After a check: NO_LEVEL, NO_INVOLUTION, NO_DART.
 */
zg_link zg_read(uint8_t n, uint16_t darts, uint8_t h, const uint16_t *rows, size_t rows_len,
                const uint8_t *lambda, size_t lambda_len, const uint8_t *delta, size_t delta_len,
                uint8_t level, uint8_t involution, uint16_t dart) ZG_MUST_LOOK;

/*
 * The same question answered level by level, each step a reading one level lower, down to the base. Lent, returned
 * and refused as zg_read, with one difference: NO_PASS is also given where a dart on the way isn't in the kernel below
 * the level being read with the dimension of the row walked by, or the second dart of a pass hasn't the mark of the
 * first. Where it isn't refused NO_PASS, its fields are those of zg_read. It has no since. It calls itself level + 1
 * deep.
 * Refused DIMENSION, DARTS, HEIGHT, LENGTH, NO_LEVEL, NO_INVOLUTION, NO_DART, MARKS, then TOO_LONG, STRAYS, NO_PASS.
 * After a check: NO_LEVEL, NO_INVOLUTION, NO_DART.
 */
zg_reading zg_read_by_levels(uint8_t n, uint16_t darts, uint8_t h, const uint16_t *rows, size_t rows_len,
                             const uint8_t *lambda, size_t lambda_len, const uint8_t *delta, size_t delta_len,
                             uint8_t level, uint8_t involution, uint16_t dart) ZG_MUST_LOOK;

/*
 * Unfolds a whole level by direct walks. Lent to read: rows, (n+1)N; lambda, N; delta, N. Lent to write: table,
 * (n+1)N.
 * Accepted: table holds the explicit level; count is the total of its readings' counts, since the largest of their
 * sinces, 0 for a level with no darts.
 * Refused DIMENSION, DARTS, HEIGHT, LENGTH, NO_LEVEL (the level asked), MARKS over all darts (the level asked, 0, the
 * dart), then the walks, by involution, then dart, each refused TOO_LONG, STRAYS, NO_PASS as zg_read.
 * After TOO_LONG, STRAYS or NO_PASS table is ZG_ABSENT throughout; after any other it is untouched.
 * After a check: LENGTH of table, NO_LEVEL.
 */
zg_unfolding zg_unfold(uint8_t n, uint16_t darts, uint8_t h, const uint16_t *rows, size_t rows_len,
                       const uint8_t *lambda, size_t lambda_len, const uint8_t *delta, size_t delta_len,
                       uint8_t level, uint16_t *table, size_t table_len) ZG_MUST_LOOK;

/*
 * Checks a whole pyramid and unfolds all its levels. Lent to read: rows, (n+1)N; lambda, N; delta, N. Lent to write:
 * tables, (h+1)(n+1)N; counts, ZG_LEVELS; since, ZG_LEVELS.
 * Accepted: block l of tables, the (n+1)N entries from entry l(n+1)N on, holds the explicit level l; counts and since
 * hold at l the count and the since that zg_unfold answers for level l, and 0 above level h.
 * Refused DIMENSION, DARTS, HEIGHT, LENGTH (of tables, counts and since too), STRAYS, NOT_TWICE, NOT_COMMUTING, MARKS,
 * NOT_WHOLE, NOT_REMOVABLE as zg_check. After NOT_WHOLE or NOT_REMOVABLE blocks 0 to the level whose kernel failed hold
 * these levels, and all else is as found; after any other nothing lent has changed.
 * After a check: LENGTH of tables, counts or since.
 */
zg_refusal zg_unfold_all(uint8_t n, uint16_t darts, uint8_t h, const uint16_t *rows, size_t rows_len,
                         const uint8_t *lambda, size_t lambda_len, const uint8_t *delta, size_t delta_len,
                         uint16_t *tables, size_t tables_len, uint32_t *counts, size_t counts_len,
                         uint8_t *since, size_t since_len) ZG_MUST_LOOK;

/*
 * Says where a row of a level lies; no entry is read or copied. Lent: base, (n+1)N, the base rows; unfolded, (n+1)N,
 * the level as zg_unfold left it. Both are measured, at level 0 too; they may be the same memory.
 * Accepted: the row is the length entries from entry start of base (unfolded 0, for level 0) or of unfolded
 * (unfolded 1, for any other level): start is involution times N, length N.
 * Refused DIMENSION, DARTS, HEIGHT, LENGTH, NO_LEVEL, NO_INVOLUTION (both with the level and the involution asked): an
 * empty part of base, 0 0 0.
 * After a check: LENGTH of unfolded, NO_LEVEL, NO_INVOLUTION.
 */
zg_part zg_row(uint8_t n, uint16_t darts, uint8_t h, const uint16_t *base, size_t base_len,
               const uint16_t *unfolded, size_t unfolded_len, uint8_t level, uint8_t involution) ZG_MUST_LOOK;

/*
 * The survivor words of a level. Lent to read: lambda, N. Lent to write: words, ZG_WORDS.
 * Accepted: the bits of the darts with Lambda >= level are 1, all others 0; count is the number of ones.
 * Refused DARTS, HEIGHT, LENGTH, NO_LEVEL (the level asked), MARKS (only Lambda > h: the level asked, 0, the dart).
 * After a check: LENGTH of words, NO_LEVEL.
 */
zg_count zg_survivors(uint16_t darts, uint8_t h, const uint8_t *lambda, size_t lambda_len, uint8_t level,
                      uint64_t *words, size_t words_len) ZG_MUST_LOOK;

/*
 * Marks cells of one dimension, below n, on an explicit level, to be removed; there is no marking for contraction. Lent
 * to read: table, (n+1)N. Lent to write: marks, N.
 * Accepted: the darts of every removable cell that falls into exactly two parts, when the involution of that dimension
 * and the next are both left out, have the dimension as their mark; but wherever that is every dart of a connected
 * piece, the cell of its lowest dart is left unmarked. All others have ZG_STAY. So open ends stay, and no piece is
 * marked as a whole. Marks of the top level of an accepted pyramid of height below 32 are accepted by zg_add; marks may
 * be ZG_STAY throughout, and zg_add then adds a level with the same darts.
 * Refused DIMENSION, DARTS, LENGTH, NO_INVOLUTION (involution is the dimension asked), STRAYS, NOT_TWICE, NOT_COMMUTING
 * (as zg_check_base, for darts that are present; a dart is absent exactly where row 0 holds ZG_ABSENT, and STRAYS also
 * names an absent dart with another entry).
 * After a check, with a level of that pyramid as table: LENGTH of marks, NO_INVOLUTION.
 */
zg_refusal zg_mark_cells(uint8_t n, uint16_t darts, const uint16_t *table, size_t table_len, uint8_t dimension,
                         uint8_t *marks, size_t marks_len) ZG_MUST_LOOK;

/*
 * Takes a record into lent memory and checks its pyramid. Lent to read: bytes, the record, of any length. Lent to
 * write: rows, (n+1)N or more; lambda, N or more; delta, N or more; table, (n+1)N or more. ZG_MOST_ENTRIES,
 * ZG_MOST_DARTS, ZG_MOST_DARTS and ZG_MOST_ENTRIES entries are enough for every record.
 * Accepted: n, h, darts, and at the front the record's rows, Lambda and Delta, and in table the explicit level h; the
 * rest of a longer slice is untouched.
 * Refused ENDS_EARLY, OTHER_TAG, WRONG_LENGTH as the fields come (dart is the byte offset where the field starts),
 * DIMENSION, DARTS, HEIGHT after the header, BYTES_AFTER (dart is the offset of the first byte too many), LENGTH, all
 * with nothing written; then STRAYS, NOT_TWICE, NOT_COMMUTING, MARKS, NOT_WHOLE, NOT_REMOVABLE as zg_check, with the
 * record's rows, Lambda and Delta at the front, and the front of table as zg_check leaves it.
 */
zg_record zg_take(const uint8_t *bytes, size_t bytes_len, uint16_t *rows, size_t rows_len,
                  uint8_t *lambda, size_t lambda_len, uint8_t *delta, size_t delta_len,
                  uint16_t *table, size_t table_len) ZG_MUST_LOOK;

/*
 * Writes the record of an accepted pyramid, always with two bytes an entry. Lent to read: rows, (n+1)N; lambda, N;
 * delta, N. Lent to write: table, (n+1)N; bytes, the buffer, 7 + (n+1)(3 + 2N) + 2(3 + N) or more. ZG_MOST_RECORD
 * bytes are enough for every record.
 * Accepted: length, and the record at the front of bytes; those behind its end are untouched. zg_take takes it back to
 * the same n, h, N, rows, Lambda and Delta. table holds the explicit level h.
 * Refused DIMENSION, DARTS, HEIGHT, LENGTH, STRAYS, NOT_TWICE, NOT_COMMUTING, MARKS, NOT_WHOLE, NOT_REMOVABLE as
 * zg_check, which also says what table then holds; last LENGTH for a buffer that is too short, with level h in table.
 * bytes are untouched in a refusal.
 * After a check: LENGTH of table or bytes.
 */
zg_written zg_write(uint8_t n, uint16_t darts, uint8_t h, const uint16_t *rows, size_t rows_len,
                    const uint8_t *lambda, size_t lambda_len, const uint8_t *delta, size_t delta_len,
                    uint16_t *table, size_t table_len, uint8_t *bytes, size_t bytes_len) ZG_MUST_LOOK;

/*
 * How fast an accepted pyramid shrinks at a level below h. Lent to read: rows, (n+1)N; lambda, N; delta, N. Lent to
 * write: table, (n+1)N.
 * Accepted: factor is the level's survivor count by that of the next level, one division of the two counts in double
 * precision; both are converted exactly, so it is the double nearest to their fraction. Where the next level has no
 * dart, empty is 1 and factor 0. table holds the explicit level h.
 * Refused DIMENSION, DARTS, HEIGHT, LENGTH, STRAYS, NOT_TWICE, NOT_COMMUTING, MARKS, NOT_WHOLE, NOT_REMOVABLE as
 * zg_check, which also says what table then holds; last NO_LEVEL (the level asked) for a level of h or more, with level
 * h in table.
 * After a check: LENGTH of table, NO_LEVEL.
 */
zg_factor zg_decimation(uint8_t n, uint16_t darts, uint8_t h, const uint16_t *rows, size_t rows_len,
                        const uint8_t *lambda, size_t lambda_len, const uint8_t *delta, size_t delta_len,
                        uint16_t *table, size_t table_len, uint8_t level) ZG_MUST_LOOK;

/*
 * A census of an accepted pyramid: the cells of each dimension of each level. Lent to read: rows, (n+1)N; lambda, N;
 * delta, N. Lent to write: table, (n+1)N; cells, ZG_CELLS; sums, ZG_SUMS.
 * Accepted: cells holds at 5 l + i the number of i-cells of level l, and sums at l their alternating sum, 0-cells minus
 * 1-cells plus 2-cells and so on, which may be below zero; all places above level h or dimension n are 0. table holds
 * the explicit level h. The sum is the Euler number only while every cell is a ball: a kernel may leave faces with
 * holes and volumes with cavities, and then it is a sum and no more.
 * Refused DIMENSION, DARTS, HEIGHT, LENGTH (of cells and sums too), STRAYS, NOT_TWICE, NOT_COMMUTING, MARKS, NOT_WHOLE,
 * NOT_REMOVABLE as zg_check, which also says what table then holds. cells and sums are untouched in a refusal.
 * After a check: LENGTH of table, cells or sums.
 */
zg_refusal zg_census(uint8_t n, uint16_t darts, uint8_t h, const uint16_t *rows, size_t rows_len,
                     const uint8_t *lambda, size_t lambda_len, const uint8_t *delta, size_t delta_len,
                     uint16_t *table, size_t table_len, uint16_t *cells, size_t cells_len,
                     int32_t *sums, size_t sums_len) ZG_MUST_LOOK;

/*
 * Brings in a 2D combinatorial map as the base rows of a pyramid with n = 2 and N = 2m. Lent to read: edges, m;
 * vertices, m. Lent to write: rows, 6m. Dart d becomes darts 2d and 2d+1, which are a2-neighbours; 2d+1 and twice the
 * vertex successor of d are a1-neighbours; a0 takes 2d to twice the edge partner plus 1, and 2d+1 to twice it.
 * Accepted: rows hold the base, which zg_check_base accepts.
 * Refused DARTS (m), LENGTH, STRAYS (an entry of m or more: involution 0 for edges, all of them first, 1 for vertices;
 * the dart), NOT_TWICE (edges; the dart), TWO_TO_ONE (involution 1; the first dart whose image an earlier dart had).
 */
zg_refusal zg_import(uint16_t m, const uint16_t *edges, size_t edges_len, const uint16_t *vertices,
                     size_t vertices_len, uint16_t *rows, size_t rows_len) ZG_MUST_LOOK;

/*
 * Takes a base back to the two rows that yield it. Lent to read: rows, 3N. Lent to write: edges, N div 2; vertices,
 * N div 2.
 * Accepted: edges and vertices hold the two rows; zg_import makes the same base of them.
 * Refused DIMENSION (n is not 2), DARTS, LENGTH, STRAYS, NOT_TWICE, NOT_COMMUTING (as zg_check_base), NO_ROWS (no two
 * rows yield the base).
 * After a check: DIMENSION, LENGTH of edges or vertices, NO_ROWS.
 */
zg_refusal zg_export(uint8_t n, uint16_t darts, const uint16_t *rows, size_t rows_len, uint16_t *edges,
                     size_t edges_len, uint16_t *vertices, size_t vertices_len) ZG_MUST_LOOK;

/*
 * Joins kernels level and level + 1 of an accepted pyramid into one. Lent to read: rows, (n+1)N; delta, N. Lent to
 * change: lambda, N. Lent to write: table, (n+1)N.
 * Accepted: height is h - 1; every Lambda above level has fallen by 1. It is an accepted pyramid again; its levels up
 * to level are the same maps, and so are, under numbers one lower, the old ones from level + 2 on. table holds the top
 * level, which is the old one.
 * Refused DIMENSION, DARTS, HEIGHT, LENGTH, STRAYS, NOT_TWICE, NOT_COMMUTING, MARKS, NOT_WHOLE, NOT_REMOVABLE as
 * zg_check, which also says what table then holds; NO_LEVEL (the level asked) where level + 1 is not below h, with
 * level h in table; last NOT_WHOLE where the joined kernel is not made of whole cells of that level (the level asked,
 * the involution that leaves the kernel, the dart), with that level in table. (NOT_REMOVABLE, which would come next,
 * never does.) height is then h as given, and lambda is untouched.
 * After a check: LENGTH of table, NO_LEVEL, NOT_WHOLE of the joined kernel.
 */
zg_height zg_join(uint8_t n, uint16_t darts, uint8_t h, const uint16_t *rows, size_t rows_len,
                  uint8_t *lambda, size_t lambda_len, const uint8_t *delta, size_t delta_len,
                  uint16_t *table, size_t table_len, uint8_t level) ZG_MUST_LOOK;

/*
 * Starts again from a level of an accepted pyramid: it becomes the base. Lent to change: rows, (n+1)N; lambda, N;
 * delta, N. Lent to write: table, (n+1)N; old, N.
 * Accepted: darts, the number M of darts on the level, and h, the height less the level. The level's darts are numbered
 * from 0 in rising order. The front of rows, (n+1)M entries, has the level's rows of M entries, one after the other;
 * the front of lambda, M entries, Lambda less the level; those of delta and old the darts' Delta and old numbers.
 * Behind them stands 65,535 in rows and old, ZG_STAY in lambda and delta. table holds the explicit level h as it was,
 * in the old numbers.
 * The new base doesn't know which of its boundaries belong to one region: a region with several has a name for each
 * from now on. Who needs the names takes them first, by zg_regions, and carries them over: names[old[d]] is that of
 * dart d.
 * Refused DIMENSION, DARTS, HEIGHT, LENGTH, STRAYS, NOT_TWICE, NOT_COMMUTING, MARKS, NOT_WHOLE, NOT_REMOVABLE as
 * zg_check, which also says what table then holds; then NO_LEVEL; then DARTS for a level that has no dart, both with
 * level h in table. All else lent is untouched in a refusal.
 * After a check: LENGTH of table or old, NO_LEVEL, DARTS.
 */
zg_base zg_rebase(uint8_t n, uint16_t darts, uint8_t h, uint16_t *rows, size_t rows_len, uint8_t *lambda,
                  size_t lambda_len, uint8_t *delta, size_t delta_len, uint16_t *table, size_t table_len,
                  uint8_t level, uint16_t *old, size_t old_len) ZG_MUST_LOOK;

#ifdef __cplusplus
}
#endif

#endif
