/* Answers case lines from standard input through the interface, in the format of the vectors. */
#define _GNU_SOURCE
#include "call.h"

#include <stdio.h>
#include <stdlib.h>
#include <string.h>

static unsigned long line_number;
static char *rest; /* of the line being read */

static void bad_line(const char *what)
{
    fprintf(stderr, "line %lu: %s\n", line_number, what);
    exit(2);
}

static unsigned long long number(unsigned long long most)
{
    char *end;
    unsigned long long v = strtoull(rest, &end, 10);
    if (end == rest)
        bad_line("a number is missing");
    if (v > most)
        bad_line("a number is too large for its type");
    rest = end;
    return v;
}

static void *list(size_t *len, size_t size)
{
    *len = number(1 << 20);
    unsigned char *memory = malloc(*len * size + 1);
    if (!memory)
        bad_line("no memory");
    for (size_t k = 0; k < *len; k++) {
        unsigned long long v = number(~0ull >> (64 - 8 * size));
        if (size == 1)
            memory[k] = (uint8_t)v;
        else if (size == 2)
            ((uint16_t *)memory)[k] = (uint16_t)v;
        else if (size == 4)
            ((uint32_t *)memory)[k] = (uint32_t)v;
        else
            ((uint64_t *)memory)[k] = v;
    }
    return memory;
}

static int32_t *sums_list(size_t *len)
{
    *len = number(1 << 20);
    int32_t *sums = malloc(*len * sizeof *sums + 1);
    if (!sums)
        bad_line("no memory");
    for (size_t k = 0; k < *len; k++) {
        char *end;
        long long v = strtoll(rest, &end, 10);
        if (end == rest || v < INT32_MIN || v > INT32_MAX)
            bad_line("a sum is missing or too large for its type");
        rest = end;
        sums[k] = (int32_t)v;
    }
    return sums;
}

static void read_item(struct call *c, char item)
{
    switch (item) {
    case 'n': c->n = (unsigned)number(255); break;
    case 'D': c->darts = (unsigned)number(65535); break;
    case 'h': c->h = (unsigned)number(255); break;
    case 'l': c->level = (unsigned)number(255); break;
    case 'i': c->involution = (unsigned)number(255); break;
    case 'd': c->dart = (unsigned)number(65535); break;
    case 'R': c->rows = list(&c->rows_len, 2); break;
    case 'T': c->table = list(&c->table_len, 2); break;
    case 'L': c->lambda = list(&c->lambda_len, 1); break;
    case 'E': c->delta = list(&c->delta_len, 1); break;
    case 'M': c->marks = list(&c->marks_len, 1); break;
    case 'B': c->bytes = list(&c->bytes_len, 1); break;
    case 'W': c->words = list(&c->words_len, 8); break;
    case 'C': c->cells = list(&c->cells_len, 2); break;
    case 'S': c->sums = sums_list(&c->sums_len); break;
    case 'P': c->edges = list(&c->edges_len, 2); break;
    case 'V': c->vertices = list(&c->vertices_len, 2); break;
    case 'N': c->names = list(&c->names_len, 2); break;
    case 'O': c->old = list(&c->old_len, 2); break;
    case 'A': c->tables = list(&c->tables_len, 2); break;
    case 'K': c->counts = list(&c->counts_len, 4); break;
    case 'G': c->since = list(&c->since_len, 1); break;
    }
}

static void read_call(struct call *c, char *line)
{
    size_t name = strcspn(line, " \n");
    int job = 0;
    while (job < JOBS && (strlen(job_names[job]) != name || strncmp(job_names[job], line, name)))
        job++;
    if (job == JOBS)
        bad_line("unknown job");
    memset(c, 0, sizeof *c);
    c->job = (enum job)job;
    rest = line + name;
    for (const char *item = case_forms[job]; *item; item++)
        read_item(c, *item);
    if (rest[strspn(rest, " \n")])
        bad_line("too long");
}

static void print_u8(const uint8_t *list, size_t len)
{
    printf(" %zu", len);
    for (size_t k = 0; k < len; k++)
        printf(" %u", list[k]);
}

static void print_u16(const uint16_t *list, size_t len)
{
    printf(" %zu", len);
    for (size_t k = 0; k < len; k++)
        printf(" %u", list[k]);
}

static void print_u32(const uint32_t *list, size_t len)
{
    printf(" %zu", len);
    for (size_t k = 0; k < len; k++)
        printf(" %u", list[k]);
}

static void print_u64(const uint64_t *list, size_t len)
{
    printf(" %zu", len);
    for (size_t k = 0; k < len; k++)
        printf(" %llu", (unsigned long long)list[k]);
}

static void print_i32(const int32_t *list, size_t len)
{
    printf(" %zu", len);
    for (size_t k = 0; k < len; k++)
        printf(" %d", list[k]);
}

static void print_answer(const struct call *c)
{
    if (c->job == LEVELS || c->job == CENSUS_PROGRAM) {
        puts(c->text);
        return;
    }
    printf("%u %u %u %u", c->refusal[0], c->refusal[1], c->refusal[2], c->refusal[3]);
    for (unsigned k = 0; k < c->founds; k++)
        printf(" %u", c->found[k]);
    for (const char *item = answer_forms[c->job]; *item; item++)
        switch (*item) {
        case 'R': print_u16(c->rows, c->rows_len); break;
        case 'T': print_u16(c->table, c->table_len); break;
        case 'L': print_u8(c->lambda, c->lambda_len); break;
        case 'E': print_u8(c->delta, c->delta_len); break;
        case 'M': print_u8(c->marks, c->marks_len); break;
        case 'B': print_u8(c->bytes, c->bytes_len); break;
        case 'W': print_u64(c->words, c->words_len); break;
        case 'F': printf(" %016llx", (unsigned long long)c->factor); break;
        case 'C': print_u16(c->cells, c->cells_len); break;
        case 'S': print_i32(c->sums, c->sums_len); break;
        case 'P': print_u16(c->edges, c->edges_len); break;
        case 'V': print_u16(c->vertices, c->vertices_len); break;
        case 'N': print_u16(c->names, c->names_len); break;
        case 'O': print_u16(c->old, c->old_len); break;
        case 'A': print_u16(c->tables, c->tables_len); break;
        case 'K': print_u32(c->counts, c->counts_len); break;
        case 'G': print_u8(c->since, c->since_len); break;
        }
    putchar('\n');
}

static void free_call(struct call *c)
{
    free(c->rows);
    free(c->table);
    free(c->edges);
    free(c->vertices);
    free(c->lambda);
    free(c->delta);
    free(c->marks);
    free(c->bytes);
    free(c->words);
    free(c->cells);
    free(c->sums);
    free(c->names);
    free(c->old);
    free(c->tables);
    free(c->counts);
    free(c->since);
}

int main(void)
{
    char *line = NULL;
    size_t room = 0;
    struct call c;
    while (getline(&line, &room, stdin) > 0) {
        line_number++;
        read_call(&c, line);
        call_job(&c);
        print_answer(&c);
        free_call(&c);
    }
    free(line);
    return fflush(stdout) || ferror(stdout);
}
