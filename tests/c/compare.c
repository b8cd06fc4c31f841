/* The libraries beside the second opinion: each case is given to both, and the answer and every byte of every lent slice are compared,
 * guards too. Prints a line for each group: its names, its cases, how many differ; before it the first that differs, in hex. Last
 * 'N cases, M differ'; ends with 1 if M is not 0.
 *   compare                  every case of every group, from the fixed seed
 *   compare --every N        each N-th case of every group
 *   compare --deep MINUTES   the groups that draw, with seed after seed, for so many minutes: a line for each seed, and for each
 *                            group that differs */
#include <stdio.h>
#include <string.h>
#include <time.h>

#include "compare.h"
#include "drawn.h"

static const struct group *const parts[] = { word_groups, state_groups, run_groups, float_groups, formula_groups, sheet_groups };

static const struct group *now;
static uint32_t now_case;
static uint64_t done, differing, all_done, all_differing, first_seed = 9511;

int counted(int same)
{
    done++;
    if (same)
        return 0;
    differing++;
    if (differing > 1)
        return 0;
    printf("differs: %s %s, case %u, seed %llu\n", now->subject, now->part, (unsigned)now_case, (unsigned long long)first_seed);
    return 1;
}

void show_number(const char *what, uint64_t number) { printf("  %s %llX\n", what, (unsigned long long)number); }

/* the bytes from a place on, at most 512 of them */
static void show_from(const char *what, const uint8_t *bytes, size_t n, size_t from)
{
    printf("  %s, %u bytes", what, (unsigned)n);
    if (from)
        printf(", from %u on", (unsigned)from);
    printf(":");
    for (size_t i = from; i < n && i < from + 512; i++)
        printf(" %02X", bytes[i]);
    printf("%s\n", n > from + 512 ? " .." : "");
}

void show_bytes(const char *what, const uint8_t *bytes, size_t n) { show_from(what, bytes, n, 0); }

void show_both(const char *what, const uint8_t *ours, const uint8_t *second, size_t n)
{
    size_t first = 0;
    while (first < n && ours[first] == second[first])
        first++;
    if (first == n || n <= 512)
        first = 0;
    printf("  %s by the library", what);
    show_from("", ours, n, first);
    printf("  %s by the second ", what);
    show_from("", second, n, first);
}

uint32_t choice(uint32_t i) { return i % 4 == 3 ? 4294967041 : i % 4; }

void damage(uint8_t *bytes, size_t n)
{
    if (n == 0)
        return;
    bytes[below((uint32_t)n)] = (uint8_t)below(24);
    if (below(2))
        bytes[below((uint32_t)n)] = (uint8_t)drawn();
}

/* what a case draws from: its group's names, its number, the seed, mixed (splitmix64) */
static void begin(uint32_t i)
{
    uint64_t x = first_seed;
    for (const char *p = now->subject; *p; p++)
        x = x * 31 + (uint8_t)*p;
    for (const char *p = now->part; *p; p++)
        x = x * 31 + (uint8_t)*p;
    x += ((uint64_t)i + 1) * 0x9E3779B97F4A7C15;
    x = (x ^ x >> 30) * 0xBF58476D1CE4E5B9;
    x = (x ^ x >> 27) * 0x94D049BB133111EB;
    seed = (x ^ x >> 31) | 1;
    now_case = i;
}

static void run_group(const struct group *g, uint32_t every, int quiet)
{
    now = g;
    done = differing = 0;
    for (uint32_t i = 0; i < g->cases; i += every) {
        begin(i);
        g->one(g, i);
    }
    if (!quiet || differing)
        printf("%s %s %llu %llu\n", g->subject, g->part, (unsigned long long)done, (unsigned long long)differing);
    all_done += done;
    all_differing += differing;
}

static void run_all(uint32_t every, int only_drawn, int quiet)
{
    for (size_t k = 0; k < sizeof parts / sizeof parts[0]; k++)
        for (const struct group *g = parts[k]; g->subject; g++)
            if (g->draws || !only_drawn)
                run_group(g, every, quiet);
}

static void run_deep(uint32_t minutes)
{
    time_t end = time(NULL) + 60 * (time_t)minutes;
    while (time(NULL) < end) {
        uint64_t before = all_done;
        first_seed++;
        run_all(1, 1, 1);
        printf("seed %llu: %llu cases, %llu differ so far\n", (unsigned long long)first_seed, (unsigned long long)(all_done - before),
               (unsigned long long)all_differing);
        fflush(NULL);
    }
}

static uint32_t number(const char *text)
{
    uint32_t n = 0;
    for (; *text >= '0' && *text <= '9'; text++)
        n = 10 * n + (uint32_t)(*text - '0');
    return *text ? 0 : n;
}

int main(int count, char **words)
{
    uint32_t n = count == 3 ? number(words[2]) : 0;
    if (count == 1)
        run_all(1, 0, 0);
    else if (n > 0 && strcmp(words[1], "--every") == 0)
        run_all(n, 0, 0);
    else if (n > 0 && strcmp(words[1], "--deep") == 0)
        run_deep(n);
    else
        return 2;
    printf("%llu cases, %llu differ\n", (unsigned long long)all_done, (unsigned long long)all_differing);
    return all_differing != 0;
}
