/* What the comparing program's parts share. A case is a function of the seed, its group and its number: what it draws begins anew
 * with each. */
#ifndef COMPARE_H
#define COMPARE_H

#include <stddef.h>
#include <stdint.h>

/* a group of cases: its names, how many, whether another seed draws others, the case of a number, and what the part's own code needs */
struct group {
    const char *subject, *part;
    uint32_t cases;
    int draws;
    void (*one)(const struct group *g, uint32_t i);
    uint32_t code;
};

/* the groups of each part, ended by one without a name */
extern const struct group word_groups[], state_groups[], run_groups[], float_groups[], formula_groups[], sheet_groups[];

/* counts a case; whether it is to be shown: the first of its group that differs */
int counted(int same);

/* what a case that differs was given and what came of it, in hex */
void show_number(const char *what, uint64_t number);
void show_bytes(const char *what, const uint8_t *bytes, size_t n);
void show_both(const char *what, const uint8_t *ours, const uint8_t *second, size_t n);

/* one event on both sides, counted and shown */
void compare_event(uint32_t mode, uint32_t rule, const uint8_t *state, size_t length, uint32_t kind, uint8_t byte);

/* one run on both sides; of 9 bytes of report, and of another number */
void compare_run(uint32_t mode, uint32_t rule, const uint8_t *state, size_t length, const uint8_t *file, size_t n, size_t room, size_t report);

/* any of the numbers of a mode or a rule, and two that are none, of which one is 1 in its low bits */
uint32_t choice(uint32_t i);

/* one or two of n bytes changed, the first of them to a small number */
void damage(uint8_t *bytes, size_t n);

#endif
