/* The skeleton of a card: see card.h. */
#include "card.h"

/* A header whose lengths are size_t compiles and links on a processor of 32 bits and is wrong there. The call is declared
 * here once more: with such a header this line does not compile. */
uint32_t pundaliket_event(uint32_t mode, uint32_t rule, uint8_t *state, uint64_t state_length, uint32_t kind, uint8_t byte);

/* A check with one byte more. */
static uint16_t checked(uint16_t check, uint8_t byte)
{
    uint8_t x = (uint8_t)(check >> 8 ^ byte);
    x ^= x >> 4;
    return (uint16_t)((uint32_t)check << 8 ^ (uint32_t)x << 12 ^ (uint32_t)x << 5 ^ x);
}

/* The check of a state in the place with this mark. */
static uint16_t check_of(uint8_t mark, const uint8_t *state)
{
    uint16_t check = checked(0xFFFF, mark);
    for (int i = 0; i < PUNDALIKET_STATE_BYTES; i++)
        check = checked(check, state[i]);
    return check;
}

/* The place with a mark. */
static volatile struct card_place *place_of(volatile struct card_memory *memory, uint8_t mark)
{
    return mark == CARD_FIRST ? &memory->first : &memory->second;
}

/* The state that counts, copied out; 0 where the mark is neither or the check does not fit. */
static int take(volatile struct card_memory *memory, uint8_t *state)
{
    uint8_t mark = memory->counts;
    const volatile struct card_place *place = place_of(memory, mark);
    uint16_t check;
    if (mark != CARD_FIRST && mark != CARD_SECOND)
        return 0;
    for (int i = 0; i < PUNDALIKET_STATE_BYTES; i++)
        state[i] = place->state[i];
    check = check_of(mark, state);
    return place->check[0] == check >> 8 && place->check[1] == (check & 0xFF);
}

/* The other place is written, then it counts. On a processor that holds writes back, the builder adds what makes them
 * reach the memory in this order, before and after the last line. */
static void keep(volatile struct card_memory *memory, const uint8_t *state)
{
    uint8_t mark = memory->counts == CARD_FIRST ? CARD_SECOND : CARD_FIRST;
    volatile struct card_place *place = place_of(memory, mark);
    uint16_t check = check_of(mark, state);
    for (int i = 0; i < PUNDALIKET_STATE_BYTES; i++)
        place->state[i] = state[i];
    place->check[0] = (uint8_t)(check >> 8);
    place->check[1] = (uint8_t)check;
    memory->counts = mark;
}

/* The state after a reset, for memory that holds none. */
static struct card_answer start_anew(volatile struct card_memory *memory)
{
    static const uint8_t zeros[PUNDALIKET_STATE_BYTES] = { 0 };
    struct card_answer answer = { 0, 0, PUNDALIKET_BAD_STATE };
    keep(memory, zeros);
    return answer;
}

/* One event on the kept state. */
static struct card_answer done(volatile struct card_memory *memory, uint32_t kind, uint8_t byte)
{
    uint8_t state[PUNDALIKET_STATE_BYTES];
    struct card_answer answer;
    uint32_t said;
    if (!take(memory, state))
        return start_anew(memory);
    said = pundaliket_event(PUNDALIKET_AM9511A, PUNDALIKET_CUT, state, sizeof state, kind, byte);
    answer.refusal = (uint8_t)(said >> 8);
    if (answer.refusal == PUNDALIKET_BAD_STATE)
        return start_anew(memory);
    if (answer.refusal == PUNDALIKET_DONE && kind != PUNDALIKET_STATUS)
        keep(memory, state);
    answer.data = (uint8_t)said;
    answer.service = state[PUNDALIKET_AT_SERVICE];
    return answer;
}

struct card_answer card_power_up(volatile struct card_memory *memory)
{
    struct card_answer answer = done(memory, PUNDALIKET_STATUS, 0);
    answer.data = 0;
    return answer;
}

struct card_answer card_cycle(volatile struct card_memory *memory, enum card_cycle cycle, uint8_t byte)
{
    static const uint8_t kinds[] = {
        PUNDALIKET_PUSH, PUNDALIKET_POP, PUNDALIKET_COMMAND, PUNDALIKET_STATUS, PUNDALIKET_RESET, PUNDALIKET_ACKNOWLEDGE,
    };
    return done(memory, kinds[cycle], byte);
}
