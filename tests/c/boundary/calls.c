#include "calls.h"

#include <mitongory.h>

#include "check.h"
#include "lend.h"

/* Bytes of an element of the buffer that is read, and of the one that is written (0: there is none). */
static const struct {
    size_t input, output;
} element[] = {
    {sizeof(uint8_t), 0},                 /* HASH_VALUE */
    {sizeof(uint32_t), 0},                /* LIST_SIZE */
    {sizeof(uint32_t), sizeof(uint8_t)},  /* LIST_WRITE */
    {sizeof(uint8_t), sizeof(uint32_t)}}; /* LIST_READ */

static uint32_t result_of(const struct call *c, const void *input, const void *fixed, void *output, uint64_t *answer)
{
    switch (c->function) {
    case HASH_VALUE:
        return mitongory_hash_value(input, c->input_len, fixed, c->fixed_len, c->bits, (uint8_t)c->number, answer,
                                    c->answer_len);
    case LIST_SIZE:
        return mitongory_list_size(input, c->input_len, answer, c->answer_len);
    case LIST_WRITE:
        return mitongory_list_write(input, c->input_len, output, c->output_len, answer, c->answer_len);
    case LIST_READ:
        return mitongory_list_read(input, c->input_len, output, c->output_len, answer, c->answer_len);
    }
    return UINT32_MAX;
}

void calling(const char *name, struct call c, uint32_t result, uint64_t told, const void *front)
{
    const size_t read = element[c.function].input, written = element[c.function].output;
    const int accepted = result == MITONGORY_OK;
    int side;
    about(name);
    for (side = AT_START; side < SIDES; side++) {
        struct lent input = lend(c.input_len * read, c.input, (enum side)side, ONLY_READ);
        struct lent fixed = lend(c.fixed_len, c.fixed, (enum side)side, ONLY_READ);
        struct lent output = lend(c.output_len * written, NULL, (enum side)side, WRITTEN);
        struct lent answer = lend(c.answer_len * sizeof told, NULL, (enum side)side, WRITTEN);
        check(result_of(&c, at(&input), at(&fixed), at(&output), at(&answer)) == result, "result");
        check(holds(&answer, &told, accepted ? sizeof told : 0), "answer");
        check(stays(&input) && stays(&fixed), "the buffers that are read");
        if (written > 0)
            check(holds(&output, front, accepted ? told * written : 0), "the buffer that is written");
        give_back(&input);
        give_back(&fixed);
        give_back(&output);
        give_back(&answer);
    }
}
