// Eight bits by themselves: times the library's call against the same rule in C and against naive Rust, and holds the first two
// to the rule read bit by bit.
#include "bench.h"
#include "draw.h"
#include "eight_yardstick.h"
#include "naive.h"
#include "room.h"
#include "timing.h"
#include <mitongory.h>
#include <stdio.h>
#include <stdlib.h>
#include <string.h>

enum { CALLS = 1 << 16, CELLS = MITONGORY_EIGHT_CELLS, LIMIT = 1 << 30 };

typedef uint32_t (*reader)(const uint8_t *text, size_t text_len, uint64_t n, uint32_t place, uint64_t *answer,
                           size_t answer_len);

// The call of an earlier archive, where one was linked: it has the same parameters, and gives the byte alone.
uint32_t before_eight_bits(const uint8_t *text, size_t text_len, uint64_t n, uint32_t place, uint64_t *answer,
                           size_t answer_len) __attribute__((weak));

// Calls at many places, and a sum of what each contender said there.
struct job {
    const uint8_t *text;
    uint64_t n;
    uint32_t places[CALLS];
    reader readers[SIDES];
    uint64_t weight; // of the second answer cell in the sum: 0 where a contender does not store it
    uint64_t sum, sums[SIDES];
    uint32_t refused; // whether a call of the last contender was
};

// Where the loop lies that makes the calls can move the time of so short a call by a third. So there are eight of them, each
// for an eighth of the places and with another number of bytes before it.
enum { LOOPS = 8, EACH = CALLS / LOOPS };

#define LOOP(skipped)                                                                                                  \
    static __attribute__((noinline, aligned(64))) void calls_##skipped(struct job *job, reader read, uint32_t from) {  \
        uint64_t sum = 0, answer[CELLS] = {0};                                                                         \
        uint32_t refused = 0;                                                                                          \
        __asm__ volatile(".skip " #skipped ", 0x90");                                                                  \
        for (uint32_t i = from; i < from + EACH; i++) {                                                                \
            refused |= read(job->text, job->n / 8, job->n, job->places[i], answer, CELLS);                             \
            sum += (answer[0] + job->weight * answer[1]) * (2 * i + 1);                                                \
        }                                                                                                              \
        job->sum += sum, job->refused |= refused;                                                                      \
    }
LOOP(1)
LOOP(5)
LOOP(11)
LOOP(17)
LOOP(23)
LOOP(29)
LOOP(37)
LOOP(43)

static void run(void *of, int contender) {
    static void (*const loops[LOOPS])(struct job *, reader, uint32_t) = {calls_1,  calls_5,  calls_11, calls_17,
                                                                         calls_23, calls_29, calls_37, calls_43};
    struct job *job = of;
    job->sum = 0, job->refused = 0;
    for (uint32_t k = 0; k < LOOPS; k++) loops[k](job, job->readers[contender], k * EACH);
    job->sums[contender] = job->sum;
}

static void look(void *of, int contender) {
    struct job *job = of;
    if (job->refused || job->sums[contender] != job->sums[0]) {
        printf("eight bits: contender %d differs\n", contender);
        exit(1);
    }
}

enum kind { IN_A_ROW, ANYWHERE, LAST_PLACES, PAST_THE_END, KINDS };

static const char *const kinds[KINDS] = {"in a row", "anywhere inside", "the last eight", "from the end on"};

static void draw_places(struct job *job, enum kind kind) {
    for (uint32_t i = 0; i < CALLS; i++) switch (kind) {
        case IN_A_ROW: job->places[i] = i; break;
        case ANYWHERE: job->places[i] = (uint32_t)below(job->n - 7); break;
        case LAST_PLACES: job->places[i] = (uint32_t)(job->n - 8 + below(8)); break;
        default: job->places[i] = (uint32_t)(job->n + below(UINT32_MAX - job->n)); break;
        }
}

static struct job *draw_job(void) {
    struct job *job = malloc(sizeof *job);
    uint8_t *text = malloc(2 * CALLS / 8);
    job->n = 2 * CALLS;
    draw_text(text, job->n, 50);
    job->text = text;
    return job;
}

static void free_job(struct job *job) { free((void *)job->text), free(job); }

void time_eights(void) {
    struct job *job = draw_job();
    memcpy(job->readers, (reader[SIDES]){mitongory_eight_bits, c_eight_bits, naive_eight_bits}, sizeof job->readers);
    job->weight = 1;
    head(" places | library | C | naive Rust | library / C | naive / library ");
    for (int kind = 0; kind < KINDS; kind++) {
        progress("eight bits: %s", kinds[kind]);
        draw_places(job, kind);
        double best[SIDES];
        least((struct race){run, look, job, SIDES}, 1, 400, best);
        for (int k = 0; k < SIDES; k++) best[k] /= CALLS;
        row(kinds[kind], best);
    }
    free_job(job);
}

// Inside the text, where the call before the change gave the byte too.
void time_eights_before(void) {
    struct job *job = draw_job();
    if (!before_eight_bits) exit(2);
    memcpy(job->readers, (reader[SIDES]){before_eight_bits, mitongory_eight_bits}, sizeof job->readers);
    job->weight = 0;
    head(" eight bits | before | now | now / before ");
    for (int kind = IN_A_ROW; kind <= ANYWHERE; kind++) {
        progress("before and now: eight bits, %s", kinds[kind]);
        draw_places(job, kind);
        double best[SIDES];
        least((struct race){run, look, job, 2}, 1, 400, best);
        printf("| %s | %.3g | %.3g | %.2f |\n", kinds[kind], best[0] / CALLS, best[1] / CALLS, best[1] / best[0]);
    }
    free_job(job);
}

// The rule as document 02 has it.
static uint32_t rule(const uint8_t *text, size_t text_len, uint64_t n, uint64_t p, uint64_t *answer, size_t answer_len) {
    if (answer_len < CELLS) return MITONGORY_ANSWER_CELLS_MISSING;
    if (n > LIMIT) return 1;
    if (text_len * 8 < n) return 2;
    answer[0] = 0, answer[1] = 0;
    for (unsigned j = 0; j < 8; j++) {
        answer[0] = answer[0] * 2 + (p + j < n ? bit_at(text, p + j) : 0);
        answer[1] += p + j < n;
    }
    return 0;
}

long check_eights(long rounds) {
    static const reader readers[] = {mitongory_eight_bits, c_eight_bits};
    uint8_t *texts = room(), *answers = room();
    long calls = 0;
    for (long r = 0; r < rounds; r++) {
        size_t bytes = below(12), cells = below(20) ? CELLS + below(2) : below(CELLS);
        uint64_t n = below(30) ? below(8 * bytes + (below(8) ? 1 : 5)) : below(2) ? LIMIT - 1 + below(4) : draw() >> below(64);
        uint8_t *text = lent(texts, bytes, below(2));
        for (size_t i = 0; i < bytes; i++) text[i] = below(3) ? (uint8_t)draw() : 0xff;
        uint64_t *answer = lent(answers, cells * sizeof *answer, below(2)), want[CELLS + 1], cell = draw();
        for (int k = 0; k < 20; k++) {
            uint32_t place = below(4) ? (uint32_t)below(8 * bytes + 12) : UINT32_MAX - (uint32_t)below(12);
            for (size_t i = 0; i <= CELLS; i++) want[i] = cell;
            uint32_t said = rule(text, bytes, n, place, want, cells);
            for (size_t who = 0; who < sizeof readers / sizeof *readers; who++, calls++) {
                for (size_t i = 0; i < cells; i++) answer[i] = cell;
                if (readers[who](text, bytes, n, place, answer, cells) != said || memcmp(answer, want, cells * sizeof *answer)) {
                    printf("eight bits, round %ld: n %lu, place %u: contender %zu differs\n", r, n, place, who);
                    exit(1);
                }
            }
        }
    }
    return calls;
}
