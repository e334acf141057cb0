/* Hands one net to the engine, reads its answers line by line, and shows a refusal by its numbers. */
#include "answers.h"
#include "dagrelk.h"

#include <stdlib.h>

/* A driver, two sinks, the allowance 0/1, three edges of which the last closes a loop, the joined tree, a share, and the rows. */
static const char job[] = "W,plane\n"
                          "P,0,0,0\n"
                          "P,4,3,0\n"
                          "P,5,1,0\n"
                          "A,0,1\n"
                          "E,0,1\n"
                          "E,0,2\n"
                          "E,1,2\n"
                          "J\n"
                          "S\n"
                          "T\n";

static const char wanted[] = "ok,1,0\n"
                             "ok,2,0\n"
                             "ok,3,1\n"
                             "ok,4,2\n"
                             "ok,5,0\n"
                             "ok,6,7\n"
                             "ok,7,6\n"
                             "no,8,n,9,0\n"
                             "ok,9,13\n"
                             "ok,10,5\n"
                             "N,0,0,0,0,0,0\n"
                             "N,1,3,4,3,0,2\n"
                             "N,2,3,5,1,0,1\n"
                             "N,3,0,4,1,0,5\n"
                             "ok,11,4\n";

static _Noreturn void fail(const char *what)
{
    fprintf(stderr, "net: %s\n", what);
    exit(1);
}

/* Who refuses, by the letter of the layer. */
static const char *layer_name(char layer)
{
    switch (layer) {
    case DAGRELK_LAYER_SPACE: return "the space";
    case DAGRELK_LAYER_NET: return "the net";
    case DAGRELK_LAYER_TEXT: return "the text";
    default: return "nobody we know";
    }
}

static void show(const struct answer *answer)
{
    switch (answer->kind) {
    case ANSWER_OK:
        printf("line %lu: %llu\n", answer->line, answer->value[0]);
        break;
    case ANSWER_ROW:
        printf("  row %u at %d,%d,%d hangs on row %u, length %llu\n", answer->row, answer->x, answer->y, answer->level, answer->parent,
               answer->length);
        break;
    case ANSWER_NO:
        printf("line %lu: refused by %s, number %u", answer->line, layer_name(answer->layer), answer->number);
        if (answer->field != 0)
            printf(", field %u", answer->field);
        if (answer->layer == DAGRELK_LAYER_NET && answer->number == DAGRELK_JOINED)
            printf(": a path of edges joins the two nodes already");
        printf("\n");
        break;
    }
}

/* Runs the net and shows each answer. */
static void whole(void)
{
    uint8_t out[1024];
    struct dagrelk_outcome ran = dagrelk_run((const uint8_t *)job, sizeof job - 1, out, sizeof out);
    struct answer answer;
    unsigned refused = 0, rows = 0;
    size_t at = 0;
    int read;

    if (ran.stop != DAGRELK_ANSWERED || ran.lines != 11)
        fail("not every line was answered");
    while ((read = next_answer(out, ran.bytes, &at, &answer)) == 1) {
        show(&answer);
        refused += answer.kind == ANSWER_NO;
        rows += answer.kind == ANSWER_ROW;
    }
    if (read != 0)
        fail("a line is no answer");
    if (refused != 1 || rows != 4)
        fail("not one refusal and four rows");
    if (ran.bytes != sizeof wanted - 1 || memcmp(out, wanted, ran.bytes) != 0)
        fail("not the answers that were wanted");
}

/* Runs the net with an output of every size: a run writes whole answers only, and nothing past them. */
static void short_outputs(void)
{
    uint8_t out[sizeof wanted];
    size_t size, k;

    for (size = 0; size < sizeof wanted; size++) {
        struct dagrelk_outcome ran;
        memset(out, '#', sizeof out);
        ran = dagrelk_run((const uint8_t *)job, sizeof job - 1, out, size);
        if (ran.stop != (size < sizeof wanted - 1 ? DAGRELK_NO_ROOM : DAGRELK_ANSWERED))
            fail("a short output: the wrong stop");
        if (ran.bytes > size || memcmp(out, wanted, ran.bytes) != 0)
            fail("a short output: not the first answers");
        if (ran.bytes > 0 && out[ran.bytes - 1] != '\n')
            fail("a short output: half an answer");
        for (k = ran.bytes; k < sizeof out; k++)
            if (out[k] != '#')
                fail("a short output: a byte past the counted ones changed");
    }
    printf("the same with outputs of 0 to %zu bytes\n", sizeof wanted - 1);
}

int main(void)
{
    whole();
    short_outputs();
    printf("net: done\n");
    return 0;
}
