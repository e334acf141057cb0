/*
 * Runs many nets in two threads at once and compares their answers with those of one thread. Then runs a daisy chain of 256 pins and
 * 256 Steiner points in a thread with a stack of 64 KiB.
 */
#define _GNU_SOURCE
#include "answers.h"
#include "dagrelk.h"

#include <pthread.h>
#include <stdarg.h>
#include <stdlib.h>
#include <sys/mman.h>
#include <unistd.h>

#ifndef NETS
#define NETS 200
#endif

static _Noreturn void fail(const char *what)
{
    fprintf(stderr, "threads: %s\n", what);
    exit(1);
}

/* ---- a job that is written line by line ------------------------------------------------------------------------------------------- */

struct job {
    char text[32768];
    size_t length;
    size_t lines;
};

static void line(struct job *job, const char *format, ...)
{
    size_t left = sizeof job->text - job->length;
    va_list values;
    int wrote;

    va_start(values, format);
    wrote = vsnprintf(job->text + job->length, left, format, values);
    va_end(values);
    if (wrote < 0 || (size_t)wrote + 1 >= left)
        fail("a job is too long");
    job->length += (size_t)wrote;
    job->text[job->length++] = '\n';
    job->lines++;
}

/* ---- many nets in two threads ----------------------------------------------------------------------------------------------------- */

struct net {
    struct job job;
    uint8_t out[8192];
    struct dagrelk_outcome ran;
};

static struct net nets[NETS];

/* A number below `below`, by a fixed rule, so that every run has the same nets. */
static unsigned chance(uint32_t *state, unsigned below)
{
    *state = *state * 1664525u + 1013904223u;
    return (*state >> 8) % below;
}

static void write_net(struct job *job, uint32_t seed)
{
    static const char *const spaces[] = {"W,plane", "W,air", "W,plane,7", "W,air,7"};
    uint32_t state = seed;
    unsigned space = chance(&state, 4), pins = 2 + chance(&state, 20), k;

    line(job, "%s", spaces[space]);
    for (k = 0; k < pins; k++) {
        int x = (int)chance(&state, 101) - 50, y = (int)chance(&state, 101) - 50;
        line(job, "P,%d,%d,%u", x, y, space >= 2 ? chance(&state, 3) : 0);
    }
    line(job, "A,%u,4", chance(&state, 3));
    line(job, "M");
    line(job, "D");
    line(job, "J"); /* refused over air */
    for (k = 0; k < 4; k++) {
        line(job, "H");
        line(job, "S");
    }
    line(job, "X");
    line(job, "K,1");
    line(job, "T");
}

static void run_net(const struct net *net, uint8_t *out, size_t out_len, struct dagrelk_outcome *ran)
{
    memset(out, '#', out_len);
    *ran = dagrelk_run((const uint8_t *)net->job.text, net->job.length, out, out_len);
}

/* Runs every net, upward or downward, and counts those that are answered otherwise than before. */
static void *again(void *downward)
{
    uint8_t out[sizeof nets[0].out];
    size_t differ = 0, k;

    for (k = 0; k < NETS; k++) {
        const struct net *net = &nets[downward ? NETS - 1 - k : k];
        struct dagrelk_outcome ran;
        run_net(net, out, sizeof out, &ran);
        differ += ran.lines != net->ran.lines || ran.bytes != net->ran.bytes || ran.stop != net->ran.stop ||
                  memcmp(out, net->out, sizeof out) != 0;
    }
    return (void *)differ;
}

static void two_threads(void)
{
    pthread_t up, down;
    void *differ_up, *differ_down;
    size_t bytes = 0, k;

    for (k = 0; k < NETS; k++) {
        write_net(&nets[k].job, (uint32_t)k);
        run_net(&nets[k], nets[k].out, sizeof nets[k].out, &nets[k].ran);
        if (nets[k].ran.stop != DAGRELK_ANSWERED || nets[k].ran.lines != nets[k].job.lines)
            fail("a net was not answered whole");
        bytes += nets[k].ran.bytes;
    }
    if (pthread_create(&up, NULL, again, NULL) != 0 || pthread_create(&down, NULL, again, &up) != 0)
        fail("no thread");
    pthread_join(up, &differ_up);
    pthread_join(down, &differ_down);
    if (differ_up != NULL || differ_down != NULL)
        fail("two threads answer otherwise than one");
    printf("%d nets in two threads at once: the same %zu bytes of answers as in one\n", NETS, bytes);
}

/* ---- a daisy chain under a small stack -------------------------------------------------------------------------------------------- */

#define STACK 65536
#define MOVES 160 /* turns of one hook and one share; in the last ones both are refused */

/* What the chain is answered; worked out by a second engine. */
#define STRAIGHT_WIRE 23477
#define JOINED_WIRE 8170
#define HOOKS 78
#define SHARES 68
#define SAVED 886
#define CHAIN_ROWS 645

static struct job chain;
static uint8_t chain_out[65536];
static struct dagrelk_outcome chain_ran;
static size_t straight_line, joined_line;

/*
 * The pins go to and fro over a square, 16 in each of 16 rows, about 20 apart. Behind each pin is a Steiner point, about halfway to the
 * next pin. The chain of edges goes pin, point, pin, point, and is 512 nodes long.
 */
static void write_chain(void)
{
    int k;

    line(&chain, "W,plane");
    for (k = 0; k < 256; k++) {
        int row = k / 16, column = row % 2 ? 15 - k % 16 : k % 16;
        line(&chain, "P,%d,%d,0", 20 * column + 7 * k % 9, 20 * row + 5 * k % 9);
    }
    line(&chain, "A,1,4");
    for (k = 0; k < 256; k++) {
        int row = k / 16, column = row % 2 ? 15 - k % 16 : k % 16, last = k % 16 == 15, left = row % 2;
        line(&chain, "V,%d,%d,0", 20 * column + (last ? 0 : left ? -10 : 10) + 2 * k % 5, 20 * row + (last ? 10 : 3 * k % 7));
    }
    for (k = 0; k < 256; k++) {
        line(&chain, "E,%d,%d", k, 256 + k);
        if (k < 255)
            line(&chain, "E,%d,%d", 256 + k, k + 1);
    }
    line(&chain, "D");
    straight_line = chain.lines;
    line(&chain, "J");
    joined_line = chain.lines;
    for (k = 0; k < MOVES; k++) {
        line(&chain, "H");
        line(&chain, "S");
    }
    line(&chain, "T");
}

static void *run_chain(void *unused)
{
    (void)unused;
    chain_ran = dagrelk_run((const uint8_t *)chain.text, chain.length, chain_out, sizeof chain_out);
    return NULL;
}

/* Runs the chain in a thread with a stack of 64 KiB, and answers how much of it was used. Below the stack no memory may be touched. */
static size_t under_small_stack(void)
{
    size_t page = (size_t)sysconf(_SC_PAGESIZE), used = STACK;
    uint8_t *memory = mmap(NULL, page + STACK, PROT_READ | PROT_WRITE, MAP_PRIVATE | MAP_ANONYMOUS, -1, 0), *stack;
    pthread_attr_t attributes;
    pthread_t thread;

    if (memory == MAP_FAILED || mprotect(memory, page, PROT_NONE) != 0)
        fail("no memory for a stack");
    stack = memory + page;
    memset(stack, 0xA5, STACK);
    if (pthread_attr_init(&attributes) != 0 || pthread_attr_setstack(&attributes, stack, STACK) != 0 ||
        pthread_create(&thread, &attributes, run_chain, NULL) != 0)
        fail("no thread with a stack of 64 KiB");
    pthread_join(thread, NULL);
    pthread_attr_destroy(&attributes);
    while (used > 0 && stack[STACK - used] == 0xA5)
        used--;
    munmap(memory, page + STACK);
    return used;
}

static void small_stack(void)
{
    unsigned long long straight = 0, joined = 0, saved = 0, wire = 0, rows = 0;
    unsigned hooks = 0, shares = 0, refused = 0;
    struct answer answer;
    size_t used, at = 0;
    int read;

    write_chain();
    used = under_small_stack();
    if (chain_ran.stop != DAGRELK_ANSWERED || chain_ran.lines != chain.lines)
        fail("the chain was not answered whole");
    while ((read = next_answer(chain_out, chain_ran.bytes, &at, &answer)) == 1) {
        if (answer.kind == ANSWER_ROW) {
            if (answer.row != rows++)
                fail("the rows do not count on");
            wire += answer.length;
        } else if (answer.kind == ANSWER_NO) {
            if (answer.line <= joined_line || answer.layer != DAGRELK_LAYER_NET || answer.number != DAGRELK_NO_MOVE)
                fail("a refusal that was not wanted");
            refused++;
        } else if (answer.line == straight_line) {
            straight = answer.value[0];
        } else if (answer.line == joined_line) {
            joined = answer.value[0];
        } else if (answer.line > joined_line && answer.line < chain.lines) {
            /* Behind the joined tree, hooks and shares take turns. */
            *((answer.line - joined_line) % 2 ? &hooks : &shares) += 1;
            saved += answer.value[0];
        } else if (answer.line == chain.lines && answer.value[0] != rows) {
            fail("the rows are not as many as counted");
        }
    }
    if (read != 0)
        fail("a line is no answer");
    printf("a daisy chain of 256 pins and 256 Steiner points: straight %llu, joined %llu, %u hooks and %u shares saved %llu, %llu rows\n",
           straight, joined, hooks, shares, saved, rows);
    if (hooks + shares + refused != 2 * MOVES)
        fail("not every move was answered");
    if (joined != wire + saved)
        fail("the joined wire is not the wire now and what was saved");
    if (straight != STRAIGHT_WIRE || joined != JOINED_WIRE || hooks != HOOKS || shares != SHARES || saved != SAVED || rows != CHAIN_ROWS)
        fail("not the figures that were wanted");
    printf("its thread used %zu of %d bytes of stack, with what the C library keeps there\n", used, STACK);
}

int main(void)
{
    two_threads();
    small_stack();
    printf("threads: done\n");
    return 0;
}
