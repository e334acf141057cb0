/*
 * dagrelk.h - the C call of Dagrelk, a routing-topology engine.
 *
 * One call runs a job: a list of net calls as text, one call a line. It writes an answer for each line. The job and the answers are
 * described in docs/job.md, the net's calls and refusals in docs/net.md, and how to link in docs/linking.md.
 *
 *     const char job[] = "W,plane\nP,0,0,0\nP,6,0,0\nA,1,4\nM\nD\nT\n";
 *     uint8_t out[4096];
 *     struct dagrelk_outcome ran = dagrelk_run((const uint8_t *)job, sizeof job - 1, out, sizeof out);
 *     if (ran.stop == DAGRELK_ANSWERED)
 *         fwrite(out, 1, ran.bytes, stdout);
 */
#ifndef DAGRELK_H
#define DAGRELK_H

#include <stddef.h>
#include <stdint.h>

#ifdef __cplusplus
extern "C" {
#endif

/* ---- what a run answers ---------------------------------------------------------------------------------------------------------- */

/* How a run ended: `stop` of struct dagrelk_outcome. */
#define DAGRELK_ANSWERED  0 /* every line of the job was answered */
#define DAGRELK_NO_ROOM   1 /* the answer of the next line did not fit in the output that was left */
#define DAGRELK_NO_MEMORY 2 /* there was no memory for the net: nothing was answered, nothing was written */

struct dagrelk_outcome {
    size_t lines;  /* lines answered: the lines 1 to `lines` of the job */
    size_t bytes;  /* bytes written: out[0] to out[bytes - 1] */
    uint32_t stop; /* DAGRELK_ANSWERED, DAGRELK_NO_ROOM or DAGRELK_NO_MEMORY */
};

/*
 * Runs the job of `job_len` bytes at `job`, and writes its answers to the `out_len` bytes at `out`.
 *
 * Any bytes may be a job, and any length may be an output. A line that is wrong is answered by a refusal, changes nothing, and the run
 * goes on. The run stops at the first line whose whole answer does not fit; an answer that fills the output to its last byte fits. The
 * bytes from out[bytes] on stand as they stood.
 *
 * The caller sees to this, and nothing checks it:
 *
 * - Neither pointer is NULL, not even where its length is 0.
 * - `job` has `job_len` bytes to read, and `out` has `out_len` bytes to write.
 * - The two do not overlap, and no other thread writes to `job`, or touches `out`, until the call returns.
 * - The call is not made from a signal handler, nor in the forked child of a process with threads.
 *
 * An empty job is answered by 0 lines, 0 bytes, DAGRELK_ANSWERED. An empty output is answered by 0 lines, 0 bytes, and DAGRELK_NO_ROOM
 * where the job has a line.
 *
 * Threads. There are no globals. Calls in different threads do not touch each other. A net lives as long as the call that runs it.
 *
 * Memory. A net takes 252,928 bytes from malloc (on x86-64), in 18 pieces. The call asks for them when line 1 is an accepted W, and gives them
 * back before it returns. Only that can fail for want of memory.
 *
 * Stack. No call recurses. Jobs of 2 to 512 nodes took 4,303 bytes each (measured on x86-64; where C functions are bound lazily, some 3 KiB
 * more); plan 8 KiB.
 */
struct dagrelk_outcome dagrelk_run(const uint8_t *job, size_t job_len, uint8_t *out, size_t out_len);

/* ---- limits ---------------------------------------------------------------------------------------------------------------------- */

#define DAGRELK_LINE_BYTES      80 /* bytes of a job line before its byte 10 */
#define DAGRELK_PINS           256 /* pins of a net, the driver among them */
#define DAGRELK_STEINER_POINTS 256 /* Steiner points of a net */
#define DAGRELK_ROWS           768 /* rows of a tree */
#define DAGRELK_ALLOW_P       1000 /* p of an allowance: 0 to this */
#define DAGRELK_ALLOW_Q       1000 /* q of an allowance: 1 to this */

/* Fields of a job line. x, y and level are numbers of 32 bits, with a minus where they are negative. */
#define DAGRELK_FIELD 65535         /* p, q, a, b and k: 0 to this */
#define DAGRELK_PRICE 4294967295u   /* price: 0 to this */

/* Spaces. */
#define DAGRELK_WIDEST 100000000 /* a space that is wider takes no pin */
#define DAGRELK_COORDINATE 1000000 /* plane and air admit x and y from minus this to this, on level 0 */
#define DAGRELK_LEVEL 15 /* a lift admits levels from 0 to this */
#define DAGRELK_PLANE_PRICE 6400000 /* the highest price at which a lift over plane takes pins */
#define DAGRELK_AIR_PRICE 6478104 /* the highest price at which a lift over air takes pins */

/* Output that is always enough: so many bytes for each line of the job, and so many more for each T. */
#define DAGRELK_ANSWER_BYTES 48
#define DAGRELK_TREE_BYTES 32768

/* ---- refusals -------------------------------------------------------------------------------------------------------------------- */

/*
 * A refusal is the answer line "no,line,layer,number,field". `layer` is one of these letters, `number` one of the numbers below. `field` is
 * the first bad field for DAGRELK_BAD_FIELD, counted from 1 with the letter, and else 0.
 */
#define DAGRELK_LAYER_SPACE 's' /* 1 and 2 */
#define DAGRELK_LAYER_NET   'n' /* 3 to 16 */
#define DAGRELK_LAYER_TEXT  't' /* 20 to 25 */

/* Of the space. */
#define DAGRELK_TOO_WIDE         1 /* the space is more than 100,000,000 wide: P */
#define DAGRELK_NOT_ADMITTED     2 /* the space does not admit the spot: P, V */

/* Of the net. */
#define DAGRELK_TOO_MANY_PINS    3 /* there are 256 pins: P */
#define DAGRELK_TOO_CLOSE        4 /* an earlier pin is less than 1 away: P */
#define DAGRELK_BAD_ALLOWANCE    5 /* p is not from 0 to 1,000, or q is not from 1 to 1,000: A */
#define DAGRELK_TOO_FEW_PINS     6 /* there are fewer than two pins: V, E, M, D, J */
#define DAGRELK_TOO_MANY_POINTS  7 /* there are 256 Steiner points: V */
#define DAGRELK_NO_NODE          8 /* a number is no node: E */
#define DAGRELK_JOINED           9 /* a path of edges joins the two nodes already, or they are one node: E */
#define DAGRELK_NO_LENGTH       10 /* the two nodes are less than 1 apart: E */
#define DAGRELK_NO_ALLOWANCE    11 /* no allowance is set: D, J */
#define DAGRELK_NO_SEED         12 /* the edges are not one fewer than the nodes: D, J */
#define DAGRELK_NO_TREE         13 /* no tree stands: H, S, T, K, X */
#define DAGRELK_NO_MOVE         14 /* no move saves wire: H, S */
#define DAGRELK_TOO_MANY_ROWS   15 /* there are 768 rows: S */
#define DAGRELK_OUT_OF_RANGE    16 /* there is no such pin: K */

/* Of the text; 17 to 19 are not used. */
#define DAGRELK_LONG_LINE       20 /* the line has more than 80 bytes before its byte 10 or the end of the job */
#define DAGRELK_NO_LETTER       21 /* field 1 is not one of the letters */
#define DAGRELK_FIELD_COUNT     22 /* the line has not as many fields as its letter has */
#define DAGRELK_BAD_FIELD       23 /* a field is not good: `field` says the first one */
#define DAGRELK_SPACE_LINE      24 /* W is not on line 1, or line 1 is not an accepted W */
#define DAGRELK_NO_CALL         25 /* the space has not this call: J and S over air, and over a lift over air */

#ifdef __cplusplus
}
#endif

#endif
