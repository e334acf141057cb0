/* Reads answer lines one after the other. */
#ifndef ANSWERS_H
#define ANSWERS_H

#include <stddef.h>
#include <stdint.h>
#include <stdio.h>
#include <string.h>

enum kind { ANSWER_OK, ANSWER_ROW, ANSWER_NO };

/* One answer line. */
struct answer {
    enum kind kind;
    unsigned long line;          /* of the job: ANSWER_OK, ANSWER_NO */
    unsigned long long value[2]; /* ANSWER_OK; value[1] is 0 where there is one value */
    char layer;                  /* ANSWER_NO */
    unsigned number, field;      /* ANSWER_NO */
    unsigned row, parent;        /* ANSWER_ROW */
    int x, y, level;             /* ANSWER_ROW */
    unsigned long long length;   /* ANSWER_ROW */
};

/* Reads the answer at *at and moves *at past it. 1: read. 0: there is none left. -1: the line is no answer. */
static int next_answer(const uint8_t *out, size_t bytes, size_t *at, struct answer *answer)
{
    char text[64];
    size_t length;
    const uint8_t *end;

    if (*at >= bytes)
        return 0;
    end = memchr(out + *at, '\n', bytes - *at);
    if (end == NULL)
        return -1;
    length = (size_t)(end - (out + *at));
    if (length >= sizeof text)
        return -1;
    memcpy(text, out + *at, length);
    text[length] = '\0';
    *at += length + 1;

    memset(answer, 0, sizeof *answer);
    if (sscanf(text, "ok,%lu,%llu,%llu", &answer->line, &answer->value[0], &answer->value[1]) >= 2) {
        answer->kind = ANSWER_OK;
        return 1;
    }
    if (sscanf(text, "no,%lu,%c,%u,%u", &answer->line, &answer->layer, &answer->number, &answer->field) == 4) {
        answer->kind = ANSWER_NO;
        return 1;
    }
    if (sscanf(text, "N,%u,%u,%d,%d,%d,%llu", &answer->row, &answer->parent, &answer->x, &answer->y, &answer->level,
               &answer->length) == 6) {
        answer->kind = ANSWER_ROW;
        return 1;
    }
    return -1;
}

#endif
