/* Two ways to do one thing, timed in turn in one process. */
#ifndef ROUNDS_H
#define ROUNDS_H

#include <stddef.h>
#include <stdio.h>
#include <stdlib.h>
#include <time.h>

enum { ROUNDS = 101 };

/* What is done, on one subject. */
typedef void (*work)(const void *subject);

static double seconds(void)
{
    struct timespec now;
    clock_gettime(CLOCK_MONOTONIC, &now);
    return (double)now.tv_sec + (double)now.tv_nsec * 1e-9;
}

static double repeated(work todo, const void *subject, long repeats)
{
    double start = seconds();
    for (long i = 0; i < repeats; i++)
        todo(subject);
    return seconds() - start;
}

static int in_order(const void *a, const void *b)
{
    double x = *(const double *)a, y = *(const double *)b;
    return (x > y) - (x < y);
}

static double median(double *samples)
{
    qsort(samples, ROUNDS, sizeof *samples, in_order);
    return samples[ROUNDS / 2];
}

/* The median time of one over that of the other. Each goes first in every second round. */
static double ratio(work one, work other, const void *subject)
{
    double ones[ROUNDS], others[ROUNDS];
    long repeats = 1;
    while (repeated(other, subject, repeats) < 0.002)
        repeats *= 2;
    for (int i = 0; i < ROUNDS; i++) {
        if (i % 2)
            ones[i] = repeated(one, subject, repeats);
        others[i] = repeated(other, subject, repeats);
        if (i % 2 == 0)
            ones[i] = repeated(one, subject, repeats);
    }
    return median(ones) / median(others);
}

/* A file of at most `room` bytes; the program ends where it cannot be read. */
static size_t file(const char *folder, const char *name, unsigned char *bytes, size_t room)
{
    char path[4096];
    snprintf(path, sizeof path, "%s/%s", folder, name);
    FILE *in = fopen(path, "rb");
    size_t length = in ? fread(bytes, 1, room, in) : 0;
    if (!in || !length || fgetc(in) != EOF) {
        perror(path);
        exit(2);
    }
    fclose(in);
    return length;
}

#endif
