/* The cases that the benchmark writes, and the clock: for the drivers of igraph and Boost. */
#ifndef CASES_H
#define CASES_H

#include <stdio.h>
#include <stdlib.h>
#include <time.h>

#define MOST_VERTICES 512
#define MOST_LINES 2048
#define TURNS 31

struct sheet {
    int n, m;
    int kinds[MOST_VERTICES];
    int first[MOST_LINES], second[MOST_LINES];
};

struct one_case {
    char group[32];
    int index;
    struct sheet figure, patch;
};

static void number(FILE *file, int *to) {
    if (fscanf(file, "%d", to) != 1) {
        fprintf(stderr, "cases: a number is missing\n");
        exit(2);
    }
}

static void read_sheet(FILE *file, struct sheet *s) {
    number(file, &s->n);
    number(file, &s->m);
    for (int i = 0; i < s->n; i += 1) {
        number(file, &s->kinds[i]);
    }
    for (int i = 0; i < s->m; i += 1) {
        number(file, &s->first[i]);
        number(file, &s->second[i]);
    }
}

static int read_case(FILE *file, struct one_case *c) {
    if (fscanf(file, "%31s", c->group) != 1) {
        return 0;
    }
    number(file, &c->index);
    read_sheet(file, &c->figure);
    read_sheet(file, &c->patch);
    return 1;
}

static double nanoseconds(void) {
    struct timespec t;
    clock_gettime(CLOCK_MONOTONIC, &t);
    return 1e9 * (double)t.tv_sec + (double)t.tv_nsec;
}

static int ascending(const void *a, const void *b) {
    double x = *(const double *)a, y = *(const double *)b;
    return x < y ? -1 : x > y;
}

/* The median of up to TURNS calls, fewer where a call takes long; `search` returns the places. */
static void measure(const char *peer, const struct one_case *c, long (*search)(const struct one_case *)) {
    double times[TURNS], spent = 0;
    int turns = 0;
    long places = 0;
    while (turns < TURNS && (turns < 3 || spent < 1e9) && (turns < 1 || spent < 5e9)) {
        double start = nanoseconds();
        places = search(c);
        times[turns] = nanoseconds() - start;
        spent += times[turns];
        turns += 1;
    }
    qsort(times, (size_t)turns, sizeof times[0], ascending);
    printf("%s %d %s %.0f %ld 0\n", c->group, c->index, peer, times[turns / 2], places);
    fflush(stdout);
}

#endif
