/* What the tests in C and C++ share: a count of failures, and a set read from a folder. */
#ifndef TRY_H
#define TRY_H

#include "sps.h"
#include <stdint.h>
#include <stdio.h>
#include <stdlib.h>
#include <string.h>

static int failures = 0;

/* The last header line of set A, and the three lines below it. */
enum { LAST_HEADER = 24, FIRST, SECOND, THIRD };

/* What stands in memory that is lent to be written. */
enum { STAYS = 0xAA };

/* Says where a number is not the expected one. */
#define SAME(found, expected) same((found), (expected), #found, __LINE__)

static inline void same(uint64_t found, uint64_t expected, const char *what, int line)
{
    if (found != expected) {
        failures++;
        fprintf(stderr, "line %d: %s is %llu, not %llu\n", line, what, (unsigned long long)found,
                (unsigned long long)expected);
    }
}

/* A refusal as one number. */
static inline uint64_t refusal(unsigned number, unsigned file, unsigned line, unsigned column)
{
    return number * (UINT64_C(1) << 40) + file * (UINT64_C(1) << 32) + line * 256 + column;
}

/* A file, in memory of just its length. */
struct bytes {
    uint8_t *at;
    size_t len;
};

/* Text over the columns of a line on disc, from 1. */
static inline void put(struct bytes file, size_t line, size_t column, const char *text)
{
    memcpy(file.at + (line - 1) * 82 + column - 1, text, strlen(text));
}

/* The form of a file as a kind. */
static inline uint64_t form(uint64_t medium, uint64_t kind, struct bytes file)
{
    return sps_form(medium, kind, file.at, file.len);
}

struct set {
    uint64_t medium;
    struct bytes r, s, x;
};

/* The medium and the files of a set, as the calls take them. */
#define FILES(set) \
    (set).medium, (set).r.at, (set).r.len, (set).s.at, (set).s.len, (set).x.at, (set).x.len

static inline struct bytes read_file(const char *folder, const char *name)
{
    char path[4096];
    struct bytes bytes = {NULL, 0};
    FILE *file;
    long length = -1;
    snprintf(path, sizeof path, "%s/%s", folder, name);
    file = fopen(path, "rb");
    if (file != NULL && fseek(file, 0, SEEK_END) == 0 && (length = ftell(file)) > 0) {
        rewind(file);
        bytes.at = (uint8_t *)malloc((size_t)length);
        if (bytes.at != NULL)
            bytes.len = fread(bytes.at, 1, (size_t)length, file);
    }
    if (length <= 0 || bytes.len != (size_t)length) {
        fprintf(stderr, "%s cannot be read\n", path);
        exit(2);
    }
    fclose(file);
    return bytes;
}

static inline struct set read_set(uint64_t medium, const char *folder)
{
    struct set set;
    set.medium = medium;
    set.r = read_file(folder, "set.r01");
    set.s = read_file(folder, "set.s01");
    set.x = read_file(folder, "set.x01");
    return set;
}

static inline void free_set(struct set set)
{
    free(set.r.at);
    free(set.s.at);
    free(set.x.at);
}

#endif
