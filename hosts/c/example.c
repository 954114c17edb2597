/*
 * Checks the form of a receiver file R, or the set R S X on disc, and follows one channel of the
 * set to its receiver. The status is 0 where the files are accepted, 1 where they are refused and
 * 2 where there is no verdict, as that of spswhy.
 *
 *     cc -I include hosts/c/example.c target/staticlib/libsps.a -o example
 */
#include "sps.h"
#include <stdio.h>
#include <stdlib.h>

enum { ACCEPTED = 0, REFUSED = 1, NO_VERDICT = 2 };

/* The channel that is followed. A tape is six columns, blanks included. */
static const char TAPE[] = "100   ";
enum { TAPE_LEN = 6, RECORD = 11, CHANNEL = 2 };

struct file {
    uint8_t *bytes;
    size_t len;
};

/* Reads a file whole; says why where it cannot. A file that is not there is no refused file. */
static int read_file(const char *name, struct file *to)
{
    FILE *from = fopen(name, "rb");
    size_t room = 0;
    int well = from != NULL;
    while (well && !feof(from)) {
        if (to->len == room) {
            uint8_t *more = (uint8_t *)realloc(to->bytes, room += 1 << 20);
            well = more != NULL;
            to->bytes = well ? more : to->bytes;
        }
        if (well)
            to->len += fread(to->bytes + to->len, 1, room - to->len, from);
        well = well && !ferror(from);
    }
    if (!well)
        perror(name);
    if (from != NULL)
        fclose(from);
    return well;
}

/* Prints an answer that is a refusal; its file is 0 where it is of none. */
static int refused(uint64_t answer)
{
    if (sps_is_refused(answer))
        printf("REFUSED %u %c %u %u\n", sps_refusal_number(answer),
               "-RSX"[sps_refusal_file(answer)], sps_refusal_line(answer),
               sps_refusal_column(answer));
    return sps_is_refused(answer);
}

static int check_form(struct file r)
{
    if (refused(sps_form(SPS_DISC, SPS_KIND_R, r.bytes, r.len)))
        return REFUSED;
    printf("R is well formed\n");
    return ACCEPTED;
}

static int check_set(struct file r, struct file s, struct file x)
{
    uint8_t counts[40];
    uint64_t answer = sps_counts(SPS_DISC, r.bytes, r.len, s.bytes, s.len, x.bytes, x.len, counts,
                                 sizeof counts);
    if (refused(answer))
        return REFUSED;
    printf("%lu receivers, %lu shots, %lu traces, %lu dead\n",
           (unsigned long)sps_count(counts, SPS_RECEIVERS),
           (unsigned long)sps_count(counts, SPS_SHOTS),
           (unsigned long)sps_count(counts, SPS_TRACES),
           (unsigned long)sps_count(counts, SPS_DEAD_TRACES));
    answer = sps_trace(SPS_DISC, r.bytes, r.len, s.bytes, s.len, x.bytes, x.len,
                       (const uint8_t *)TAPE, TAPE_LEN, RECORD, CHANNEL);
    if (refused(answer))
        return REFUSED;
    if (answer == 0)
        printf("channel %d: no trace\n", CHANNEL);
    else
        printf("channel %d: R line %u, component %u%s\n", CHANNEL, sps_trace_line(answer),
               sps_trace_component(answer), sps_trace_killed(answer) ? ", killed" : "");
    return ACCEPTED;
}

int main(int count, char **words)
{
    struct file files[3] = {{NULL, 0}, {NULL, 0}, {NULL, 0}};
    int status = ACCEPTED, at;
    if (count != 2 && count != 4) {
        fprintf(stderr, "usage: %s R [S X]\n", words[0]);
        return NO_VERDICT;
    }
    for (at = 0; at < count - 1; at++)
        if (!read_file(words[at + 1], &files[at]))
            status = NO_VERDICT;
    if (status == ACCEPTED)
        status = count == 2 ? check_form(files[0]) : check_set(files[0], files[1], files[2]);
    for (at = 0; at < 3; at++)
        free(files[at].bytes);
    /* A verdict that could not be written is none. */
    if (fflush(stdout) != 0 || ferror(stdout)) {
        perror("standard output");
        status = NO_VERDICT;
    }
    return status;
}
