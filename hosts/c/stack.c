/*
 * Every call in a thread of a small stack. The arguments are the medium and the folder of a set of
 * 9,999 lines a file, and the record to ask for, on tape 100. It prints the answers in one line, of
 * the form for each file. The last lines of R and X are read and written.
 */
#include "try.h"
#include <pthread.h>

/* The bytes of the stack, in whole pages; what the thread itself takes is in it. */
enum { STACK = 204800 };

static const uint8_t tape[] = {'1', '0', '0', ' ', ' ', ' '};
static uint8_t lines[19998], components[9999], rows[9999 * SPS_ROW_LEN];

/* The answers of a set. */
struct answers {
    struct set set;
    uint64_t record;
    uint64_t r, s, x, cross, counts, traces, trace, channel, spread, table_line;
    uint64_t read_point, write_point, read_relation, write_relation;
};

/* The last line of a file; on tape the EOF record stands after it. */
static uint64_t last_line(uint64_t medium, struct bytes file)
{
    return medium == SPS_DISC ? file.len / 82 : file.len / 80 - 1;
}

/* Reads the last lines of R and X, and writes them. */
static void copy(struct answers *to)
{
    const uint64_t medium = to->set.medium;
    const struct bytes r = to->set.r, x = to->set.x;
    uint8_t values[SPS_VALUES_LEN], line[SPS_LINE_LEN];
    to->read_point = sps_read_point(medium, SPS_KIND_R, r.at, r.len, last_line(medium, r), values,
                                    sizeof values);
    to->write_point = sps_write_point(SPS_KIND_R, values, sizeof values, line, sizeof line);
    to->read_relation =
        sps_read_relation(medium, x.at, x.len, last_line(medium, x), values, sizeof values);
    to->write_relation = sps_write_relation(values, sizeof values, line, sizeof line);
}

static void *ask(void *lent)
{
    struct answers *to = (struct answers *)lent;
    uint8_t counts[40];
    to->r = form(to->set.medium, SPS_KIND_R, to->set.r);
    to->s = form(to->set.medium, SPS_KIND_S, to->set.s);
    to->x = form(to->set.medium, SPS_KIND_X, to->set.x);
    to->cross = sps_cross(FILES(to->set));
    to->counts = sps_counts(FILES(to->set), counts, sizeof counts);
    to->traces = sps_traces(FILES(to->set), to->cross / 2, rows, sizeof rows);
    to->trace = sps_trace(FILES(to->set), tape, 6, to->record, 200);
    to->channel = sps_channel(FILES(to->set), tape, 6, to->record, 9999, 1);
    to->spread = sps_spread(FILES(to->set), tape, 6, to->record, lines, sizeof lines, components,
                            sizeof components);
    to->table_line =
        sps_table_line(FILES(to->set), SPS_RECEIVER_CODE, (const uint8_t *)"G1", 2);
    copy(to);
    return NULL;
}

int main(int count, char **words)
{
    struct answers to;
    pthread_attr_t small;
    pthread_t thread;
    if (count != 4) {
        fprintf(stderr, "usage: %s MEDIUM FOLDER RECORD\n", words[0]);
        return 2;
    }
    memset(&to, 0, sizeof to);
    to.set = read_set(strtoull(words[1], NULL, 10), words[2]);
    to.record = strtoull(words[3], NULL, 10);
    if (pthread_attr_init(&small) != 0 || pthread_attr_setstacksize(&small, STACK) != 0 ||
        pthread_create(&thread, &small, ask, &to) != 0 || pthread_join(thread, NULL) != 0) {
        fprintf(stderr, "no thread of %d bytes of stack\n", STACK);
        return 2;
    }
    printf("%llu %llu %llu %llu %llu %llu %llu %llu %llu %llu", (unsigned long long)to.r,
           (unsigned long long)to.s, (unsigned long long)to.x, (unsigned long long)to.cross,
           (unsigned long long)to.counts, (unsigned long long)to.traces,
           (unsigned long long)to.trace, (unsigned long long)to.channel,
           (unsigned long long)to.spread, (unsigned long long)to.table_line);
    printf(" %llu %llu %llu %llu\n", (unsigned long long)to.read_point,
           (unsigned long long)to.write_point, (unsigned long long)to.read_relation,
           (unsigned long long)to.write_relation);
    free_set(to.set);
    return 0;
}
