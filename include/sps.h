/*
 * The proved checker and writer of SPS sets, for C and C++. Link libsps.a.
 *
 * Conventions
 *
 * A set is three files: R (receivers), S (shots), X (relations), lines of 80 columns. On disc CR
 * and LF end each line. On tape a line is a record of 80 bytes, code page 037 (EBCDIC), and a
 * record with EOF in columns 1 to 3 ends the file; its other columns hold any bytes. Lines and
 * columns count from 1, and the EOF record is a line. Every call that takes files takes the medium
 * first, one of enum sps_medium, then the three files, each as a pointer to its bytes and their
 * number; sps_form and sps_read_point take one file, and its kind before it, sps_read_relation X
 * alone. What is written is a line on disc.
 *
 * A tape is judged as its translation; the order of receivers alone (10) is that of the tape's own
 * bytes, in which letters come before digits. Questions and answers are in ASCII on both media.
 *
 * Every call answers one 64-bit number. A refusal is
 *
 *     number * 2^40 + file * 2^32 + line * 256 + column
 *
 * with the numbers and files of the enums below; file, line and column are 0 where there is none.
 * It is never below 2^40, and every other answer is: the traces, R line * 16 + component with 2^32
 * more where the receiver is killed, the channel, the highest channel or the header line, and 0
 * where there is none, or the state of a point. A well-formed file, an accepted set without traces,
 * a relation that is read and a line that is written answer 0 too. The inline functions at the end
 * take a number apart.
 *
 * A refusal is the first breach in this order: a medium that is neither (20, before all else); a
 * kind or a question out of range (20); the form of R, then S, then X, or of the one file (1, 2, on
 * tape 29, then 3 to 6 line by line); the headers (7 to 9); the code tables (24, then 25 over R, S
 * and X); the receivers (10); the shots (11, 12); the relations (13, 14, 16 to 19); a shot that
 * none names (15); slices too short (21). Of one line that is read it is 20, then 3 to 6 of that
 * line alone; of one that is written it is 22, then 23. It writes nothing.
 *
 * The first records of the code tables in the header name codes in columns 33 and 34: H600, H610,
 * .. H690 those of receivers, H700, H720, .. H880 those of sources, H400, H420, .. H560
 * instruments, a digit and a comma. No code is named twice (24), and each that R, S or X uses is
 * named (25), PM and KL aside. Other header lines, and what is no code of the kind, name nothing.
 *
 * A point of code KL is killed, and counts as a receiver or a shot all the same. A killed receiver
 * holds its channels, and the traces on them are dead. No relation line may name a killed shot
 * (13), and none has to (15).
 *
 * A call takes any bytes and any numbers. The medium, the kind, the numbers of a question and the
 * values of a line are 64-bit, so that nothing is cut before it is judged.
 *
 * What a call costs
 *
 * A question of a set (sps_trace, sps_channel, sps_spread, sps_table_line) checks the whole set
 * first, each time: it costs what sps_cross does, whatever it asks. So a host that wants many
 * channels of a record asks for its spread table once, and one that wants all traces of the set
 * asks sps_traces once. sps_form goes over one file, and the calls that read or write one line look
 * at that line alone.
 *
 * What the host keeps
 *
 * - A pointer and a length name memory of that many bytes, all of it there. The pointer may be
 *   NULL where the length is 0.
 * - The memory stays, and nobody else changes it, until the call returns; it keeps no pointer. A
 *   file that is mapped into memory changes with whoever writes the file: copy it first, and have
 *   the copy checked.
 * - Memory that a call writes (counts, lines, components, rows, values that are read, a line that
 *   is written) overlaps nothing else that it is given. Memory that it only reads may overlap.
 * - A call takes less than 200 KB of stack, and allocates nothing. Most threads have more: as a
 *   rule 8 MB with glibc, 2 MB in Rust, 1 MB in Java. With musl (Alpine) a thread has 128 KB, also
 *   one on which Go runs C, unless pthread_attr_setstacksize gives it more or the program is linked
 *   with -Wl,-z,stack-size=1048576. An alternate stack for signals (SIGSTKSZ) is too small.
 * - Calls share nothing: they may run at the same time, also on the same files.
 */
#ifndef SPS_H
#define SPS_H

#include <stddef.h>
#include <stdint.h>

#ifdef __cplusplus
extern "C" {
#endif

/* What the files are written on. */
enum sps_medium {
    SPS_DISC = 1,
    SPS_TAPE = 2
};

/*
 * The refusal numbers, in the paper's order. A tape takes a blank, letters, digits and
 * . , ; : ( ) - + / & ' % * = ? _ < > in columns 1 to 80.
 */
enum sps_number {
    SPS_FILE_LENGTH = 1,       /* the file's length is no multiple of 82, on tape of 80 */
    SPS_TOO_MANY_LINES = 2,    /* more than 9,999 lines, on tape with the EOF record */
    SPS_BYTE = 3,              /* a byte that is not taken, or no CR or LF at 81, 82 of a disc */
    SPS_LETTER = 4,            /* column 1 is not H or the file's letter, or H after data */
    SPS_FIELD = 5,             /* a field breaks its rule; the column is its first */
    SPS_CHANNELS = 6,          /* channels are crossed, or do not fit their receivers */
    SPS_HEADER_TYPE = 7,       /* R's header lacks one of the types 00 to 20 */
    SPS_H18 = 8,               /* an H18 that holds nothing, or N/A */
    SPS_HEADER_DIFFERS = 9,    /* the header of S or X differs from R's */
    SPS_RECEIVER_ORDER = 10,   /* a receiver is not above the one before, in the medium's bytes */
    SPS_SHOT_EARLIER = 11,     /* a shot is earlier than the one before it */
    SPS_SHOT_REPEATED = 12,    /* a shot repeats an earlier one */
    SPS_NO_SHOT = 13,          /* no shot is the relation line's source, or a killed one is */
    SPS_SHOT_ORDER = 14,       /* its shot stands in S before that of the previous relation line */
    SPS_SHOT_NOT_NAMED = 15,   /* no relation line names a shot that is not killed */
    SPS_RECORD = 16,           /* the lines of a record do not stand together, or differ */
    SPS_CHANNEL_ORDER = 17,    /* the channels of a record do not ascend */
    SPS_NO_RECEIVER = 18,      /* a covered receiver is not there */
    SPS_COVERED_TWICE = 19,    /* a receiver is covered twice in a record */
    SPS_QUESTION_RANGE = 20,   /* a medium, a kind, a line or a question is out of range */
    SPS_SLICE_LENGTH = 21,     /* a slice of the spread table is too short */
    SPS_VALUE_RANGE = 22,      /* values that no line has, or a marker's */
    SPS_LINE_LENGTH = 23,      /* the slice for a line is shorter than 82 bytes */
    SPS_CODE_NAMED_TWICE = 24, /* a code table names a code that an earlier one names */
    SPS_CODE_NOT_NAMED = 25,   /* a code or an instrument is used that no code table names */
    SPS_TAPE_END = 29          /* no EOF record ends the tape, or records follow the first */
};

/* The file of a refusal. */
enum sps_file {
    SPS_NO_FILE = 0, /* of 20 to 23 */
    SPS_R = 1,
    SPS_S = 2,
    SPS_X = 3
};

/* The kinds of files, by their letters. */
enum sps_file_kind {
    SPS_KIND_R = 82,
    SPS_KIND_S = 83,
    SPS_KIND_X = 88
};

/*
 * The form of one file, which needs no other. Answers 0 where the file is well formed, or a
 * refusal, 1 to 6 or 29, in the file of its kind, and 20 for the medium or the kind.
 *
 * The kind is one of enum sps_file_kind. It is what the file has to be, and is not taken from it:
 * the first data line of another kind is refused with 4.
 */
uint64_t sps_form(uint64_t medium, uint64_t kind, const uint8_t *file, size_t file_len);

/*
 * The cross-check of three files: first the form of each, whether sps_form was asked before or not,
 * then all rules between them. Answers the number of traces of the set, which are the channels of
 * all relation lines, or a refusal, 1 to 19, 24, 25 or 29, and 20 for the medium.
 */
uint64_t sps_cross(uint64_t medium, const uint8_t *r, size_t r_len, const uint8_t *s,
                   size_t s_len, const uint8_t *x, size_t x_len);

/* The places of the counts. */
enum sps_place {
    SPS_RECEIVERS = 0,
    SPS_SHOTS = 1,
    SPS_RELATIONS = 2,  /* relation lines */
    SPS_TRACES = 3,     /* dead ones too */
    SPS_DEAD_TRACES = 4 /* those of killed receivers, each component one */
};

/*
 * The cross-check that also counts what the set holds. Answers what sps_cross does, for every
 * length of counts.
 *
 * A place of counts is eight bytes, the low one first; sps_count reads one. Of an accepted set the
 * receivers, shots, relation lines, traces and dead traces go into places 0 to 4, as far as counts
 * has them whole: counts_len / 8 places, at most five. Every other byte stays, also the last ones
 * that are too few for a place and all from byte 40 on. A refusal writes nothing. 40 bytes take all
 * five.
 */
uint64_t sps_counts(uint64_t medium, const uint8_t *r, size_t r_len, const uint8_t *s,
                    size_t s_len, const uint8_t *x, size_t x_len, uint8_t *counts,
                    size_t counts_len);

/*
 * From a trace to its receiver. Answers R line * 16 + component, 2^32 more where the receiver is
 * killed, 0 where there is no such trace, or a refusal, 1 to 20, 24, 25 or 29.
 *
 * The tape is 6 columns of bytes 32 to 126 of which the first is no blank, the record is 0 to 9999,
 * the channel 1 to 9999. Anything else is refused with 20, before the set is looked at.
 */
uint64_t sps_trace(uint64_t medium, const uint8_t *r, size_t r_len, const uint8_t *s,
                   size_t s_len, const uint8_t *x, size_t x_len, const uint8_t *tape,
                   size_t tape_len, uint64_t record, uint64_t channel);

/*
 * The way back, from a line of R and a component to the channel. Answers the channel, of a killed
 * receiver too, 0 where there is no such trace (also where the line is a header, a marker, an EOF
 * record or beyond the file), or a refusal, 1 to 20, 24, 25 or 29.
 *
 * The tape and the record are as for sps_trace, the line is 1 to 9999, the component 1 to 9.
 */
uint64_t sps_channel(uint64_t medium, const uint8_t *r, size_t r_len, const uint8_t *s,
                     size_t s_len, const uint8_t *x, size_t x_len, const uint8_t *tape,
                     size_t tape_len, uint64_t record, uint64_t r_line, uint64_t component);

/*
 * The spread table of a record. Answers its highest covered channel, 0 where the record is absent,
 * or a refusal, 1 to 21, 24, 25 or 29. The tape and the record are as for sps_trace.
 *
 * Place c-1 takes the R line and the component of channel c, or 0 and 0 where c is not covered, for
 * each c up to the answer; killed receivers stand as others do. Later places stay, and an absent
 * record writes nothing. A place of components is a byte. A place of lines is two bytes, the low
 * one first; an odd last byte is no place and stays. Where either slice has fewer places than the
 * highest channel it is 21, after the set's own refusals. Lengths are in bytes: 19998 and 9999 are
 * enough for every record.
 */
uint64_t sps_spread(uint64_t medium, const uint8_t *r, size_t r_len, const uint8_t *s,
                    size_t s_len, const uint8_t *x, size_t x_len, const uint8_t *tape,
                    size_t tape_len, uint64_t record, uint8_t *lines, size_t lines_len,
                    uint8_t *components, size_t components_len);

/* Where the parts of a row begin, in bytes from 0, and how many bytes it has. */
enum sps_row {
    SPS_ROW_X_LINE = 0,     /* four bytes, the low one first: the relation line of the trace */
    SPS_ROW_CHANNEL = 4,    /* four bytes: 1 to 9999 */
    SPS_ROW_R_LINE = 8,     /* four bytes: the line of its receiver */
    SPS_ROW_COMPONENT = 12, /* a byte: 1 to 9 */
    SPS_ROW_KILLED = 13,    /* a byte: 1 where the receiver is killed, or 0; two bytes 0 follow */
    SPS_ROW_LEN = 16
};

/*
 * All traces of the set, as rows. Answers what sps_cross does, for every first and every length of
 * rows: the number of traces, or a refusal, 1 to 19, 24, 25 or 29, and 20 for the medium.
 *
 * Traces stand in the order of X, line by line and channel by channel, and count from 0. Those from
 * number first on go into rows, one a row of SPS_ROW_LEN bytes, as far as rows has them whole:
 * rows_len / 16 rows. Places after the last trace stay, and so do the last bytes that are too few
 * for a row. Where first is beyond the last trace nothing is written. A refusal writes nothing.
 *
 * Each call checks the set once, whatever it writes, so that one slice for all traces takes the
 * shortest time. A host with less memory lends what it has, and asks again with a first that is so
 * many rows higher, while that is below the answer. The tape and the record of a row are those of
 * its line of X, which sps_read_relation reads.
 */
uint64_t sps_traces(uint64_t medium, const uint8_t *r, size_t r_len, const uint8_t *s,
                    size_t s_len, const uint8_t *x, size_t x_len, uint64_t first, uint8_t *rows,
                    size_t rows_len);

/* The kinds of codes, by the letter of the file that uses them. */
enum sps_kind {
    SPS_RECEIVER_CODE = 82,  /* R */
    SPS_SOURCE_CODE = 83,    /* S */
    SPS_INSTRUMENT_CODE = 88 /* X */
};

/*
 * From a code to the line of R's header that names it, which says what it was. Answers the line, 0
 * where none does, or a refusal, 1 to 20, 24, 25 or 29.
 *
 * The kind is one of enum sps_kind. The code is two bytes of ASCII, G H R with a digit 1 to 9 for
 * receivers, V E A W S with one for sources, or the digit alone for instruments. Anything else, PM
 * and KL too, is refused with 20, before the set is looked at.
 */
uint64_t sps_table_line(uint64_t medium, const uint8_t *r, size_t r_len, const uint8_t *s,
                        size_t s_len, const uint8_t *x, size_t x_len, uint64_t kind,
                        const uint8_t *code, size_t code_len);

/*
 * The values of one line
 *
 * They are sixteen numbers, each in a place of eight bytes, the low one first, which are signed:
 * two's complement. Places count from 0. A name, a tape and a code are the numbers that their bytes
 * make, the high one first, in ASCII on both media and with their blanks; a name takes two places.
 * Depth, water depth, easting, northing and elevation are in tenths: 326260.1 is 3262601, -0.5 is
 * -5. Static, uphole and water depth may be absent, which is SPS_ABSENT and no other number. Blank
 * indices and increments and a blank instrument are read as 1.
 *
 * The inline functions at the end put a value, a name, a tape or a code into its places, and get
 * it back.
 */
#define SPS_ABSENT INT64_MIN

enum {
    SPS_VALUES_LEN = 128, /* the bytes of the sixteen places */
    SPS_LINE_LEN = 82     /* the bytes of a line on disc, with CR and LF */
};

/* What a point is. */
enum sps_state {
    SPS_LIVE = 0,
    SPS_KILLED = 1, /* its code is KL */
    SPS_MARKER = 2  /* its code is PM: it is no point */
};

/* The places of a line of R or S, with what a line has in them. */
enum sps_point_place {
    SPS_POINT_NAME_HIGH = 0,    /* line name, first eight bytes: 32 to 126, the first no blank */
    SPS_POINT_NAME_LOW = 1,     /* last eight bytes */
    SPS_POINT_NUMBER = 2,       /* 0 to 99999999 */
    SPS_POINT_INDEX = 3,        /* 1 to 9 */
    SPS_POINT_CODE = 4,         /* in R a G, H or R, in S a V, E, A, W or S, and 1 to 9; KL; PM */
    SPS_POINT_STATE = 5,        /* one of enum sps_state, which the code decides */
    SPS_POINT_STATIC = 6,       /* -999 to 999, or absent */
    SPS_POINT_DEPTH = 7,        /* tenths, 0 to 999 */
    SPS_POINT_DATUM = 8,        /* seismic datum, -999 to 9999 */
    SPS_POINT_UPHOLE = 9,       /* 0 to 99, or absent */
    SPS_POINT_WATER_DEPTH = 10, /* tenths, 0 to 999, or by tens 1000 to 9990, or absent */
    SPS_POINT_EASTING = 11,     /* tenths, -99999999 to 999999999 */
    SPS_POINT_NORTHING = 12,    /* tenths, -999999999 to 9999999999 */
    SPS_POINT_ELEVATION = 13,   /* tenths, -9999 to 99999 */
    SPS_POINT_DAY = 14,         /* 1 to 999 */
    SPS_POINT_TIME = 15         /* hhmmss as one number, 0 to 235959: 071245 is 71245 */
};

/* The places of a line of X, with what a line has in them. */
enum sps_relation_place {
    SPS_RELATION_TAPE = 0,                /* six bytes 32 to 126, the first no blank */
    SPS_RELATION_RECORD = 1,              /* field record, 0 to 9999 */
    SPS_RELATION_RECORD_INCREMENT = 2,    /* 1 to 9 */
    SPS_RELATION_INSTRUMENT = 3,          /* 1 to 9 */
    SPS_RELATION_SOURCE_NAME_HIGH = 4,    /* line name of the shot, as that of a point */
    SPS_RELATION_SOURCE_NAME_LOW = 5,
    SPS_RELATION_SOURCE_NUMBER = 6,       /* 0 to 99999999 */
    SPS_RELATION_SOURCE_INDEX = 7,        /* 1 to 9 */
    SPS_RELATION_FROM_CHANNEL = 8,        /* 1 to 9999 */
    SPS_RELATION_TO_CHANNEL = 9,          /* 1 to 9999 */
    SPS_RELATION_CHANNEL_INCREMENT = 10,  /* channels a receiver, 1 to 9 */
    SPS_RELATION_RECEIVER_NAME_HIGH = 11, /* line name of the receivers, as that of a point */
    SPS_RELATION_RECEIVER_NAME_LOW = 12,
    SPS_RELATION_FROM_RECEIVER = 13,      /* 0 to 99999999 */
    SPS_RELATION_TO_RECEIVER = 14,        /* 0 to 99999999, below the other where they descend */
    SPS_RELATION_RECEIVER_INDEX = 15      /* 1 to 9 */
};

/*
 * Reads a line of R or S, by its letter, SPS_KIND_R or SPS_KIND_S. Answers the state of the point,
 * one of enum sps_state, or a refusal: 20 for a medium or a letter that is neither, and for a line
 * that is not 1 to 9999, is beyond the file, is the last record of a tape or is a header line; then
 * 3, 4 or 5 of that line, in the file of the letter. Other lines are not looked at.
 *
 * The sixteen places go into values as far as it has them whole: values_len / 8 places, at most
 * sixteen. Every other byte stays. A refusal writes nothing. SPS_VALUES_LEN bytes take all.
 *
 * Of a marker the line name, index, code, state, easting, northing and elevation are told. Its
 * other columns are free text, and what stands in their places says nothing.
 */
uint64_t sps_read_point(uint64_t medium, uint64_t letter, const uint8_t *file, size_t file_len,
                        uint64_t line, uint8_t *values, size_t values_len);

/*
 * Reads a line of X, as sps_read_point does one of R or S. Answers 0, or a refusal: 20, then 3 to 6
 * of that line.
 */
uint64_t sps_read_relation(uint64_t medium, const uint8_t *x, size_t x_len, uint64_t line,
                           uint8_t *values, size_t values_len);

/*
 * Writes a line of R or S, by its letter, SPS_KIND_R or SPS_KIND_S, over the first SPS_LINE_LEN
 * bytes of line; later bytes stay. Answers 0, or a refusal, which writes nothing: 22, then 23 where
 * line_len is less than SPS_LINE_LEN.
 *
 * It is 22 for a letter that is neither, a values_len other than SPS_VALUES_LEN, a value that the
 * places above do not have, a code of the other file, a state that is not the code's, and a marker.
 *
 * A line has one spelling. Numbers stand on the right of their columns, blanks before them, and the
 * time alone has zeros before it. Absent values are blank; an index, an increment and an instrument
 * of 1 are written. Decimals have their point, but for an easting or a northing that is too wide
 * with it, and a water depth above 99.9, which is whole metres. A line that is written is read with
 * the same values.
 */
uint64_t sps_write_point(uint64_t letter, const uint8_t *values, size_t values_len, uint8_t *line,
                         size_t line_len);

/*
 * Writes a line of X, as sps_write_point does one of R or S. It is 22, too, for channels that are
 * crossed or do not fit their receivers, as 6 has it.
 */
uint64_t sps_write_relation(const uint8_t *values, size_t values_len, uint8_t *line,
                            size_t line_len);

/* Whether an answer is a refusal: 1 or 0. */
static inline int sps_is_refused(uint64_t answer)
{
    return answer >> 40 != 0;
}

/* The parts of a refusal: one of enum sps_number, one of enum sps_file, line and column. */
static inline unsigned sps_refusal_number(uint64_t refusal)
{
    return (unsigned)(refusal >> 40);
}

static inline unsigned sps_refusal_file(uint64_t refusal)
{
    return (unsigned)(refusal >> 32 & 255);
}

static inline unsigned sps_refusal_line(uint64_t refusal)
{
    return (unsigned)(refusal >> 8 & 16777215);
}

static inline unsigned sps_refusal_column(uint64_t refusal)
{
    return (unsigned)(refusal & 255);
}

/* The count in a place, from 0, of the counts that sps_counts has written. */
static inline uint64_t sps_count(const uint8_t *counts, size_t place)
{
    uint64_t count = 0;
    size_t left;
    for (left = 8; left > 0; left--)
        count = count << 8 | counts[8 * place + left - 1];
    return count;
}

/* The parts of a trace that sps_trace answers: the line of R, the component, and killed: 1 or 0. */
static inline unsigned sps_trace_line(uint64_t trace)
{
    return (unsigned)(trace >> 4 & 268435455);
}

static inline unsigned sps_trace_component(uint64_t trace)
{
    return (unsigned)(trace & 15);
}

static inline int sps_trace_killed(uint64_t trace)
{
    return (int)(trace >> 32 & 1);
}

/* The R line of a channel, from 1, in the lines that sps_spread has written. */
static inline unsigned sps_spread_line(const uint8_t *lines, size_t channel)
{
    return lines[2 * channel - 2] + 256u * lines[2 * channel - 1];
}

/* Four bytes of a row, from 0, of the rows that sps_traces has written, as a number. */
static inline unsigned sps_row_number(const uint8_t *rows, size_t row, size_t at)
{
    const uint8_t *low = rows + SPS_ROW_LEN * row + at;
    return low[0] + 256u * low[1] + 65536u * low[2] + 16777216u * low[3];
}

/* The parts of a row: the line of X, the channel, the line of R, the component, killed: 1 or 0. */
static inline unsigned sps_row_x_line(const uint8_t *rows, size_t row)
{
    return sps_row_number(rows, row, SPS_ROW_X_LINE);
}

static inline unsigned sps_row_channel(const uint8_t *rows, size_t row)
{
    return sps_row_number(rows, row, SPS_ROW_CHANNEL);
}

static inline unsigned sps_row_r_line(const uint8_t *rows, size_t row)
{
    return sps_row_number(rows, row, SPS_ROW_R_LINE);
}

static inline unsigned sps_row_component(const uint8_t *rows, size_t row)
{
    return rows[SPS_ROW_LEN * row + SPS_ROW_COMPONENT];
}

static inline int sps_row_killed(const uint8_t *rows, size_t row)
{
    return rows[SPS_ROW_LEN * row + SPS_ROW_KILLED];
}

/* Puts a value into a place, from 0, of the values of a line. */
static inline void sps_put_value(uint8_t *values, size_t place, int64_t value)
{
    size_t at;
    for (at = 0; at < 8; at++)
        values[8 * place + at] = (uint8_t)((uint64_t)value >> 8 * at & 255);
}

/* The value in a place. */
static inline int64_t sps_value(const uint8_t *values, size_t place)
{
    uint64_t value = sps_count(values, place);
    return value >> 63 ? -(int64_t)(UINT64_MAX - value) - 1 : (int64_t)value;
}

/* Puts so many bytes, at most eight, into a place as one number, the high byte first. */
static inline void sps_put_text(uint8_t *values, size_t place, const void *text, size_t len)
{
    size_t at;
    sps_put_value(values, place, 0);
    for (at = 0; at < len; at++)
        values[8 * place + len - 1 - at] = ((const uint8_t *)text)[at];
}

/* Gets them back. */
static inline void sps_get_text(const uint8_t *values, size_t place, void *text, size_t len)
{
    size_t at;
    for (at = 0; at < len; at++)
        ((uint8_t *)text)[at] = values[8 * place + len - 1 - at];
}

/* Puts the 16 columns of a line name into the place of its high bytes and the next one. */
static inline void sps_put_name(uint8_t *values, size_t high, const void *name)
{
    sps_put_text(values, high, name, 8);
    sps_put_text(values, high + 1, (const uint8_t *)name + 8, 8);
}

static inline void sps_get_name(const uint8_t *values, size_t high, void *name)
{
    sps_get_text(values, high, name, 8);
    sps_get_text(values, high + 1, (uint8_t *)name + 8, 8);
}

/* Puts the two columns of a code into the values of a point, with the state that it decides. */
static inline void sps_put_code(uint8_t *values, const void *code)
{
    const uint8_t *at = (const uint8_t *)code;
    int killed = at[0] == 'K' && at[1] == 'L', marker = at[0] == 'P' && at[1] == 'M';
    sps_put_text(values, SPS_POINT_CODE, code, 2);
    sps_put_value(values, SPS_POINT_STATE, killed ? SPS_KILLED : marker ? SPS_MARKER : SPS_LIVE);
}

static inline void sps_get_code(const uint8_t *values, void *code)
{
    sps_get_text(values, SPS_POINT_CODE, code, 2);
}

/* Puts the six columns of a tape into the values of a relation. */
static inline void sps_put_tape(uint8_t *values, const void *tape)
{
    sps_put_text(values, SPS_RELATION_TAPE, tape, 6);
}

static inline void sps_get_tape(const uint8_t *values, void *tape)
{
    sps_get_text(values, SPS_RELATION_TAPE, tape, 6);
}

#ifdef __cplusplus
}
#endif

#endif
