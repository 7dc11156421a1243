/*
 * Razombiku: judging the trace of one fork-join job, run depth first on one worker.
 *
 * Five calls over job files. Link crates/exports/out/libexports.a, which `rt lib` makes in crates/exports.
 *
 * - A call takes any bytes and any numbers: it answers, or it refuses by a number (below).
 * - Each pointer and length is one block: the pointer, which must not be null, and how many elements (not bytes) may be used from it.
 *   With a length of 0 nothing is read or written there, but the pointer must still be aligned and not null.
 * - `answer` points to as many numbers as the parameter says; each call stores all of them.
 * - The caller owns every block. Nothing is kept after a call, nothing is allocated, and there is no state between calls, so
 *   calls with different blocks may run at the same time.
 * - Blocks that a call writes (out, labels, links, places, records, firsts, seconds, answer) must not overlap each other or any other
 *   block of that call.
 * - Pointers must be aligned for their type. A pointer or length that is not valid is not noticed: what follows is undefined.
 */
#ifndef RAZOMBIKU_H
#define RAZOMBIKU_H

#include <stddef.h>
#include <stdint.h>

#ifdef __cplusplus
extern "C" {
#endif

/* Lengths of the work buffers of rz_judge and rz_judge_records, in elements. Longer is fine: entries past these keep what they had. */
#define RZ_LABELS 8192
#define RZ_LINKS 16384
#define RZ_PLACES 16384

/* The most records that a file has: lists of this length are long enough for every file. */
#define RZ_RECORDS 4096

/* In links: no strand. In places: no access, for an event and its strand alike. */
#define RZ_NO_LINK 65535u
#define RZ_NO_PLACE 4294967295u

/*
 * Refusals. Entry 0 of every answer is one of these, or 0 where the call was not refused. Entry 1 is then the number of the event for
 * 8 to 12, and otherwise 0; all other entries are 0, and nothing is stored in any block but `answer`.
 */
enum rz_refusal {
    RZ_TAKEN = 0,
    RZ_FILE_SHORT = 1,      /* file under 16 bytes */
    RZ_NO_MARK = 2,         /* last four bytes not VJT1 */
    RZ_RECORD_COUNT = 3,    /* record count 0 or over 4,096 */
    RZ_EVENT_COUNT = 4,     /* event count over 1,000,000 */
    RZ_DISTANCE = 5,        /* distance not 4 times the event count; when writing, event bytes not a multiple of 4 */
    RZ_DISTANCE_LONG = 6,   /* distance over the bytes before the trailer */
    RZ_NAME = 7,            /* name over 64 bytes, or a byte outside 32 to 126 */
    RZ_EVENT = 8,           /* kind not 1 to 5, second byte not 0, or a record on kinds 1 to 3 */
    RZ_RECORD = 9,          /* record at or over the record count */
    RZ_END_OF_ROOT = 10,    /* end with only the root open */
    RZ_TASKS = 11,          /* spawn with 64 tasks open */
    RZ_STRANDS = 12,        /* the event would begin a 4,097th strand */
    RZ_TASK_OPEN = 13,      /* a task other than the root open after the last event */
    RZ_WORK_SHORT = 14,     /* a work buffer shorter than above */
    RZ_EVENT_NUMBER = 15,   /* k over the event count; in the question, an event number not below it */
    RZ_OUT_SHORT = 16,      /* output buffer shorter than the file to be written, or a list shorter than the record count */
    RZ_NO_ROOM = 17,        /* no label room even after respacing */
    RZ_NO_ACCESS = 18       /* question about an event that is no access */
};

/*
 * Reads a job file. The parts that it names are parts of `file` itself.
 *   answer[0]  refusal: 0, or 1 to 13
 *   answer[1]  the refusal's event
 *   answer[2]  the name's length in bytes; the name is the front of the file
 *   answer[3]  where the events start, in bytes from the front of the file
 *   answer[4]  the events' length in bytes, 4 for each event
 *   answer[5]  the record count
 */
void rz_read(const uint8_t *file, size_t file_len, uint64_t *answer /* [6] */);

/*
 * Writes the job file of a name, a record count and event bytes to the front of `out`; the bytes past the file stay. The file has
 * name_len + events_len + 16 bytes.
 *   answer[0]  refusal: 0, 3 to 5, 7 to 13, or 16
 *   answer[1]  the refusal's event
 *   answer[2]  how many bytes were written
 */
void rz_write(const uint8_t *name, size_t name_len, uint64_t records, const uint8_t *events, size_t events_len, uint8_t *out,
              size_t out_len, uint64_t *answer /* [3] */);

/*
 * Asks how access number i of a file stands to access number j. Events are numbered from 0.
 *   answer[0]  refusal: 0, 1 to 13, 15, or 18
 *   answer[1]  the refusal's event (0 for 15 and 18)
 *   answer[2]  0 same event, 1 first before second, 2 second before first, 3 parallel
 */
void rz_question(const uint8_t *file, size_t file_len, uint64_t i, uint64_t j, uint64_t *answer /* [3] */);

/*
 * Judges the first k events of a file, or fewer if a race is met. The whole file is checked, also past k and past a race.
 *   answer[0]  refusal: 0, 1 to 13, 14, 15, or 17
 *   answer[1]  the refusal's event
 *   answer[2]  0 clean, 1 race
 *   answer[3]  the first access's event number; 0 if clean
 *   answer[4]  the second access's event number; 0 if clean
 *   answer[5]  the record; 0 if clean
 *   answer[6]  strands begun
 *   answer[7]  labels changed in the English order
 *   answer[8]  labels changed in the Hebrew order
 *
 * The work buffers' former contents don't matter. They show the state before the racing event, or after k events:
 *   labels  of strand s: English at s, Hebrew at 4,096 + s
 *   links   of strand s: English next at s, English back at 4,096 + s, Hebrew next at 8,192 + s, Hebrew back at 12,288 + s
 *   places  of record r: the last write's event at r, its strand at 4,096 + r, the standing read's event at 8,192 + r, its strand
 *           at 12,288 + r
 * Entries of strands not begun and of records at or over the record count keep what they had.
 */
void rz_judge(const uint8_t *file, size_t file_len, uint64_t k, uint64_t *labels, size_t labels_len, uint16_t *links,
              size_t links_len, uint32_t *places, size_t places_len, uint64_t *answer /* [9] */);

/*
 * Judges the first k events of a file, all of them, past every race, and lists the raced records in record order. The race of a record is
 * named by the rule of rz_judge taken within that record; rz_judge gives that one of them whose second event is the smallest.
 *   answer[0]  refusal: 0, 1 to 13, 14, 15, 16, or 17
 *   answer[1]  the refusal's event
 *   answer[2]  records raced
 *   answer[3]  strands begun
 *   answer[4]  labels changed in the English order
 *   answer[5]  labels changed in the Hebrew order
 *
 * The lists take the raced records from entry 0, rising; every entry at or past answer[2] keeps what it had:
 *   records  the record
 *   firsts   the first access's event number
 *   seconds  the second access's event number
 * Refusals come in this order: those of the file, 15, 14, 17, then 16 if any of the three lists is shorter than the record count, also if
 * nothing is raced and k is 0. A refusal stores nothing in any of the six blocks.
 *
 * The work buffers' former contents don't matter; their entries are those of rz_judge. Labels and links show the state after k events.
 * The places of a raced record freeze at its race: they show the state before its racing event; those of the others show the state after
 * k events. Entries of strands not begun and of records at or over the record count keep what they had.
 */
void rz_judge_records(const uint8_t *file, size_t file_len, uint64_t k, uint64_t *labels, size_t labels_len, uint16_t *links,
                      size_t links_len, uint32_t *places, size_t places_len, uint32_t *records, size_t records_len,
                      uint32_t *firsts, size_t firsts_len, uint32_t *seconds, size_t seconds_len, uint64_t *answer /* [6] */);

#ifdef __cplusplus
}
#endif

#endif
