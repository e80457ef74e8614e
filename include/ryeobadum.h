/*
 * Response-time bounds under memory interference: reads a table file of tasks, cores, bank partitions and the timing of a DRAM
 * or of a bus, and says for each task whether it meets its deadline. docs/RULES.md has the rules: what a figure means, how a bound
 * is found (F, C, T, D and H below are its letters), the file byte by byte, and each refusal.
 *
 * No function keeps state, allocates memory or calls the system; each returns for every input. A buffer is a pointer and a
 * count of its elements, not of bytes; where the count is 0 the pointer isn't followed and may be NULL. A buffer that is
 * written to must not overlap another buffer of the same call. Nothing outside the buffers is read or written.
 *
 * A function that returns a refusal returns its number plus 256 times its place, and 0 where nothing is refused. The place
 * counts from 1: the timing figure at fault for 6 and 16, the relation for 7, the core for 8, the task for 9, 10, 11, 13 and 14;
 * it is 0 for the others. Where several refusals apply the first in the list below is given, with its first place; ryb_salvage
 * has an order of its own. What is refused changes no buffer.
 */
#ifndef RYEOBADUM_H
#define RYEOBADUM_H

#include <stddef.h>
#include <stdint.h>

#ifdef __cplusplus
extern "C" {
#endif

/* The number and the place of a refusal, and of ryb_carry's the file that it is about. */
#define RYB_NUMBER(refusal) ((refusal) % 256)
#define RYB_PLACE(refusal) ((refusal) / 256 % 256)
#define RYB_TABLE(refusal) ((refusal) / 65536)

/* What ryb_salvage tells beside the number and the place of its refusal: three counts, and the length of the new file. */
#define RYB_PROMISED(salvaged) ((salvaged) / 65536 % 256)
#define RYB_KEPT(salvaged) ((salvaged) / 16777216 % 256)
#define RYB_STOPPED(salvaged) ((salvaged) / 4294967296 % 256)
#define RYB_LENGTH(salvaged) ((salvaged) / 1099511627776)

/* The numbers, in the order in which they are looked for. */
enum {
    RYB_SHORT_FILE = 1,    /* the file has under 46 bytes */
    RYB_BAD_LENGTH = 2,    /* the length isn't 46 + 2 * cores + 29 * tasks by the header's counts */
    RYB_BAD_TRAILER = 3,   /* the trailer's first number isn't the length less 12 */
    RYB_BAD_SUM = 4,       /* either sum of the trailer is wrong */
    RYB_BAD_COUNT = 5,     /* a count is outside its limits (cores 1..8, partitions 1..16, tasks 1..32), or byte four isn't 0 to 3 */
    RYB_BAD_FIGURE = 6,    /* in a DRAM table a timing figure is outside its range */
    RYB_BAD_RELATION = 7,  /* in a DRAM table a relation between timing figures is broken */
    RYB_BAD_BUS = 16,      /* in a bus table (byte four is 1 or 3) the first timing figure is 0, or another isn't */
    RYB_BAD_SET = 8,       /* a core's set is empty or names a partition above the count */
    RYB_BAD_CORE = 9,      /* a task's core isn't 1..cores */
    RYB_BAD_TIME = 10,     /* a task's T, D or C is outside its limits (10^8 <= T <= 10^12, 1 <= D <= T, 1 <= C <= D) */
    RYB_BAD_REQUESTS = 11, /* a task's H is above 1,000,000 */
    RYB_SALVAGED = 18,     /* a salvaged table (byte four is 2 or 3) is to be judged */
    RYB_NO_TASK = 12,      /* the task asked for isn't 1..tasks */
    RYB_LATE_START = 13,   /* a given start is above the task's D */
    RYB_HIGH_START = 14,   /* F(s) < s, where s is the larger of C and the given start, and F(s) what a round makes of s */
    RYB_NO_ROOM = 15,      /* the output is shorter than the new file */
    RYB_NONE_WHOLE = 17,   /* to be salvaged: the file ends before its sets do, or no record of it is kept */
    RYB_NOT_CUT = 19,      /* to be salvaged: the file is accepted as it is */
    RYB_SHORT_OUTPUT = 255 /* an output has fewer places than the file has tasks */
};

/* What by[k] says of task k + 1. */
enum {
    RYB_MISSES = 0,           /* it misses its deadline */
    RYB_HOLDS_BY_REQUEST = 1, /* it holds, and the delay counted request by request was the smaller */
    RYB_HOLDS_BY_JOB = 2      /* it holds, and the delay counted by what the other cores can send was the smaller */
};

/* What RYB_TABLE says. It is 0 where neither file is refused. */
enum {
    RYB_OLDER = 1, /* the older file is refused */
    RYB_NEWER = 2  /* the newer file is refused */
};

/*
 * Sizes. A file of more than RYB_MAX_FILE bytes is refused by 2 whatever is in it: a buffer of one byte more tells, since the
 * first RYB_MAX_FILE + 1 bytes of a longer file are answered as the whole file is.
 */
#define RYB_MAX_TASKS 32     /* the most tasks of an accepted file */
#define RYB_MAX_CORES 8      /* the most cores */
#define RYB_MAX_FILE 7951    /* no input of more bytes is accepted */
#define RYB_MAX_NEW 990      /* no new file of ryb_salvage has more */
#define RYB_MAX_LISTING 3266 /* no listing is longer */
#define RYB_MAX_REASON 66    /* no text of ryb_reason is longer */
#define RYB_RECORD 29        /* the bytes of a task's record */

/*
 * Reads the table file in file[0..n).
 *
 * Returns 0 where the file is accepted, else the refusal (1 to 11 or 16). Writes nothing.
 */
uint16_t ryb_read(const uint8_t *file, size_t n);

/*
 * Asks whether the table file in file[0..n) came whole: whether it is as long as its header says, and its trailer has its length
 * and its two sums. Figures are not looked at: a whole file may still be refused by ryb_read, by 5 to 11 or 16.
 *
 * Returns 0 where it came whole, else the refusal (1 to 4), which is ryb_read's too. A whole file that is cut short, or has any one
 * byte altered, is not whole. Writes nothing.
 */
uint16_t ryb_whole(const uint8_t *file, size_t n);

/*
 * Counts the tasks of the table file in file[0..n).
 *
 * Returns how many it has, 1 to RYB_MAX_TASKS. Returns 0, which no accepted file has, where ryb_read refuses it. Writes nothing.
 */
size_t ryb_tasks(const uint8_t *file, size_t n);

/*
 * Reads the table file in file[0..n) and judges each of its tasks.
 *
 * starts[k] is where the rounds of task k + 1 begin, in picoseconds: 0 for a fresh judgement, or a bound that an earlier judgement
 * gave. Tasks beyond starts_n begin at 0; starts beyond the tasks are ignored. A start is sound where it is the task's bound in an
 * older table (0 where it missed there) and the newer table is alike in everything, that is the counts, the fourth byte, the timing
 * figures, the sets, and each task's core and deadline, but that C and H may be raised and T shortened. From sound starts the
 * verdicts and bounds are those of a fresh judgement, found in no more rounds. From any start that isn't refused, a task that holds
 * also holds from 0, with a bound no later: a start that isn't sound can only err to the safe side.
 *
 * Returns 0 where all tasks are judged. Then, for each task k + 1,
 *   bounds[k]  is the bound in picoseconds, the least solution at or above the start and up to D, or 0 where the task misses;
 *   rounds[k]  is how many rounds that took, also for a miss;
 *   by[k]      is RYB_MISSES, RYB_HOLDS_BY_REQUEST or RYB_HOLDS_BY_JOB.
 * Places beyond the tasks keep what they held.
 *
 * Returns the refusal (1 to 11, 16, 18, 13 or 14) where the file or a start is refused. Returns RYB_SHORT_OUTPUT where all of that is
 * accepted and bounds, rounds or by has fewer places than the file has tasks; RYB_MAX_TASKS places are always enough. In either
 * case no output is changed.
 */
uint16_t ryb_judge(const uint8_t *file, size_t n,
                   const uint64_t *starts, size_t starts_n,
                   uint64_t *bounds, size_t bounds_n,
                   uint64_t *rounds, size_t rounds_n,
                   uint8_t *by, size_t by_n);

/*
 * Writes the listing of the table file in file[0..n) to out: ASCII text with each line ended by a line feed, and no zero
 * byte after it. A file that is refused is listed too, by one line with "refused" and the number.
 *
 * Returns the length of the listing, which is never 0, and leaves the bytes of out after it as they were. Where the listing
 * doesn't fit in out_n bytes, returns 0 and changes nothing; RYB_MAX_LISTING bytes are always enough.
 */
size_t ryb_list(const uint8_t *file, size_t n, uint8_t *out, size_t out_n);

/*
 * Asks whether the table file in file[0..n) has a record of a task (counted from 1).
 *
 * Returns 0 where it has, else the refusal: of the file (1 to 11 or 16), or RYB_NO_TASK. Writes nothing.
 */
uint16_t ryb_view(const uint8_t *file, size_t n, uint8_t task);

/*
 * Finds the record of a task (counted from 1) in the table file in file[0..n).
 *
 * Returns the offset r of its bytes file[r..r + RYB_RECORD): core 1, C 8, T 8, D 8, H 4, little-endian. Returns 0, which is the
 * offset of no record, where ryb_view refuses it. Writes nothing.
 */
size_t ryb_record(const uint8_t *file, size_t n, uint8_t task);

/*
 * Reads two table files and judges each task of the newer one after the older one: where ryb_worsens says 1, each task begins
 * at its bound in the older table, or at 0 where it missed there; else all begin at 0. In either case the bounds and the
 * deciding delays are those that ryb_judge gives for the newer file with no starts, and only the rounds may be fewer.
 *
 * Returns 0 where all tasks are judged. Then bounds, rounds and by say of the newer file's tasks what they say after ryb_judge,
 * and places beyond the tasks keep what they held.
 *
 * Returns else the refusal plus 65536 times the file that it is about. The older file's come first (1 to 11, 16 or 18,
 * with RYB_OLDER), then the newer's (the same, with RYB_NEWER), then RYB_SHORT_OUTPUT, with neither, where bounds, rounds or by has
 * fewer places than the newer file has tasks. In each case no output is changed.
 */
uint32_t ryb_carry(const uint8_t *older, size_t older_n,
                   const uint8_t *newer, size_t newer_n,
                   uint64_t *bounds, size_t bounds_n,
                   uint64_t *rounds, size_t rounds_n,
                   uint8_t *by, size_t by_n);

/*
 * Asks whether the newer of two table files is the older one worsened: alike in everything but that the tasks' C and H may be
 * raised and their T shortened.
 *
 * Returns 1 where both files are accepted, neither is salvaged and that is so: then ryb_carry begins at the older bounds. Returns
 * 0 otherwise. Writes nothing.
 */
uint8_t ryb_worsens(const uint8_t *older, size_t older_n, const uint8_t *newer, size_t newer_n);

/*
 * Takes back what is whole of a table file that was cut, file[0..n), and writes it to out as a new table file. The header, the timing
 * figures and the sets have to be there; the task records are kept in their order, up to the first that isn't whole or is refused
 * by 9 to 11. The new file has the count of those and bit 1 of byte four set, which says that it is salvaged: ryb_read accepts it,
 * ryb_view and ryb_record show it, and nothing judges it, since tasks that are missing delay those that aren't.
 *
 * Returns r, with RYB_NUMBER(r) 0, where that is done: RYB_PROMISED(r) is how many records the header promised, RYB_KEPT(r) how
 * many are kept, RYB_STOPPED(r) the number of the record where it stopped, 0 where none is lacking, and RYB_LENGTH(r) the length
 * of the new file in out. The bytes of out after it are left as they were.
 *
 * Returns else the refusal, in which those four are 0: RYB_NOT_CUT where ryb_read accepts the file; RYB_NONE_WHOLE where it ends
 * before its sets do; 5 to 8 or 16; RYB_NONE_WHOLE where no record is kept; RYB_NO_ROOM where the new file doesn't fit in out_n
 * bytes, and RYB_MAX_NEW are always enough. Then nothing is changed.
 */
uint64_t ryb_salvage(const uint8_t *file, size_t n, uint8_t *out, size_t out_n);

/*
 * Writes a short text for a refusal's number (RYB_NUMBER) to out: what is wrong, in ASCII, with no line feed and no zero byte
 * after it. Every number has a text; where no refusal has the number, the text says so.
 *
 * Returns the length of the text, which is never 0, and leaves the bytes of out after it as they were. Where the text doesn't
 * fit in out_n bytes, returns 0 and changes nothing; RYB_MAX_REASON bytes are always enough.
 */
size_t ryb_reason(uint8_t number, uint8_t *out, size_t out_n);

#ifdef __cplusplus
}
#endif

#endif
