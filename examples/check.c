/*
 * check FILE [OLDER]: says for each task of a table file whether it meets its deadline, and by when it has responded at the latest.
 * OLDER is the table as it was before. Each task then begins at its older bound where that is sound: the same answers, in no more
 * rounds.
 *
 * Ends with 0 where every task holds, 1 where one misses, 2 where a file is refused, 3 on wrong use or where a file can't be read
 * or the answer can't be written.
 */
#include <inttypes.h>
#include <stdio.h>

#include "ryeobadum.h"

enum { ALL_HOLD = 0, ONE_MISSES = 1, REFUSED = 2, FAILED = 3 };

/* Reads a file, or as much of it as decides what it is answered. Returns 0 where that fails. */
static int read_file(const char *name, uint8_t bytes[RYB_MAX_FILE + 1], size_t *n)
{
    FILE *from = fopen(name, "rb");
    if (from == NULL)
        return 0;
    *n = fread(bytes, 1, RYB_MAX_FILE + 1, from);
    int whole = !ferror(from);
    fclose(from);
    return whole;
}

static int refused(uint32_t refusal)
{
    uint8_t reason[RYB_MAX_REASON];
    size_t n = ryb_reason(RYB_NUMBER(refusal), reason, sizeof reason);

    if (RYB_TABLE(refusal) == RYB_OLDER)
        printf("older file ");
    printf("refused %" PRIu32, RYB_NUMBER(refusal));
    if (RYB_PLACE(refusal) != 0)
        printf(" at %" PRIu32, RYB_PLACE(refusal));
    printf(": %.*s\n", (int)n, (const char *)reason);
    return REFUSED;
}

/* older is NULL where there is none. */
static int check(const uint8_t *file, size_t n, const uint8_t *older, size_t older_n)
{
    enum { MAX = RYB_MAX_TASKS };
    uint64_t bounds[MAX], rounds[MAX];
    uint8_t by[MAX];
    uint32_t refusal;

    if (older == NULL)
        refusal = ryb_judge(file, n, NULL, 0, bounds, MAX, rounds, MAX, by, MAX);
    else
        refusal = ryb_carry(older, older_n, file, n, bounds, MAX, rounds, MAX, by, MAX);
    if (refusal != 0)
        return refused(refusal);

    int status = ALL_HOLD;
    for (size_t k = 0; k < ryb_tasks(file, n); k++) {
        if (by[k] == RYB_MISSES) {
            printf("%zu misses\n", k + 1);
            status = ONE_MISSES;
        } else {
            printf("%zu holds %" PRIu64 "\n", k + 1, bounds[k]);
        }
    }
    return status;
}

int main(int argc, char **argv)
{
    static uint8_t file[2][RYB_MAX_FILE + 1];
    size_t n[2] = {0, 0};

    if (argc != 2 && argc != 3) {
        fprintf(stderr, "usage: check FILE [OLDER]\n");
        return FAILED;
    }
    for (int i = 1; i < argc; i++)
        if (!read_file(argv[i], file[i - 1], &n[i - 1])) {
            perror(argv[i]);
            return FAILED;
        }
    int status = check(file[0], n[0], argc == 3 ? file[1] : NULL, n[1]);
    if (fflush(stdout) != 0) {
        perror("check");
        return FAILED;
    }
    return status;
}
