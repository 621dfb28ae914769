// Times the correction of rows beside libfec, on the same rows, and compares every answer and every byte.
#include <stdbool.h>
#include <stddef.h>
#include <stdint.h>
#include <stdio.h>
#include <stdlib.h>
#include <string.h>
#include <time.h>

#include <fec.h>

enum { SYMBOLS = 120, CHECKS = 10, WORK = 512, WHOLE = 255, PAD = WHOLE - SYMBOLS, MOST_ERRORS = 12 };
enum { TIMED_ROWS = 20000, ROUNDS = 15, COMPARED_ROWS = 1000000, OUTSIDE_ROWS = 100000 };

// Of the proved library: 0 and the count, or a refusal's number.
uint8_t correct_row(uint8_t *row, size_t symbols, uint8_t *work, size_t work_symbols, size_t *count);

static const int BEYOND_REPAIR = 8;

static uint64_t state = 0x9e3779b97f4a7c15u;

static uint32_t random_below(uint32_t bound)
{
    state ^= state << 13;
    state ^= state >> 7;
    state ^= state << 17;
    return (uint32_t)((state >> 33) % bound);
}

static double seconds(void)
{
    struct timespec now;
    clock_gettime(CLOCK_MONOTONIC, &now);
    return (double)now.tv_sec + 1e-9 * (double)now.tv_nsec;
}

// Changes so many bytes of a row, at different places.
static void add_errors(uint8_t *row, int errors)
{
    bool hit[SYMBOLS] = {false};
    for (int k = 0; k < errors; k++) {
        uint32_t place;
        do
            place = random_below(SYMBOLS);
        while (hit[place]);
        hit[place] = true;
        row[place] ^= (uint8_t)(1 + random_below(255));
    }
}

// A random codeword with so many bytes changed.
static void make_row(void *code, uint8_t *row, int errors)
{
    for (int j = 0; j < SYMBOLS - CHECKS; j++)
        row[j] = (uint8_t)random_below(256);
    encode_rs_char(code, row, row + SYMBOLS - CHECKS);
    add_errors(row, errors);
}

// The last 120 bytes of a codeword of 255 that has one byte before them which is not zero, with so many bytes changed. The whole
// code has a codeword near to it, and only by a change outside the row.
static void make_outside_row(void *whole, uint8_t *row, int errors)
{
    uint8_t word[WHOLE] = {0};
    word[random_below(PAD)] = (uint8_t)(1 + random_below(255));
    for (int j = PAD; j < WHOLE - CHECKS; j++)
        word[j] = (uint8_t)random_below(256);
    encode_rs_char(whole, word, word + WHOLE - CHECKS);
    memcpy(row, word + PAD, SYMBOLS);
    add_errors(row, errors);
}

// The number of corrections, or -1 for a row that is given up.
static int correct_with_libfec(void *code, uint8_t *row)
{
    int count = decode_rs_char(code, row, NULL, 0);
    return count < 0 ? -1 : count;
}

static int correct_with_rows(uint8_t *row)
{
    static uint8_t work[WORK];
    size_t count = 0;
    int refusal = correct_row(row, SYMBOLS, work, WORK, &count);
    if (refusal != 0 && refusal != BEYOND_REPAIR) {
        fprintf(stderr, "refused by %d, which no row of this run should be\n", refusal);
        exit(2);
    }
    return refusal == 0 ? (int)count : -1;
}

static int compare_doubles(const void *a, const void *b)
{
    double x = *(const double *)a, y = *(const double *)b;
    return (x > y) - (x < y);
}

typedef struct {
    long same, refused, different;
} Tally;

// Counts what both made of a row: the answers and every byte have to agree, and a refused row is as it was.
static void count_row(Tally *tally, const uint8_t *made, const uint8_t *ours, int answer, const uint8_t *theirs, int their_answer)
{
    if (answer != their_answer || memcmp(ours, theirs, SYMBOLS) != 0 || (answer == -1 && memcmp(ours, made, SYMBOLS) != 0)) {
        tally->different++;
        return;
    }
    tally->same++;
    tally->refused += answer == -1;
}

// Corrects a row with both, and counts what they made of it.
static void compare(void *code, const uint8_t *made, Tally *tally)
{
    uint8_t ours[SYMBOLS], theirs[SYMBOLS];
    memcpy(ours, made, SYMBOLS);
    memcpy(theirs, made, SYMBOLS);
    int answer = correct_with_rows(ours);
    int their_answer = correct_with_libfec(code, theirs);
    count_row(tally, made, ours, answer, theirs, their_answer);
}

// The median over all rounds, in nanoseconds a row, of both on the same rows, turn by turn; what the last round made of them is compared.
static void time_rows(void *code, const char *name, int errors, Tally *tally)
{
    static uint8_t made[TIMED_ROWS][SYMBOLS], ours[TIMED_ROWS][SYMBOLS], theirs[TIMED_ROWS][SYMBOLS];
    static int answers[TIMED_ROWS], their_answers[TIMED_ROWS];
    double times[ROUNDS], their_times[ROUNDS];
    for (int i = 0; i < TIMED_ROWS; i++)
        make_row(code, made[i], errors);
    for (int round = 0; round < ROUNDS; round++) {
        memcpy(ours, made, sizeof ours);
        double start = seconds();
        for (int i = 0; i < TIMED_ROWS; i++)
            answers[i] = correct_with_rows(ours[i]);
        times[round] = seconds() - start;
        memcpy(theirs, made, sizeof theirs);
        start = seconds();
        for (int i = 0; i < TIMED_ROWS; i++)
            their_answers[i] = correct_with_libfec(code, theirs[i]);
        their_times[round] = seconds() - start;
    }
    for (int i = 0; i < TIMED_ROWS; i++)
        count_row(tally, made[i], ours[i], answers[i], theirs[i], their_answers[i]);
    qsort(times, ROUNDS, sizeof *times, compare_doubles);
    qsort(their_times, ROUNDS, sizeof *their_times, compare_doubles);
    double a = times[ROUNDS / 2] / TIMED_ROWS * 1e9, b = their_times[ROUNDS / 2] / TIMED_ROWS * 1e9;
    printf("%-22s %8.0f ns %8.0f ns   %5.2f times as fast\n", name, a, b, b / a);
}

static void print_tally(const char *name, const Tally *tally)
{
    printf("%s: %ld the same, %ld of them refused, %ld disagreements\n", name, tally->same, tally->refused, tally->different);
}

int main(void)
{
    void *code = init_rs_char(8, 0x11d, 0, 1, CHECKS, PAD);
    void *whole = init_rs_char(8, 0x11d, 0, 1, CHECKS, 0);
    if (code == NULL || whole == NULL) {
        fprintf(stderr, "libfec refuses the code\n");
        return 2;
    }
    printf("%-22s %11s %11s\n", "rows of 120, 10 checks", "rows", "libfec");
    Tally timed = {0}, random = {0}, outside = {0};
    time_rows(code, "clean", 0, &timed);
    time_rows(code, "1 error", 1, &timed);
    time_rows(code, "3 errors", 3, &timed);
    time_rows(code, "5 errors", 5, &timed);
    time_rows(code, "8 errors", 8, &timed);
    print_tally("the rows timed", &timed);

    uint8_t made[SYMBOLS];
    for (long i = 0; i < COMPARED_ROWS; i++) {
        make_row(code, made, (int)random_below(MOST_ERRORS + 1));
        compare(code, made, &random);
    }
    print_tally("rows with 0 to 12 errors", &random);
    for (long i = 0; i < OUTSIDE_ROWS; i++) {
        make_outside_row(whole, made, (int)random_below(CHECKS / 2));
        compare(code, made, &outside);
    }
    print_tally("rows near a codeword that does not fit the row", &outside);
    free_rs_char(code);
    free_rs_char(whole);
    return timed.different + random.different + outside.different == 0 ? 0 : 1;
}
