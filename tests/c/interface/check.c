/* The checks, and the count of those that failed. */
#include "check.h"

#include <stdio.h>
#include <stdlib.h>

/* One more than the largest number of a refusal. */
#define REFUSALS 22
#define MOST_FAILURES 40

static int failures = 0;
static int met[REFUSALS];
static const char *case_name = "";
static ows_u64 case_number = 0;

void check_case(const char *name, ows_u64 number) {
    case_name = name;
    case_number = number;
}

static void failed(const char *file, int line, const char *what) {
    failures++;
    printf("FAILED %s:%d %s", file, line, what);
}

static void end_line(void) {
    if (case_name[0] != '\0') {
        printf(" (%s 0x%lx)", case_name, case_number);
    }
    printf("\n");
    if (failures >= MOST_FAILURES) {
        printf("FAILED %d checks: stopped\n", failures);
        exit(1);
    }
}

void check_that(int holds, const char *file, int line, const char *what) {
    if (!holds) {
        failed(file, line, what);
        end_line();
    }
}

void check_is(ows_u64 got, ows_u64 want, const char *file, int line,
              const char *what) {
    if (got != want) {
        failed(file, line, what);
        printf(" is 0x%lx, not 0x%lx", got, want);
        end_line();
    }
}

void check_refusal(ows_u8 got, int want, const char *file, int line,
                   const char *what) {
    if (got < REFUSALS) {
        met[got] = 1;
    }
    check_is(got, (ows_u64)want, file, line, what);
}

static void print_sender(const ows_sender *sender) {
    printf(" seed %x state %x clock %x R %d position %u alignment %u",
           sender->seed, sender->state, sender->clock, sender->r,
           sender->position, sender->alignment);
}

void check_sender(const ows_sender *got, const ows_sender *want,
                  const char *file, int line, const char *what) {
    if (got->seed != want->seed || got->state != want->state ||
        got->clock != want->clock || got->r != want->r ||
        got->position != want->position || got->alignment != want->alignment) {
        failed(file, line, what);
        printf(" is");
        print_sender(got);
        printf(", not");
        print_sender(want);
        end_line();
    }
}

static void print_sums(const ows_receiver *receiver) {
    printf(" sums %d %d %d", receiver->sum, receiver->lowest,
           receiver->highest);
}

static int same_sums(const ows_receiver *one, const ows_receiver *other) {
    return one->sum == other->sum && one->lowest == other->lowest &&
           one->highest == other->highest;
}

static void print_receiver(const ows_receiver *receiver) {
    printf(" mode %x bits %x count %x frame %x word %x read %x results %x",
           receiver->mode, receiver->bits, receiver->count, receiver->frame,
           receiver->word, receiver->read, receiver->results);
    printf(" state %x clock %x totals %lx %lx %lx", receiver->state,
           receiver->clock, receiver->samples, receiver->gaps,
           receiver->losses);
    print_sums(receiver);
}

void check_receiver(const ows_receiver *got, const ows_receiver *want,
                    const char *file, int line, const char *what) {
    if (got->mode != want->mode || got->bits != want->bits ||
        got->count != want->count || got->frame != want->frame ||
        got->word != want->word || got->read != want->read ||
        got->results != want->results || got->state != want->state ||
        got->clock != want->clock || got->samples != want->samples ||
        got->gaps != want->gaps || got->losses != want->losses ||
        !same_sums(got, want)) {
        failed(file, line, what);
        printf(" is");
        print_receiver(got);
        printf(", not");
        print_receiver(want);
        end_line();
    }
}

void check_same_sums(const ows_receiver *got, const ows_receiver *want,
                     const char *file, int line, const char *what) {
    if (!same_sums(got, want)) {
        failed(file, line, what);
        printf(" has");
        print_sums(got);
        printf(", not");
        print_sums(want);
        end_line();
    }
}

int check_failures(void) { return failures; }

void check_refusals_met(void) {
    int number;
    for (number = 0; number < REFUSALS; number++) {
        check_case("refusal", (ows_u64)number);
        /* 14 to 18 are the numbers of no refusal. */
        CHECK(met[number] || (number > 13 && number < 19));
    }
}
