/* Runs one list with none, half or all of its frames inverted; status 1 where
 * an answer is wrong, 2 where the arguments are. */
#include "inversion.h"

#include <stdio.h>
#include <string.h>

typedef struct list {
    const char *name;
    void (*run)(int halves);
} list;

static const list lists[] = {
    {"ows_read", list_read},
    {"ows_read_sample", list_read_sample},
    {"ows_build", list_build},
    {"ows_feed", list_feed},
    {"ows_feed:sums", list_feed_sums},
    {"ows_feed_frames", list_feed_frames},
    {"ows_feed_frames:sums", list_feed_frames_sums},
    {"ows_send", list_send},
    {"read_by_branch", list_read_by_branch},
};

static const char *const kinds[] = {"none", "half", "all"};

int main(int count, char **arguments) {
    size_t i;
    int halves;
    for (i = 0; count == 3 && i < LENGTH(lists); i++) {
        for (halves = 0; halves < (int)LENGTH(kinds); halves++) {
            if (strcmp(arguments[1], lists[i].name) == 0 &&
                strcmp(arguments[2], kinds[halves]) == 0) {
                lists[i].run(halves);
                return check_failures() > 0;
            }
        }
    }
    fprintf(stderr, "usage: program LIST none|half|all\n");
    return 2;
}
