/* Which answers each function may give, by document 01 and the header, and how often it gave them. */
#include <stdio.h>
#include "fuzz.h"

#define ANSWERS 300

static const struct {
    const char *name;
    int answers[24]; /* ended by -1 */
} may[ASKED] = {
    {"said", {1, 2, 3, 4, 5, 6, YES, -1}},
    {"reply_to", {KIND + 0, KIND + 1, KIND + 2, KIND + 3, KIND + 4, KIND + 5, -1}},
    {"put_request", {0, 1, 10, -1}},
    {"put_list", {0, 1, 4, -1}},
    {"arrive", {0, 1, 2, 3, 4, -1}},
    {"reply", {SILENCE, RESULT, LISTED, ERROR + 0, ERROR + 3, ERROR + 6, ERROR + 8, ERROR + 11, ERROR + 12, ERROR + 14, ERROR + 15, ERROR + 46,
               GENERAL + 0, GENERAL + 1, GENERAL + 2, INVOKE + 0, INVOKE + 1, INVOKE + 2, -1}},
    {"divert", {NO, YES, 3, 4, 5, 6, -1}},
    {"original", {NO, ABSENT, YES, NO_ROOM, 3, 4, 5, 6, -1}},
    {"write_sheet", {0, 1, 3, 4, -1}},
    {"read_sheet", {0, 3, 9, -1}},
    {"list_sheet", {0, 1, 9, -1}},
    {"activate", {0, 1, 3, 4, 7, 8, 10, -1}},
    {"deactivate", {0, 1, 3, 4, 7, 8, 10, -1}},
    {"interrogate", {0, 1, 3, 4, 7, 8, 10, -1}},
    {"arrived", {0, 2, 3, 4, -1}},
    {"taken", {DROPPED, CLOSED_KNOWN, CLOSED_DOUBT, -1}},
    {"give_up", {0, 3, 4, -1}},
    {"shown", {0, DOUBTED, 3, 4, 10, -1}},
    {"entry", {NO, YES, -1}},
};

static unsigned long counts[ASKED][ANSWERS];

void reached(enum asked asked, int answer)
{
    for (const int *each = may[asked].answers; *each >= 0; each++)
        if (*each == answer) {
            counts[asked][answer]++;
            return;
        }
    printf("fuzz: %s answers %d, which it never may\n", may[asked].name, answer);
    breach("an answer that is none");
}

static unsigned long sum_of(int asked)
{
    unsigned long sum = 0;
    for (const int *each = may[asked].answers; *each >= 0; each++)
        sum += counts[asked][*each];
    return sum;
}

static int never_given(void)
{
    int never = 0;
    for (int asked = 0; asked < ASKED; asked++)
        for (const int *each = may[asked].answers; *each >= 0; each++)
            if (counts[asked][*each] == 0) {
                printf("fuzz: %s never answers %d\n", may[asked].name, *each);
                never++;
            }
    return never;
}

int all_reached(void)
{
    printf("fuzz: %lu cases of seed %lu:", world.number, world.seed);
    for (int asked = 0; asked < ASKED; asked++)
        printf("%s %s %lu", asked == 0 ? "" : ",", may[asked].name, sum_of(asked));
    putchar('\n');
    return never_given() == 0;
}
