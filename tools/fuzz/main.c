/* Puts made, mutated and random things to every function of the border to C.
     fuzz CASES SEED
   Prints how often each function was called; exit 1 at the first breach of what document 01 promises, with the lines of a dialogue that lead to
   it, and where an answer that there may be was never given. */
#define _DEFAULT_SOURCE
#include <signal.h>
#include <stdio.h>
#include <stdlib.h>
#include <sys/time.h>
#include "fuzz.h"

/* So many cases may take so many seconds of the processor; thousands take one. */
#define BATCH 256
#define SECONDS 1

static void (*const trials[])(void) = {try_coding, try_arrival, try_arrival, try_arrival, try_call, try_sheet, try_sending, try_arrived, try_page};

/* The program ends here, so that printing in a handler does no harm. */
static void caught(int sign)
{
    breach(sign == SIGVTALRM ? "a call does not finish"
           : sign == SIGILL  ? "something undefined is done"
                             : "memory is touched that was not lent");
}

static void allow_time(void)
{
    struct itimerval timer = {{0, 0}, {SECONDS, 0}};
    setitimer(ITIMER_VIRTUAL, &timer, NULL);
}

int main(int count, char **words)
{
    if (count != 3) {
        fprintf(stderr, "usage: fuzz CASES SEED\n");
        return 2;
    }
    unsigned long cases = strtoul(words[1], NULL, 10);
    world.seed = strtoul(words[2], NULL, 10);
    if (!make_rooms()) {
        perror("fuzz: mmap");
        return 2;
    }
    seed_with(world.seed);
    signal(SIGSEGV, caught);
    signal(SIGBUS, caught);
    signal(SIGILL, caught);
    signal(SIGVTALRM, caught);
    for (world.number = 0; world.number < cases; world.number++) {
        if (world.number % BATCH == 0)
            allow_time();
        if (world.number % 16 == 0)
            make_world();
        lend_anew();
        trials[below(sizeof trials / sizeof trials[0])]();
        say_canaries();
    }
    return all_reached() ? 0 : 1;
}
