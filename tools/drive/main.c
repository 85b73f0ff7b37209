/* Drives the library from C.
     drive dialogue       answers the lines of a dialogue on its standard input (docs/DIALOGUES.md)
     drive profile        makes the octets of an access record of the text on its standard input (docs/RECORDS.md); with `back`, the text of octets
     drive cases          answers the cases on its standard input, of the kinds that C has a function for (docs/ARCHITECTURE.md, "Cases")
     drive limits         tells what comes of sizes about those that the header names
     drive bench WHAT N   does one thing N times, for tools/count-instructions
     drive stack          tells how many octets of stack each measured arrival takes, its arguments among them
   Where `canaries` stands after dialogue or cases, each line is followed by the octets around what was lent for it. */
#include <stdio.h>
#include <stdlib.h>
#include <string.h>
#include "drive.h"

static int is(const char *word, const char *other)
{
    return strcmp(word, other) == 0;
}

int main(int count, char **words)
{
    if (count == 3 && is(words[2], "canaries") && (is(words[1], "dialogue") || is(words[1], "cases"))) {
        ask_canaries();
        count = 2;
    }
    if (count == 2 && is(words[1], "dialogue")) {
        /* whoever talks to it waits for each answer */
        setvbuf(stdout, NULL, _IOLBF, BUFSIZ);
        return dialogue();
    }
    if (count == 2 && is(words[1], "profile"))
        return profile(0);
    if (count == 3 && is(words[1], "profile") && is(words[2], "back"))
        return profile(1);
    if (count == 2 && is(words[1], "cases"))
        return cases();
    if (count == 2 && is(words[1], "limits"))
        return limits();
    if (count == 4 && is(words[1], "bench"))
        return bench(words[2], atol(words[3]));
    if (count == 2 && is(words[1], "stack"))
        return stack();
    fprintf(stderr, "usage: drive dialogue|cases [canaries] | drive profile [back] | drive limits | drive bench WHAT N | drive stack\n");
    return 2;
}
