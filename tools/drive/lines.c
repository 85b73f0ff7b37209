/* Lines in and out. */
#include <stdio.h>
#include <string.h>
#include "drive.h"

static long line_number;

int wrong(const char *what)
{
    fprintf(stderr, "drive: line %ld: %s\n", line_number, what);
    return 1;
}

char *rest_of(char *line)
{
    char *space = strchr(line, ' ');
    if (!space)
        return line + strlen(line);
    *space = '\0';
    return space + 1;
}

int set_octets(struct lent *lent, const char *text, size_t most, const char *otherwise)
{
    long count = octets_from(text, lent_octets(lent), most);
    if (count < 0)
        return wrong(otherwise);
    lent->size = (size_t)count;
    return 0;
}

void end_line(char *line, char *at)
{
    *at++ = '\n';
    fwrite(line, 1, (size_t)(at - line), stdout);
}

int each_line(int (*obey)(char *line))
{
    static char line[LINE_MOST + 2];
    while (fgets(line, sizeof line, stdin)) {
        line_number++;
        size_t length = strcspn(line, "\n");
        if (length > LINE_MOST)
            return wrong("a line has at most 16000 characters");
        line[length] = '\0';
        if (obey(line))
            return 1;
    }
    return 0;
}
