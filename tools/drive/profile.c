/* Profiles in and out: a text becomes the octets of an access record, and these become a text. */
#include <stdio.h>
#include <string.h>
#include "drive.h"

static int say_fault(const char *name, const struct profile_fault *fault)
{
    if (fault->line == 0)
        fprintf(stderr, "%s: %s\n", name, fault->what);
    else
        fprintf(stderr, "%s: line %ld: %s\n", name, fault->line, fault->what);
    return 1;
}

/* All of a file, as characters. Answers whether it is one that a profile can be. */
static int read_all(FILE *file, char *text, struct profile_fault *fault)
{
    size_t count = fread(text, 1, PROFILE_TEXT + 1, file);
    fault->line = 0;
    snprintf(fault->what, sizeof fault->what, "a profile is a text of at most %d characters", PROFILE_TEXT);
    if (ferror(file) || count > PROFILE_TEXT || memchr(text, 0, count))
        return 0;
    text[count] = '\0';
    return 1;
}

int profile_file(const char *name, uint8_t *access)
{
    static char text[PROFILE_TEXT + 1];
    struct profile_fault fault = {0, "cannot be opened"};
    FILE *file = fopen(name, "r");
    int good = file && read_all(file, text, &fault) && profile_from(text, access, &fault);
    if (file)
        fclose(file);
    return good ? 0 : say_fault(name, &fault);
}

static void say_octets(const uint8_t *access)
{
    static char line[2 * PROFILE_OCTETS + 1];
    end_line(line, octets_to(line, access, PROFILE_OCTETS));
}

static void without_spaces(char *text)
{
    char *to = text;
    for (const char *c = text; *c; c++)
        if (!strchr(" \t\r\n", *c))
            *to++ = *c;
    *to = '\0';
}

/* A text cannot say what stands past a count. Where that is not zeros, a remark says that it is left out. */
static int say_text(const uint8_t *access)
{
    static char text[PROFILE_TEXT + 1];
    uint8_t again[PROFILE_OCTETS];
    struct profile_fault fault;
    profile_to(text, access);
    if (!profile_from(text, again, &fault))
        return say_fault("profile", &fault);
    if (memcmp(again, access, sizeof again) != 0)
        puts("# left out: octets past a count, which carry no meaning");
    return fputs(text, stdout) == EOF;
}

int profile(int back)
{
    static char text[PROFILE_TEXT + 1];
    uint8_t access[PROFILE_OCTETS];
    struct profile_fault fault = {0, ""};
    if (!read_all(stdin, text, &fault))
        return say_fault("profile", &fault);
    if (!back) {
        if (!profile_from(text, access, &fault))
            return say_fault("profile", &fault);
        say_octets(access);
        return 0;
    }
    without_spaces(text);
    struct profile_fault none = {0, "these are no 447 octets in upper-case hexadecimal"}, bad = {0, "refused 3: it breaks a rule of profiles"};
    if (octets_from(text, access, sizeof access) != (long)sizeof access)
        return say_fault("profile", &none);
    return profile_refused(access, sizeof access) ? say_fault("profile", &bad) : say_text(access);
}
