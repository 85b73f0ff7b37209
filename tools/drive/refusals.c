/* The local refusals by the header's names, each with document 01's number: so another number in the header is printed as another. */
#include "drive.h"

static const struct {
    int refusal;
    const char *said;
} refusals[] = {
    {SCONCETOAD_SHORT_OUTPUT, "refused 1"},
    {SCONCETOAD_LONG_COMPONENT, "refused 2"},
    {SCONCETOAD_BAD_PROFILE, "refused 3"},
    {SCONCETOAD_BAD_TABLE, "refused 4"},
    {SCONCETOAD_BAD_CALL, "refused 5"},
    {SCONCETOAD_LIMIT_REACHED, "refused 6"},
    {SCONCETOAD_OUTSTANDING, "refused 7"},
    {SCONCETOAD_EXHAUSTED, "refused 8"},
    {SCONCETOAD_BAD_SHEET, "refused 9"},
    {SCONCETOAD_BAD_REQUEST, "refused 10"},
};

const char *refusal_said(uint8_t refusal)
{
    for (size_t i = 0; i < sizeof refusals / sizeof refusals[0]; i++)
        if (refusals[i].refusal == refusal)
            return refusals[i].said;
    return "refused ?";
}

size_t written_of(uint8_t refusal, size_t count)
{
    return refusal == SCONCETOAD_ANSWERED ? count : 0;
}
