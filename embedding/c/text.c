/* The texts of the numbers, and the version. */
#include "sws.h"

static const char *const texts[] = {
    "done",
    "a format is not in the table",
    "the target is a palette format",
    "a matrix is none of the five that have names",
    "a range is neither full nor limited",
    "the dither is above 4",
    "the width, the rows or the first row are out of range",
    "the input has another length than the rows of the source",
    "the output has another length than the rows of the target",
    "out of memory",
    "no room for the name",
    "the name is not known",
    "the format has subsampled chroma",
    "the format is in floating point",
    "the format has pixels of less than a byte",
    "the format is not supported",
    "a pointer is null",
    "input and output overlap",
    "the plan is not open",
};

const char *sws_text(uint32_t status)
{
    return status < sizeof texts / sizeof *texts ? texts[status] : "not a number of sws";
}

uint32_t sws_version(void)
{
    return SWS_VERSION;
}
