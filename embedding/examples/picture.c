/* Converts a picture: picture FROM TO WIDTHxHEIGHT < raw frame > raw frame. */
#include "sws.h"
#include <stdio.h>
#include <stdlib.h>

static int refused(const char *what, uint32_t status)
{
    fprintf(stderr, "picture: %s: %s\n", what, sws_text(status));
    return 1;
}

static int convert(const struct sws_conversion *conversion, uint32_t width, uint32_t height)
{
    uint64_t input_length, output_length;
    uint32_t status;
    if ((status = sws_bytes(conversion->from.format, width, height, &input_length)) ||
        (status = sws_bytes(conversion->to.format, width, height, &output_length)))
        return refused("size", status);
    uint8_t *input = malloc(input_length), *output = malloc(output_length);
    if (!input || !output)
        return refused("frame", SWS_MEMORY);
    size_t read = fread(input, 1, input_length, stdin);
    status = sws_convert_rows(conversion, 0, width, height, input, read, output, output_length);
    if (!status)
        fwrite(output, 1, output_length, stdout);
    free(input);
    free(output);
    return status ? refused("frame", status) : 0;
}

int main(int argc, char **argv)
{
    struct sws_conversion conversion;
    unsigned width, height;
    if (argc != 4 || sscanf(argv[3], "%ux%u", &width, &height) != 2)
        return fprintf(stderr, "usage: picture FROM TO WIDTHxHEIGHT\n"), 2;
    uint32_t status = sws_open(&conversion, argv[1], argv[2]);
    return status ? refused("formats", status) : convert(&conversion, width, height);
}
