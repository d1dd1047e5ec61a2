/* sws: exact conversion between pixel formats.
 *
 * Every function but sws_format_count, sws_close, sws_text and sws_version answers SWS_OK or the number of a refusal, and a refused call
 * changes nothing that it was given. What each answer means is proved of the archive; the few tests that stand in this header
 * (null pointers, overlap, lengths above PTRDIFF_MAX) are not part of that proof.
 *
 * Sizes: width and rows are 1 to 16384, lengths are in bytes. A raw frame is its planes one behind the other, rows without
 * padding; that of pal8 has 1024 bytes of palette behind it.
 *
 * Threads: a call that takes no sws_plan keeps nothing, and any number of threads may make it at once, also with one struct
 * sws_conversion. One owner of a plan serves one call at a time; sws_share gives each thread an owner of its own. No call
 * blocks, starts a thread, or reads a locale, a file or the environment. sws_run and sws_run_planes take no memory. No call may
 * be made from a signal handler.
 */
#ifndef SWS_H
#define SWS_H

#include <stddef.h>
#include <stdint.h>
#include <string.h>

#ifdef __cplusplus
extern "C" {
#endif

#define SWS_VERSION_MAJOR 0
#define SWS_VERSION_MINOR 1
#define SWS_VERSION ((SWS_VERSION_MAJOR << 16) | SWS_VERSION_MINOR)

/* Where more than one applies, the answer is the first of SWS_FORMAT to SWS_OUTPUT_LENGTH in the order here. */
enum sws_status {
    SWS_OK = 0,
    SWS_FORMAT = 1,         /* a format is not below sws_format_count() */
    SWS_PALETTE_TARGET = 2, /* pal8 is a source only */
    SWS_MATRIX = 3,         /* a matrix is none of the five that have names */
    SWS_RANGE = 4,          /* neither SWS_FULL nor SWS_LIMITED */
    SWS_DITHER = 5,         /* above 4 */
    SWS_SIZE = 6,           /* width or rows are not 1 to 16384, or first + rows is not below 2^32 */
    SWS_INPUT_LENGTH = 7,   /* not sws_bytes of the source */
    SWS_OUTPUT_LENGTH = 8,  /* not sws_bytes of the target */
    SWS_MEMORY = 9,         /* an allocation was refused, and nothing else is wrong */
    SWS_NAME_ROOM = 10,     /* no room for a name and the zero byte behind it */
    SWS_UNKNOWN_NAME = 11,
    SWS_SUBSAMPLED = 12,    /* a format of FFmpeg's with fewer chroma samples than luma */
    SWS_FLOAT = 13,         /* a format of FFmpeg's in floating point */
    SWS_BITSTREAM = 14,     /* a format of FFmpeg's with pixels of less than a byte */
    SWS_UNSUPPORTED = 15,   /* another format of FFmpeg's */
    SWS_NULL = 16,          /* a pointer is null */
    SWS_OVERLAP = 17,       /* input and output share a byte */
    SWS_CLOSED = 18         /* the plan is not open */
};

enum sws_range { SWS_FULL = 0, SWS_LIMITED = 1 };

/* One side of a conversion. Of q parts of luma r are red and b are blue; sws_set_matrix sets the three. */
struct sws_side {
    uint32_t format; /* below sws_format_count() */
    uint32_t q, r, b;
    uint32_t range; /* enum sws_range; of no account for red, green and blue */
};

/* A conversion is plain data: copy it, keep it on the stack, share it between threads. It may hold any numbers. */
struct sws_conversion {
    struct sws_side from, to;
    uint32_t dither; /* 0: rounded half up; 1 to 4: ordered dither over squares of 2^dither pixels */
};

/* An owner of a plan: what is made once for a conversion. Begin with {NULL}, which is closed. Never copy one: hand over its address. */
struct sws_plan {
    void *owner;
};

/* What the archive exports. These take pointers as good as they are: call the functions below. A slice of bytes is a pointer
 * and a length. An owner must be open where sws_plan_share takes its first one, and where sws_plan_convert, sws_plan_convert_planes and
 * sws_plan_close take theirs; what an owner held before sws_plan_open or sws_plan_share writes it is forgotten, not freed. */
uint32_t sws_format_count(void);
uint32_t sws_format_find(const uint8_t *name, size_t name_length, uint32_t *format);
uint32_t sws_format_name(uint32_t format, uint8_t *room, size_t room_length);
uint32_t sws_format_range(uint32_t format, uint32_t *range);
uint32_t sws_matrix(const uint8_t *name, size_t name_length, uint32_t *q, uint32_t *r, uint32_t *b);
uint32_t sws_frame_bytes(uint32_t format, uint32_t width, uint32_t rows, uint64_t *bytes);
uint32_t sws_check(const struct sws_conversion *conversion);
uint32_t sws_convert(const struct sws_conversion *conversion, uint32_t first, uint32_t width, uint32_t rows,
                     const uint8_t *input, size_t input_length, uint8_t *output, size_t output_length);
uint32_t sws_plan_open(const struct sws_conversion *conversion, struct sws_plan *plan);
uint32_t sws_plan_share(struct sws_plan *plan, struct sws_plan *other);
uint32_t sws_plan_convert(struct sws_plan *plan, uint32_t first, uint32_t width, uint32_t rows,
                          const uint8_t *input, size_t input_length, uint8_t *output, size_t output_length);
uint32_t sws_plan_convert_planes(struct sws_plan *plan, uint32_t first, uint32_t width, uint32_t rows,
                                 const uint8_t *in0, size_t in0_length, const uint8_t *in1, size_t in1_length,
                                 const uint8_t *in2, size_t in2_length, const uint8_t *in3, size_t in3_length,
                                 size_t in0_stride, size_t in1_stride, size_t in2_stride, size_t in3_stride,
                                 const uint8_t *palette, size_t palette_length, uint8_t *out0, size_t out0_length,
                                 uint8_t *out1, size_t out1_length, uint8_t *out2, size_t out2_length, uint8_t *out3,
                                 size_t out3_length, size_t out0_stride, size_t out1_stride, size_t out2_stride,
                                 size_t out3_stride);
void sws_plan_close(struct sws_plan *plan);

/* Formats, numbered from 0, under FFmpeg's names. */

/* The number of the format of a name, as "yuv444p". SWS_UNKNOWN_NAME to SWS_UNSUPPORTED, SWS_NULL. */
static inline uint32_t sws_find(const char *name, uint32_t *format)
{
    if (!name || !format)
        return SWS_NULL;
    return sws_format_find((const uint8_t *)name, strlen(name), format);
}

/* Writes the name of a format and a zero byte; 16 bytes of room are enough. SWS_FORMAT, SWS_NAME_ROOM, SWS_NULL. */
static inline uint32_t sws_name(uint32_t format, char *room, size_t room_length)
{
    if (!room)
        return SWS_NULL;
    return sws_format_name(format, (uint8_t *)room, room_length > PTRDIFF_MAX ? PTRDIFF_MAX : room_length);
}

/* The bytes of a raw frame of a format, or of some rows of one. SWS_FORMAT, SWS_SIZE, SWS_NULL. */
static inline uint32_t sws_bytes(uint32_t format, uint32_t width, uint32_t rows, uint64_t *bytes)
{
    if (!bytes)
        return SWS_NULL;
    return sws_frame_bytes(format, width, rows, bytes);
}

/* The range that a format is taken to have where nothing else is said: SWS_LIMITED for a format of luma and chroma other than
 * yuvj444p, SWS_FULL for any other. SWS_FORMAT, SWS_NULL. */
static inline uint32_t sws_default_range(uint32_t format, uint32_t *range)
{
    if (!range)
        return SWS_NULL;
    return sws_format_range(format, range);
}

/* Sets the matrix of a side: "bt601", "bt709", "bt2020", "smpte240m" or "fcc". SWS_UNKNOWN_NAME, SWS_NULL. */
static inline uint32_t sws_set_matrix(struct sws_side *side, const char *name)
{
    if (!side || !name)
        return SWS_NULL;
    return sws_matrix((const uint8_t *)name, strlen(name), &side->q, &side->r, &side->b);
}

/* Makes a conversion of two names, with bt601 and sws_default_range on both sides, and no dither: set its fields after it.
 * SWS_PALETTE_TARGET, SWS_UNKNOWN_NAME to SWS_UNSUPPORTED, SWS_NULL. */
static inline uint32_t sws_open(struct sws_conversion *conversion, const char *from, const char *to)
{
    struct sws_conversion made;
    uint32_t status;
    if (!conversion)
        return SWS_NULL;
    memset(&made, 0, sizeof made);
    if ((status = sws_find(from, &made.from.format)) || (status = sws_find(to, &made.to.format)) ||
        (status = sws_set_matrix(&made.from, "bt601")) || (status = sws_set_matrix(&made.to, "bt601")) ||
        (status = sws_default_range(made.from.format, &made.from.range)) ||
        (status = sws_default_range(made.to.format, &made.to.range)) || (status = sws_check(&made)))
        return status;
    *conversion = made;
    return SWS_OK;
}

/* What can be told of the bytes of a call from their addresses and lengths alone. */
static inline uint32_t sws_check_bytes(const uint8_t *input, size_t input_length, const uint8_t *output, size_t output_length)
{
    uintptr_t in = (uintptr_t)input, out = (uintptr_t)output;
    if (!input || !output)
        return SWS_NULL;
    if (input_length > PTRDIFF_MAX)
        return SWS_INPUT_LENGTH;
    if (output_length > PTRDIFF_MAX)
        return SWS_OUTPUT_LENGTH;
    if (in < out + output_length && out < in + input_length)
        return SWS_OVERLAP;
    return SWS_OK;
}

/* Converts rows `first` to `first + rows - 1` of a frame. Input and output hold these rows alone, as a raw frame of their own;
 * only the dither goes by the place in the whole frame. SWS_FORMAT to SWS_MEMORY, SWS_NULL, SWS_OVERLAP. */
static inline uint32_t sws_convert_rows(const struct sws_conversion *conversion, uint32_t first, uint32_t width, uint32_t rows,
                                        const uint8_t *input, size_t input_length, uint8_t *output, size_t output_length)
{
    uint32_t status = conversion ? sws_check_bytes(input, input_length, output, output_length) : (uint32_t)SWS_NULL;
    if (status)
        return status;
    return sws_convert(conversion, first, width, rows, input, input_length, output, output_length);
}

/* Makes the plan of a conversion, and its first owner. SWS_FORMAT to SWS_DITHER, SWS_MEMORY, SWS_NULL. An owner that was open
 * before has to be closed first. */
static inline uint32_t sws_make(const struct sws_conversion *conversion, struct sws_plan *plan)
{
    if (!conversion || !plan)
        return SWS_NULL;
    return sws_plan_open(conversion, plan);
}

/* Makes another owner of a plan, for another thread; the plan is not copied. `other` is new or closed. SWS_MEMORY, SWS_NULL,
 * SWS_CLOSED. */
static inline uint32_t sws_share(struct sws_plan *plan, struct sws_plan *other)
{
    if (!plan || !other || plan == other)
        return SWS_NULL;
    if (!plan->owner)
        return SWS_CLOSED;
    return sws_plan_share(plan, other);
}

/* As sws_convert_rows, by a plan. It takes no memory. SWS_SIZE to SWS_OUTPUT_LENGTH, SWS_NULL, SWS_OVERLAP, SWS_CLOSED. */
static inline uint32_t sws_run(struct sws_plan *plan, uint32_t first, uint32_t width, uint32_t rows, const uint8_t *input,
                               size_t input_length, uint8_t *output, size_t output_length)
{
    uint32_t status = plan ? sws_check_bytes(input, input_length, output, output_length) : (uint32_t)SWS_NULL;
    if (status)
        return status;
    if (!plan->owner)
        return SWS_CLOSED;
    return sws_plan_convert(plan, first, width, rows, input, input_length, output, output_length);
}

/* Up to four planes, those of a raw frame of the format in their order: plane p has length[p] bytes at bytes[p], and its row r
 * stands at bytes[p] + r * stride[p]. The bytes reach to the end of the last row, and no row reaches into the next. A null
 * pointer is a plane of no bytes and no stride. */
struct sws_source_planes {
    const uint8_t *bytes[4];
    size_t stride[4], length[4];
    const uint8_t *palette; /* 1024 bytes of a pal8 source, else null */
};

struct sws_target_planes {
    uint8_t *bytes[4];
    size_t stride[4], length[4];
};

/* Whether a slice of bytes shares one with another. */
static inline int sws_overlap(const uint8_t *bytes, size_t length, const uint8_t *other, size_t other_length)
{
    uintptr_t at = (uintptr_t)bytes, there = (uintptr_t)other;
    return bytes && other && length && other_length && at < there + other_length && there < at + length;
}

/* What can be told of planes from their addresses and lengths alone. */
static inline uint32_t sws_check_planes(const struct sws_source_planes *input, const struct sws_target_planes *output)
{
    int p, other;
    for (p = 0; p < 4; p++)
        if (input->bytes[p] && input->length[p] > PTRDIFF_MAX)
            return SWS_INPUT_LENGTH;
    for (p = 0; p < 4; p++)
        if (output->bytes[p] && output->length[p] > PTRDIFF_MAX)
            return SWS_OUTPUT_LENGTH;
    for (p = 0; p < 4; p++) {
        if (sws_overlap(output->bytes[p], output->length[p], input->palette, 1024))
            return SWS_OVERLAP;
        for (other = 0; other < 4; other++)
            if (sws_overlap(output->bytes[p], output->length[p], input->bytes[other], input->length[other]) ||
                (other != p && sws_overlap(output->bytes[p], output->length[p], output->bytes[other], output->length[other])))
                return SWS_OVERLAP;
    }
    return SWS_OK;
}

/* As sws_run, from planes to planes, and nothing is copied. The bytes between the rows stay. SWS_INPUT_LENGTH, SWS_OUTPUT_LENGTH:
 * a plane is too short, a stride is below the bytes of a row, or the palette is missing. It takes no memory. SWS_SIZE to
 * SWS_OUTPUT_LENGTH, SWS_NULL, SWS_OVERLAP (also of two planes of the output), SWS_CLOSED. */
static inline uint32_t sws_run_planes(struct sws_plan *plan, uint32_t first, uint32_t width, uint32_t rows,
                                      const struct sws_source_planes *input, const struct sws_target_planes *output)
{
    uint8_t none[4] = {0, 0, 0, 0};
    const uint8_t *in[4];
    uint8_t *out[4];
    size_t in_length[4], in_stride[4], out_length[4], out_stride[4];
    uint32_t status = plan && input && output ? sws_check_planes(input, output) : (uint32_t)SWS_NULL;
    int p;
    if (status)
        return status;
    if (!plan->owner)
        return SWS_CLOSED;
    for (p = 0; p < 4; p++) {
        in[p] = input->bytes[p] ? input->bytes[p] : none;
        in_length[p] = input->bytes[p] ? input->length[p] : 0;
        in_stride[p] = input->bytes[p] ? input->stride[p] : 0;
        out[p] = output->bytes[p] ? output->bytes[p] : &none[p];
        out_length[p] = output->bytes[p] ? output->length[p] : 0;
        out_stride[p] = output->bytes[p] ? output->stride[p] : 0;
    }
    return sws_plan_convert_planes(plan, first, width, rows, in[0], in_length[0], in[1], in_length[1], in[2],
                                   in_length[2], in[3], in_length[3], in_stride[0], in_stride[1], in_stride[2], in_stride[3],
                                   input->palette ? input->palette : none, input->palette ? 1024 : 0, out[0], out_length[0],
                                   out[1], out_length[1], out[2], out_length[2], out[3], out_length[3], out_stride[0],
                                   out_stride[1], out_stride[2], out_stride[3]);
}

/* Gives an owner back; the last one frees the plan. Closing it again does nothing. */
static inline void sws_close(struct sws_plan *plan)
{
    if (plan && plan->owner) {
        sws_plan_close(plan);
        plan->owner = NULL;
    }
}

/* The English text of a number that a call answered. */
const char *sws_text(uint32_t status);

/* The version of the archive: SWS_VERSION of the header that it was built with. */
uint32_t sws_version(void);

#ifdef __cplusplus
}
#endif
#endif
