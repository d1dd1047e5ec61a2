/* Random calls, right and wrong: calls COUNT [SEED]. Each answer is compared with one that is computed here, the output with what
 * it was where a call is refused, and a plan with a conversion that keeps nothing. Allocations are refused at random where
 * it is built with -DSWS_REFUSES, as is heap.c. */
#include "sws.h"
#include <stdio.h>
#include <stdlib.h>

#ifdef SWS_REFUSES
extern _Thread_local unsigned long sws_refused, sws_asked;
#define REFUSE_AT(number) (sws_asked = 0, sws_refused = (number))
#else
#define REFUSE_AT(number) ((void)0)
#endif

#define MUST(fact)                                                                  \
    do {                                                                            \
        if (!(fact)) {                                                              \
            printf("calls.c:%d: call %lu: not %s\n", __LINE__, call, #fact);        \
            exit(1);                                                                \
        }                                                                           \
    } while (0)

static const char *const matrices[] = {"bt601", "bt709", "bt2020", "smpte240m", "fcc"};
static uint64_t state;
static unsigned long call, seen[SWS_CLOSED + 1];
static uint32_t formats, pal8;

/* One call: what it is asked, and the bytes that it is handed. */
struct asked {
    struct sws_conversion conversion;
    uint32_t first, width, rows;
    size_t input_length, output_length;
    uint8_t *input, *output, *before, *again;
};

/* a number below n, or any where n is 0 */
static uint32_t below(uint32_t n)
{
    state ^= state << 13, state ^= state >> 7, state ^= state << 17;
    return n ? (uint32_t)((state >> 16) % n) : (uint32_t)(state >> 16);
}

static void test_names(void)
{
    uint32_t found = 77, number = below(formats + 3), length = below(24);
    size_t room = below(17);
    uint8_t *bytes = malloc(length + 1);
    char *name = malloc(room + 1);
    for (uint32_t i = 0; i < length; i++)
        bytes[i] = below(4) ? "yuvrgbap0123456789leb_"[below(22)] : (uint8_t)below(256);
    uint32_t status = sws_format_find(bytes, length, &found);
    MUST(status ? found == 77 && status >= SWS_UNKNOWN_NAME && status <= SWS_UNSUPPORTED : found < formats);
    memset(name, 7, room + 1);
    status = sws_name(number, name, room);
    MUST(number < formats || status == SWS_FORMAT);
    if (status)
        MUST(status == SWS_FORMAT || status == SWS_NAME_ROOM);
    else
        MUST(!sws_find(name, &found) && found == number);
    for (size_t i = status ? 0 : strlen(name) + 1; i <= room; i++)
        MUST(name[i] == 7);
    free(bytes);
    free(name);
}

/* by its name: only those of formats with chroma have a v or begin with p4 */
static uint32_t wanted_range(const char *name)
{
    int has_chroma = strchr(name, 'v') || !strncmp(name, "p4", 2);
    return has_chroma && strcmp(name, "yuvj444p") ? SWS_LIMITED : SWS_FULL;
}

/* the range of each format, and that a conversion begins with it */
static void test_ranges(void)
{
    for (uint32_t number = 0; number < formats; number++) {
        struct sws_conversion conversion;
        uint32_t range = 77, yuv444p;
        char name[16];
        MUST(sws_name(number, name, sizeof name) == SWS_OK && sws_default_range(number, &range) == SWS_OK);
        MUST(range == wanted_range(name));
        MUST(sws_default_range(number, NULL) == SWS_NULL && sws_find("yuv444p", &yuv444p) == SWS_OK);
        MUST(sws_open(&conversion, name, "yuv444p") == SWS_OK);
        MUST(conversion.from.range == range && conversion.to.range == SWS_LIMITED);
        MUST(conversion.from.format == number && conversion.to.format == yuv444p);
        MUST(sws_open(&conversion, "yuv444p", name) == (number == pal8 ? SWS_PALETTE_TARGET : SWS_OK));
        MUST(number == pal8 || conversion.to.range == range);
    }
}

/* a number that is no format changes nothing */
static void test_no_range(void)
{
    uint32_t range = 77, number = below(2) ? formats + below(3) : below(0);
    MUST(number < formats || (sws_default_range(number, &range) == SWS_FORMAT && range == 77));
}

static void any_side(struct sws_side *side)
{
    side->format = below(40) ? below(formats) : below(3) ? formats + below(3) : below(0);
    side->range = below(30) ? below(2) : below(0);
    MUST(sws_set_matrix(side, matrices[below(5)]) == SWS_OK);
    if (!below(20))
        *(below(3) ? &side->q : below(2) ? &side->r : &side->b) += 1 + below(3);
    if (!below(40))
        side->q = below(0), side->r = below(0), side->b = below(0);
}

static int has_name(const struct sws_side *side)
{
    for (int i = 0; i < 5; i++) {
        struct sws_side named = *side;
        sws_set_matrix(&named, matrices[i]);
        if (!memcmp(&named, side, sizeof named))
            return 1;
    }
    return 0;
}

static int is_size(const struct asked *asked)
{
    return asked->width >= 1 && asked->width <= 16384 && asked->rows >= 1 && asked->rows <= 16384;
}

/* the length of some rows, now and then wrong by one; of large ones a short length */
static size_t any_length(uint32_t format, const struct asked *asked)
{
    uint64_t length = 0;
    uint32_t status = sws_bytes(format, asked->width, asked->rows, &length);
    MUST(status == (format >= formats ? SWS_FORMAT : is_size(asked) ? SWS_OK : SWS_SIZE));
    if (length > 8192)
        length = 64;
    return length + (below(12) ? 0 : below(2) ? 1 : -(length > 0));
}

static void any_call(struct asked *asked)
{
    any_side(&asked->conversion.from);
    any_side(&asked->conversion.to);
    asked->conversion.dither = below(20) ? below(5) : below(0);
    asked->first = below(10) ? below(10000) : below(0);
    asked->width = below(15) ? 1 + below(below(8) ? 9 : 140) : below(2) ? below(20000) : below(0);
    asked->rows = below(15) ? 1 + below(5) : below(2) ? below(20000) : below(0);
    asked->input_length = any_length(asked->conversion.from.format, asked);
    asked->output_length = any_length(asked->conversion.to.format, asked);
    asked->input = malloc(asked->input_length + 1);
    asked->output = malloc(asked->output_length + 1);
    asked->before = malloc(asked->output_length + 1);
    asked->again = malloc(asked->output_length + 1);
    /* of the length that is told, so that the sanitizer sees a byte too far */
    asked->input = realloc(asked->input, asked->input_length ? asked->input_length : 1);
    asked->output = realloc(asked->output, asked->output_length ? asked->output_length : 1);
    for (size_t i = 0; i < asked->input_length; i++)
        asked->input[i] = (uint8_t)(below(3) ? below(256) : below(2) ? 0 : 255);
    for (size_t i = 0; i < asked->output_length; i++)
        asked->again[i] = asked->before[i] = asked->output[i] = (uint8_t)below(256);
}

/* what the call has to answer, but for want of memory */
static uint32_t wanted(const struct asked *asked)
{
    const struct sws_side *from = &asked->conversion.from, *to = &asked->conversion.to;
    uint64_t length;
    if (from->format >= formats || to->format >= formats)
        return SWS_FORMAT;
    if (to->format == pal8)
        return SWS_PALETTE_TARGET;
    if (!has_name(from) || !has_name(to))
        return SWS_MATRIX;
    if (from->range > 1 || to->range > 1)
        return SWS_RANGE;
    if (asked->conversion.dither > 4)
        return SWS_DITHER;
    if (!is_size(asked) || (uint64_t)asked->first + asked->rows > 0xffffffffu)
        return SWS_SIZE;
    if (sws_bytes(from->format, asked->width, asked->rows, &length) || length != asked->input_length)
        return SWS_INPUT_LENGTH;
    if (sws_bytes(to->format, asked->width, asked->rows, &length) || length != asked->output_length)
        return SWS_OUTPUT_LENGTH;
    return SWS_OK;
}

static void test_pointers(const struct asked *asked)
{
    const struct sws_conversion *conversion = &asked->conversion;
    MUST(sws_convert_rows(NULL, 0, 1, 1, asked->input, 1, asked->output, 1) == SWS_NULL);
    MUST(sws_convert_rows(conversion, 0, 1, 1, NULL, 1, asked->output, 1) == SWS_NULL);
    MUST(sws_convert_rows(conversion, 0, 1, 1, asked->input, 1, NULL, 1) == SWS_NULL);
    MUST(sws_convert_rows(conversion, 0, 1, 1, asked->output, 1, asked->output, 1) == SWS_OVERLAP);
    MUST(sws_convert_rows(conversion, 0, 1, 1, asked->input, (size_t)-1, asked->output, 1) == SWS_INPUT_LENGTH);
}

static uint32_t test_convert(const struct asked *asked)
{
    uint32_t want = wanted(asked);
    REFUSE_AT(below(2) ? 1 + below(12) : 0);
    uint32_t status = sws_convert_rows(&asked->conversion, asked->first, asked->width, asked->rows, asked->input,
                                       asked->input_length, asked->output, asked->output_length);
    REFUSE_AT(0);
    seen[status < SWS_CLOSED ? status : SWS_CLOSED]++;
#ifdef SWS_REFUSES
    MUST(status == want || (want == SWS_OK && status == SWS_MEMORY));
#else
    MUST(status == want);
#endif
    if (status)
        MUST(!memcmp(asked->before, asked->output, asked->output_length));
    return status;
}

static uint32_t run(struct sws_plan *plan, const struct asked *asked)
{
    REFUSE_AT(1); /* no memory is taken */
    uint32_t status = sws_run(plan, asked->first, asked->width, asked->rows, asked->input, asked->input_length, asked->again,
                              asked->output_length);
    REFUSE_AT(0);
    return status;
}

/* the same by a plan, which is shared, and closed in any order */
static void test_plan(const struct asked *asked, uint32_t status)
{
    struct sws_plan plan = {NULL}, other = {NULL};
    REFUSE_AT(below(2) ? 1 + below(12) : 0);
    uint32_t made = sws_make(&asked->conversion, &plan), want = wanted(asked);
    uint32_t shared = made ? made : sws_share(&plan, &other);
    REFUSE_AT(0);
    MUST(made == SWS_OK || !plan.owner);
    MUST(made == (want < SWS_SIZE ? want : SWS_OK) || made == SWS_MEMORY);
    MUST(shared == made || shared == SWS_MEMORY);
    if (!shared && below(2))
        sws_close(&plan);
    if (!made) {
        MUST(run(plan.owner ? &plan : &other, asked) == want);
        if (!status)
            MUST(!memcmp(asked->again, asked->output, asked->output_length));
        if (want)
            MUST(!memcmp(asked->again, asked->before, asked->output_length));
    }
    sws_close(&plan);
    sws_close(&plan);
    MUST(run(&plan, asked) == SWS_CLOSED && sws_share(&plan, &other) == SWS_CLOSED);
    sws_close(&other);
}

/* a picture in planes of its own, with bytes between the rows and behind the last */
struct planes {
    size_t size[4], stride[4], length[4];
    uint8_t *bytes[4], *before[4];
};

/* The bytes of a pixel in a plane, 1 to 8, or 0 where there is no such plane: the least length that is taken for a row of one. */
static size_t pixel_bytes(struct sws_plan *plan, int of_output, int plane)
{
    static uint8_t in[4][16], out[4][16], palette[1024];
    size_t n;
    for (n = 0; n <= 8; n++) {
        struct sws_source_planes input = {{in[0], in[1], in[2], in[3]}, {16, 16, 16, 16}, {16, 16, 16, 16}, palette};
        struct sws_target_planes output = {{out[0], out[1], out[2], out[3]}, {16, 16, 16, 16}, {16, 16, 16, 16}};
        *(of_output ? &output.length[plane] : &input.length[plane]) = n;
        uint32_t status = sws_run_planes(plan, 0, 1, 1, &input, &output);
        MUST(status == SWS_OK || status == (of_output ? SWS_OUTPUT_LENGTH : SWS_INPUT_LENGTH));
        if (status == SWS_OK)
            break;
    }
    MUST(n <= 8);
    return n;
}

static void any_planes(struct planes *planes, struct sws_plan *plan, int of_output, const struct asked *asked)
{
    for (int p = 0; p < 4; p++) {
        planes->size[p] = asked->width * pixel_bytes(plan, of_output, p);
        planes->stride[p] = planes->size[p] + (below(3) ? below(9) : 0);
        planes->length[p] = (asked->rows - 1) * planes->stride[p] + planes->size[p] + (below(3) ? 0 : below(5));
        planes->bytes[p] = malloc(planes->length[p] + !planes->length[p]);
        planes->before[p] = malloc(planes->length[p] + 1);
        for (size_t i = 0; i < planes->length[p]; i++)
            planes->before[p][i] = planes->bytes[p][i] = (uint8_t)below(256);
    }
}

/* the same rows as a raw frame, copied into the planes, or put over what these were before; its length without a palette */
static size_t copy_frame(struct planes *planes, const uint8_t *frame, uint32_t rows, int over)
{
    size_t at = 0;
    for (int p = 0; p < 4; p++)
        for (uint32_t row = 0; row < rows; row++, at += planes->size[p])
            memcpy((over ? planes->before : planes->bytes)[p] + row * planes->stride[p], frame + at, planes->size[p]);
    return at;
}

/* a plane that is too short by a byte, or has too short a stride, where it has pixels */
static int any_fault(struct planes *planes, uint32_t rows)
{
    int p = (int)below(4);
    if (!planes->size[p])
        return 0;
    if (below(2) || planes->stride[p] == 0)
        planes->length[p] = (rows - 1) * planes->stride[p] + planes->size[p] - 1;
    else
        planes->stride[p] = planes->size[p] - 1;
    return 1;
}

/* and from planes to planes: the rows are those of the raw frame, and the bytes between them stay */
static void test_planes(const struct asked *asked)
{
    struct sws_plan plan = {NULL};
    struct planes in, out;
    struct sws_source_planes input;
    struct sws_target_planes output;
    uint32_t want = SWS_OK;
    int pal = asked->conversion.from.format == pal8;
    if (sws_make(&asked->conversion, &plan))
        return;
    any_planes(&in, &plan, 0, asked);
    any_planes(&out, &plan, 1, asked);
    MUST(copy_frame(&in, asked->input, asked->rows, 0) + (pal ? 1024 : 0) == asked->input_length);
    if (!below(4) && any_fault(&out, asked->rows))
        want = SWS_OUTPUT_LENGTH;
    if (!below(4) && any_fault(&in, asked->rows))
        want = SWS_INPUT_LENGTH;
    if (want == SWS_OK)
        MUST(copy_frame(&out, asked->output, asked->rows, 1) == asked->output_length);
    input.palette = pal ? asked->input + asked->input_length - 1024 : NULL;
    for (int p = 0; p < 4; p++) {
        input.bytes[p] = in.size[p] || below(2) ? in.bytes[p] : NULL;
        output.bytes[p] = out.size[p] || below(2) ? out.bytes[p] : NULL;
        input.stride[p] = in.stride[p], input.length[p] = in.length[p];
        output.stride[p] = out.stride[p], output.length[p] = out.length[p];
    }
    if (pal && !below(8))
        input.palette = NULL, want = SWS_INPUT_LENGTH;
    if (want != SWS_OK) /* nothing may be put over */
        for (int p = 0; p < 4; p++)
            memcpy(out.before[p], out.bytes[p], out.length[p]);
    REFUSE_AT(1);
    MUST(sws_run_planes(&plan, asked->first, asked->width, asked->rows, &input, &output) == want);
    REFUSE_AT(0);
    for (int p = 0; p < 4; p++)
        MUST(!memcmp(out.bytes[p], out.before[p], out.length[p]));
    MUST(sws_run_planes(&plan, 0, 0, 1, &input, &output) == SWS_SIZE);
    MUST(sws_run_planes(&plan, 0, 1, 1, NULL, &output) == SWS_NULL);
    if (in.length[0]) {
        output.bytes[1] = in.bytes[0], output.length[1] = in.length[0];
        MUST(sws_run_planes(&plan, 0, 1, 1, &input, &output) == SWS_OVERLAP);
        output.bytes[1] = NULL;
    }
    sws_close(&plan);
    MUST(sws_run_planes(&plan, 0, 1, 1, &input, &output) == SWS_CLOSED);
    for (int p = 0; p < 4; p++)
        free(in.bytes[p]), free(in.before[p]), free(out.bytes[p]), free(out.before[p]);
}

int main(int argc, char **argv)
{
    unsigned long calls = argc > 1 ? strtoul(argv[1], NULL, 10) : 500;
    state = 88172645463325252u + (argc > 2 ? strtoul(argv[2], NULL, 10) : 0) * 1000003u;
    formats = sws_format_count();
    MUST(sws_find("pal8", &pal8) == SWS_OK && sws_version() == SWS_VERSION);
    test_ranges();
    for (call = 0; call < calls; call++) {
        struct asked asked;
        memset(&asked, 0, sizeof asked);
        test_names();
        test_no_range();
        any_call(&asked);
        test_pointers(&asked);
        uint32_t status = test_convert(&asked);
        test_plan(&asked, status);
        if (status == SWS_OK)
            test_planes(&asked);
        free(asked.input), free(asked.output), free(asked.before), free(asked.again);
    }
    printf("%lu calls:", calls);
    for (uint32_t i = 0; i <= SWS_CLOSED; i++)
        if (seen[i])
            printf(" %lu %s;", seen[i], sws_text(i));
    printf("\n");
    return 0;
}
