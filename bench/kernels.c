/* Megapixels a second of the C library beside libswscale, on one thread, from a frame in memory to a frame in memory: the kernels
 * alone, without reading and writing.
 *
 *     embedding/build.sh FOLDER
 *     cc -O2 -Iembedding/include bench/kernels.c FOLDER/libsws.a $(pkg-config --cflags --libs libswscale libavutil) -o kernels
 *     ./kernels [WIDTHxHEIGHT [ROUNDS]]
 *
 * libswscale converts as the ffmpeg program has it do (bicubic, which is of no account at one size). The two are run in turn; of
 * the rounds, each of about a fifth of a second, the fastest counts.
 */
#define _POSIX_C_SOURCE 199309L
#include "sws.h"
#include <libavutil/imgutils.h>
#include <libavutil/pixdesc.h>
#include <libswscale/swscale.h>
#include <stdio.h>
#include <stdlib.h>
#include <time.h>

static const char *const pairs[][2] = {
    {"rgb24", "bgr24"},         {"rgba", "bgra"},           {"nv24", "yuv444p"},      {"gray16le", "gray"},
    {"rgb24", "rgb565le"},      {"rgb24", "yuv444p"},       {"yuv444p", "rgb24"},     {"yuv444p10le", "rgb24"},
    {"rgb48le", "rgb24"},       {"x2rgb10le", "rgb48le"},   {"yuva444p16le", "ayuv64le"},
    {"pal8", "rgba"},           {"gray", "gray16be"},
};

/* What both convert: the same input, each to an output of its own. */
struct job {
    int width, height;
    uint8_t *input, *ours, *theirs;
    uint64_t input_length, output_length;
    struct sws_plan plan;
    struct SwsContext *context;
    uint8_t *from[4], *to[4];
    int from_stride[4], to_stride[4];
};

static double seconds(void)
{
    struct timespec now;
    clock_gettime(CLOCK_MONOTONIC, &now);
    return now.tv_sec + now.tv_nsec / 1e9;
}

static int by_sws(struct job *job)
{
    return sws_run(&job->plan, 0, job->width, job->height, job->input, job->input_length, job->ours, job->output_length) == SWS_OK;
}

static int by_swscale(struct job *job)
{
    return sws_scale(job->context, (const uint8_t *const *)job->from, job->from_stride, 0, job->height, job->to, job->to_stride) ==
           job->height;
}

/* Seconds that a frame takes, or 0 where a conversion fails. */
static double round_of(int (*convert)(struct job *), struct job *job)
{
    double start = seconds(), passed;
    int frames = 0;
    do {
        if (!convert(job))
            return 0;
        frames++;
        passed = seconds() - start;
    } while (passed < 0.2);
    return passed / frames;
}

static int make(struct job *job, const char *from, const char *to)
{
    enum AVPixelFormat source = av_get_pix_fmt(from), target = av_get_pix_fmt(to);
    struct sws_conversion conversion;
    if (sws_open(&conversion, from, to) || sws_make(&conversion, &job->plan) ||
        sws_bytes(conversion.from.format, job->width, job->height, &job->input_length) ||
        sws_bytes(conversion.to.format, job->width, job->height, &job->output_length))
        return 0;
    /* room behind the frames, of which libswscale may read and write some */
    job->input = aligned_alloc(64, (job->input_length + 4095) / 64 * 64);
    job->ours = aligned_alloc(64, (job->output_length + 4095) / 64 * 64);
    job->theirs = aligned_alloc(64, (job->output_length + 4095) / 64 * 64);
    if (!job->input || !job->ours || !job->theirs)
        return 0;
    for (uint64_t k = 0; k < job->input_length; k++)
        job->input[k] = (uint8_t)(k * 167 + (k >> 8) * 59 + 13);
    job->context = sws_getContext(job->width, job->height, source, job->width, job->height, target, SWS_BICUBIC, NULL, NULL, NULL);
    av_image_fill_arrays(job->from, job->from_stride, job->input, source, job->width, job->height, 1);
    av_image_fill_arrays(job->to, job->to_stride, job->theirs, target, job->width, job->height, 1);
    return 1;
}

static void drop(struct job *job)
{
    sws_close(&job->plan);
    sws_freeContext(job->context);
    free(job->input);
    free(job->ours);
    free(job->theirs);
}

static void compare(const char *from, const char *to, int width, int height, int rounds)
{
    struct job job = {.width = width, .height = height};
    double ours = 0, theirs = 0, pixels = width * (double)height / 1e6;
    char pair[64];
    snprintf(pair, sizeof pair, "%s %s", from, to);
    if (!make(&job, from, to)) {
        printf("%-28s cannot be made\n", pair);
        return;
    }
    for (int round = 0; round < rounds; round++) {
        double one = round_of(by_sws, &job), other = job.context ? round_of(by_swscale, &job) : 0;
        ours = ours == 0 || one < ours ? one : ours;
        theirs = theirs == 0 || other < theirs ? other : theirs;
    }
    if (theirs > 0)
        printf("%-28s%10.0f%12.0f%8.2f\n", pair, pixels / ours, pixels / theirs, theirs / ours);
    else
        printf("%-28s%10.0f%12s%8s\n", pair, pixels / ours, "-", "-");
    fflush(stdout);
    drop(&job);
}

int main(int argc, char **argv)
{
    int width = 1920, height = 1080, rounds = argc > 2 ? atoi(argv[2]) : 5;
    if (argc > 1 && sscanf(argv[1], "%dx%d", &width, &height) != 2)
        return fprintf(stderr, "usage: kernels [WIDTHxHEIGHT [ROUNDS]]\n"), 2;
    printf("%-28s%10s%12s%8s\n", "megapixels a second", "sws", "libswscale", "ratio");
    for (size_t k = 0; k < sizeof pairs / sizeof *pairs; k++)
        compare(pairs[k][0], pairs[k][1], width, height, rounds);
    return 0;
}
