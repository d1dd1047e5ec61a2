/* Converts a frame in slices on four threads, and compares it with the whole frame. Prints "same". */
#include "sws.h"
#include <pthread.h>
#include <stdio.h>
#include <stdlib.h>

enum { WIDTH = 320, HEIGHT = 240, THREADS = 4, ROWS = HEIGHT / THREADS, FROM = 4 * WIDTH, TO = 3 * WIDTH };

struct slice {
    struct sws_plan plan; /* an owner of its own */
    uint32_t first, status;
    const uint8_t *input;
    uint8_t *output;
};

static uint8_t input[FROM * HEIGHT], whole[TO * HEIGHT], sliced[TO * HEIGHT];

static void *work(void *argument)
{
    struct slice *slice = argument;
    slice->status =
        sws_run(&slice->plan, slice->first, WIDTH, ROWS, slice->input, FROM * ROWS, slice->output, TO * ROWS);
    sws_close(&slice->plan);
    return NULL;
}

/* Packed formats, so that the rows of a slice stand one behind the other in the frame. */
static uint32_t in_slices(struct sws_plan *plan)
{
    pthread_t threads[THREADS];
    struct slice slices[THREADS];
    uint32_t status = SWS_OK, started = 0;
    for (uint32_t i = 0; i < THREADS && !status; i++) {
        slices[i] = (struct slice){{NULL}, i * ROWS, 0, input + FROM * ROWS * i, sliced + TO * ROWS * i};
        status = sws_share(plan, &slices[i].plan);
        if (!status && pthread_create(&threads[i], NULL, work, &slices[i])) {
            sws_close(&slices[i].plan);
            status = SWS_MEMORY;
        }
        started += !status;
    }
    for (uint32_t i = 0; i < started; i++) {
        pthread_join(threads[i], NULL);
        status = status ? status : slices[i].status;
    }
    return status;
}

int main(void)
{
    struct sws_conversion conversion;
    struct sws_plan plan = {NULL};
    for (int i = 0; i < FROM * HEIGHT; i++)
        input[i] = (uint8_t)(i * 7 + i / 251);
    uint32_t status = sws_open(&conversion, "rgba", "bgr24");
    if (!status)
        status = sws_make(&conversion, &plan);
    if (!status)
        status = sws_run(&plan, 0, WIDTH, HEIGHT, input, sizeof input, whole, sizeof whole);
    if (!status)
        status = in_slices(&plan);
    sws_close(&plan);
    puts(status ? sws_text(status) : memcmp(whole, sliced, sizeof whole) ? "differs" : "same");
    return status || memcmp(whole, sliced, sizeof whole);
}
