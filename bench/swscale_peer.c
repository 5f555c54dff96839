#include <libavutil/avutil.h>
#include <libavutil/pixfmt.h>
#include <libswscale/swscale.h>
#include <stdlib.h>

#include "contestants.h"

struct work {
    struct SwsContext *context;
    struct rows *rows;
    const uint8_t *in[4];
    uint8_t *out[4];
    int stride[4];
};

static enum AVPixelFormat word_format(const struct system *system)
{
    return system->bits == 8 ? AV_PIX_FMT_YUV444P : system->bits == 10 ? AV_PIX_FMT_YUV444P10 : AV_PIX_FMT_YUV444P12;
}

static enum AVPixelFormat code_format(const struct system *system)
{
    return system->bits == 8 ? AV_PIX_FMT_GBRP : system->bits == 10 ? AV_PIX_FMT_GBRP10 : AV_PIX_FMT_GBRP12;
}

// swscale's R'G'B' is always full range. Told that Y' is full range too, it leaves black and white where they are; its
// coefficients, which it then reads for differences as wide as Y', are made 219/224 of themselves. That is the nominal R'G'B'.
static void set_nominal(struct SwsContext *context, const struct system *system)
{
    const int *table = sws_getCoefficients(system->number <= 2 ? SWS_CS_ITU709 : SWS_CS_BT2020);
    int narrowed[4];
    for (int i = 0; i < 4; i++)
        narrowed[i] = (int)(((int64_t)table[i] * 219 + 112) / 224);
    if (sws_setColorspaceDetails(context, narrowed, 1, narrowed, 1, 0, 1 << 16, 1 << 16) < 0)
        stop("swscale takes no coefficients");
}

static void run(void *state)
{
    struct work *work = state;
    int height = (int)work->rows->count;
    if (sws_scale(work->context, work->in, work->stride, 0, height, work->out, work->stride) != height)
        stop("swscale made too few rows");
}

// At 8 bits its samples are bytes.
static void collect(void *state)
{
    struct work *work = state;
    if (work->rows->system->bits == 8)
        for (int p = 0; p < PLANES; p++)
            for (size_t at = 0; at < samples(work->rows); at++)
                work->rows->result[p][at] = work->rows->byte_result[p][at];
}

static void end(void *state)
{
    struct work *work = state;
    sws_freeContext(work->context);
    free(work);
}

struct contestant swscale_of_words(struct rows *rows, const char *name)
{
    static const int PLANE_OF[PLANES] = {1, 2, 0}; // its planes are G, B, R
    struct work *work = aligned_zero(sizeof *work);
    int width = (int)rows->width, height = (int)rows->count, bytes = rows->system->bits == 8 ? 1 : 2;
    work->rows = rows;
    work->context = sws_getContext(width, height, word_format(rows->system), width, height, code_format(rows->system),
                                   SWS_POINT | SWS_ACCURATE_RND | SWS_FULL_CHR_H_INT, NULL, NULL, NULL);
    if (!work->context)
        stop("swscale has no such conversion");
    set_nominal(work->context, rows->system);
    for (int p = 0; p < PLANES; p++) {
        work->in[p] = bytes == 1 ? rows->byte_words[p] : (const uint8_t *)rows->words[p];
        work->out[p] = bytes == 1 ? rows->byte_result[PLANE_OF[p]] : (uint8_t *)rows->result[PLANE_OF[p]];
        work->stride[p] = bytes * width;
    }
    return (struct contestant){WORDS_TO_CODES, name, run, collect, end, work};
}

const char *swscale_release(void)
{
    return av_version_info();
}
