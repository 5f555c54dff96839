#include <stdio.h>
#include <stdlib.h>
#include <zimg.h>

#include "contestants.h"

struct work {
    zimg_filter_graph *graph;
    void *memory;
    zimg_image_buffer_const in;
    zimg_image_buffer out;
};

static int is_709(const struct system *system)
{
    return system->number <= 2;
}

static zimg_transfer_characteristics_e transfer(const struct system *system)
{
    static const zimg_transfer_characteristics_e OF[SYSTEM_COUNT] = {
        ZIMG_TRANSFER_BT709, ZIMG_TRANSFER_BT709, ZIMG_TRANSFER_BT2020_10, ZIMG_TRANSFER_BT2020_12};
    return OF[system->number - 1];
}

// What is common to both ends: no scaling, and the same primaries, so that only the named conversions are left.
static zimg_image_format format(const struct rows *rows)
{
    zimg_image_format f;
    zimg_image_format_default(&f, ZIMG_API_VERSION);
    f.width = (unsigned)rows->width;
    f.height = (unsigned)rows->count;
    f.color_primaries = is_709(rows->system) ? ZIMG_PRIMARIES_BT709 : ZIMG_PRIMARIES_BT2020;
    return f;
}

// Floats from 0 to 1: zimg computes in these, so it is spared a conversion.
static zimg_image_format light_format(const struct rows *rows)
{
    zimg_image_format f = format(rows);
    f.pixel_type = ZIMG_PIXEL_FLOAT;
    f.depth = 32;
    f.color_family = ZIMG_COLOR_RGB;
    f.matrix_coefficients = ZIMG_MATRIX_RGB;
    f.transfer_characteristics = ZIMG_TRANSFER_LINEAR;
    f.pixel_range = ZIMG_RANGE_FULL;
    return f;
}

static zimg_image_format code_format(const struct rows *rows)
{
    zimg_image_format f = format(rows);
    f.pixel_type = ZIMG_PIXEL_WORD;
    f.depth = (unsigned)rows->system->bits;
    f.color_family = ZIMG_COLOR_RGB;
    f.matrix_coefficients = ZIMG_MATRIX_RGB;
    f.transfer_characteristics = transfer(rows->system);
    f.pixel_range = ZIMG_RANGE_LIMITED;
    return f;
}

static zimg_image_format word_format(const struct rows *rows)
{
    zimg_image_format f = code_format(rows);
    f.color_family = ZIMG_COLOR_YUV;
    f.matrix_coefficients = is_709(rows->system) ? ZIMG_MATRIX_BT709 : ZIMG_MATRIX_BT2020_NCL;
    return f;
}

static _Noreturn void fail(const char *what)
{
    char text[256] = "";
    zimg_get_last_error(text, sizeof text);
    fprintf(stderr, "zimg, %s: %s\n", what, text);
    exit(1);
}

static void run(void *state)
{
    struct work *work = state;
    if (zimg_filter_graph_process(work->graph, &work->in, &work->out, work->memory, 0, 0, 0, 0))
        fail("process");
}

static void nothing(void *state)
{
    (void)state;
}

static void end(void *state)
{
    struct work *work = state;
    zimg_filter_graph_free(work->graph);
    free(work->memory);
    free(work);
}

static struct work *work_of(zimg_image_format from, zimg_image_format to, zimg_cpu_type_e cpu, int approximate_gamma)
{
    zimg_graph_builder_params params;
    zimg_graph_builder_params_default(&params, ZIMG_API_VERSION);
    params.dither_type = ZIMG_DITHER_NONE;
    params.cpu_type = cpu;
    params.allow_approximate_gamma = (char)approximate_gamma;
    struct work *work = aligned_zero(sizeof *work);
    size_t bytes;
    work->graph = zimg_filter_graph_build(&from, &to, &params);
    if (!work->graph || zimg_filter_graph_get_tmp_size(work->graph, &bytes))
        fail("graph");
    work->memory = aligned_zero(bytes + ALIGN);
    work->in.version = work->out.version = ZIMG_API_VERSION;
    return work;
}

static void connect(struct work *work, int plane, const void *from, size_t from_stride, void *to, size_t to_stride)
{
    work->in.plane[plane].data = from;
    work->in.plane[plane].stride = (ptrdiff_t)from_stride;
    work->in.plane[plane].mask = ZIMG_BUFFER_MAX;
    work->out.plane[plane].data = to;
    work->out.plane[plane].stride = (ptrdiff_t)to_stride;
    work->out.plane[plane].mask = ZIMG_BUFFER_MAX;
}

struct contestant zimg_of_light(struct rows *rows, const char *name, int approximate_gamma)
{
    struct work *work = work_of(light_format(rows), word_format(rows), ZIMG_CPU_AUTO_64B, approximate_gamma);
    for (int p = 0; p < PLANES; p++)
        connect(work, p, rows->linear[p], 4 * rows->width, rows->result[p], 2 * rows->width);
    return (struct contestant){LIGHT_TO_WORDS, name, run, nothing, end, work};
}

struct contestant zimg_of_codes(struct rows *rows, const char *name)
{
    struct work *work = work_of(code_format(rows), word_format(rows), ZIMG_CPU_AUTO_64B, 0);
    for (int p = 0; p < PLANES; p++)
        connect(work, p, rows->codes[p], 2 * rows->width, rows->result[p], 2 * rows->width);
    return (struct contestant){CODES_TO_WORDS, name, run, nothing, end, work};
}

struct contestant zimg_of_words(struct rows *rows, const char *name, int widest_vectors)
{
    zimg_cpu_type_e cpu = widest_vectors ? ZIMG_CPU_AUTO_64B : ZIMG_CPU_AUTO;
    struct work *work = work_of(word_format(rows), code_format(rows), cpu, 0);
    for (int p = 0; p < PLANES; p++)
        connect(work, p, rows->words[p], 2 * rows->width, rows->result[p], 2 * rows->width);
    return (struct contestant){WORDS_TO_CODES, name, run, nothing, end, work};
}

const char *zimg_version(void)
{
    static char text[32];
    unsigned major, minor, patch;
    zimg_get_version_info(&major, &minor, &patch);
    snprintf(text, sizeof text, "%u.%u.%u", major, minor, patch);
    return text;
}
