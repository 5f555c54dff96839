// Rows that zimg makes of R'G'B' codes, and codes that it makes of these rows:
//
//     gcc -O2 -o /tmp/zimg_rows reference/zimg_rows.c -lzimg && /tmp/zimg_rows crates/check_zimg/data
//
// For each system of document 01, a picture of LEVELS² rows of LEVELS samples: row LEVELS·i + j has R' at level i, G' at level j and
// B' at level k in sample k. Level i is the code 16s + 219s·i/(LEVELS − 1), fractions dropped. zimg converts it to Y'CbCr and that
// back to R'G'B', without dither, in nominal (limited) range, by its code for every processor.
//
// The file system1 to system4 has for each sample, row by row, Y', Cb, Cr and the codes R', G', B' that zimg makes of them, each
// 2 bytes, low byte first. zimg does not clip to the nominal range, so a code may lie outside it.
//
// The files were made once, with zimg 3.0.4 of Debian 12 (libzimg-dev 3.0.4+ds1-1). Of the 24000 words of each system 3, 1, 3 and 0
// differ from the exact ones, and of the 24000 codes 0, 0, 0 and 3, all by one. There the exact value is a half (system 1), or lies
// within 0.0002 of one: zimg computes in floats of 32 bits.
#include <stdint.h>
#include <stdio.h>
#include <stdlib.h>
#include <zimg.h>

enum { LEVELS = 20, ROWS = LEVELS * LEVELS, PLANES = 3, ALIGN = 64 };
// Samples from one row of a plane to the next: zimg wants its rows at multiples of 64 bytes.
enum { STRIDE = (LEVELS * 2 + ALIGN - 1) / ALIGN * ALIGN / 2 };

struct system {
    int number, bits;
    zimg_matrix_coefficients_e matrix;
};

static const struct system SYSTEMS[] = {
    {1, 8, ZIMG_MATRIX_BT709},
    {2, 10, ZIMG_MATRIX_BT709},
    {3, 10, ZIMG_MATRIX_BT2020_NCL},
    {4, 12, ZIMG_MATRIX_BT2020_NCL},
};

typedef uint16_t plane[ROWS * STRIDE] __attribute__((aligned(ALIGN)));

static plane codes[PLANES], words[PLANES], back[PLANES];

static void stop(const char *what)
{
    char text[256] = "";
    zimg_get_last_error(text, sizeof text);
    fprintf(stderr, "%s: %s\n", what, text);
    exit(1);
}

static void fill(int bits)
{
    int s = 1 << (bits - 8);
    for (int row = 0; row < ROWS; row++)
        for (int k = 0; k < LEVELS; k++) {
            int level[PLANES] = {row / LEVELS, row % LEVELS, k};
            for (int p = 0; p < PLANES; p++)
                codes[p][row * STRIDE + k] = 16 * s + 219 * s * level[p] / (LEVELS - 1);
        }
}

static zimg_image_format format(int bits, zimg_color_family_e family, zimg_matrix_coefficients_e matrix)
{
    zimg_image_format f;
    zimg_image_format_default(&f, ZIMG_API_VERSION);
    f.width = LEVELS;
    f.height = ROWS;
    f.pixel_type = ZIMG_PIXEL_WORD;
    f.color_family = family;
    f.matrix_coefficients = matrix;
    f.depth = bits;
    f.pixel_range = ZIMG_RANGE_LIMITED;
    return f;
}

static void convert(zimg_image_format from, plane *src, zimg_image_format to, plane *dst)
{
    zimg_graph_builder_params params;
    zimg_graph_builder_params_default(&params, ZIMG_API_VERSION);
    params.dither_type = ZIMG_DITHER_NONE;
    params.cpu_type = ZIMG_CPU_NONE;
    zimg_filter_graph *graph = zimg_filter_graph_build(&from, &to, &params);
    size_t size;
    if (!graph || zimg_filter_graph_get_tmp_size(graph, &size))
        stop("graph");
    void *tmp = aligned_alloc(ALIGN, (size + ALIGN) / ALIGN * ALIGN);
    zimg_image_buffer_const in = {.version = ZIMG_API_VERSION};
    zimg_image_buffer out = {.version = ZIMG_API_VERSION};
    for (int p = 0; p < PLANES; p++) {
        in.plane[p].data = src[p];
        out.plane[p].data = dst[p];
        in.plane[p].stride = out.plane[p].stride = STRIDE * 2;
        in.plane[p].mask = out.plane[p].mask = ZIMG_BUFFER_MAX;
    }
    if (zimg_filter_graph_process(graph, &in, &out, tmp, 0, 0, 0, 0))
        stop("process");
    free(tmp);
    zimg_filter_graph_free(graph);
}

static void put(FILE *out, plane *planes, int at)
{
    for (int p = 0; p < PLANES; p++) {
        putc(planes[p][at] & 255, out);
        putc(planes[p][at] >> 8, out);
    }
}

static void save(const char *folder, int system)
{
    char path[4096];
    snprintf(path, sizeof path, "%s/system%d", folder, system);
    FILE *out = fopen(path, "wb");
    if (!out)
        stop(path);
    for (int row = 0; row < ROWS; row++)
        for (int k = 0; k < LEVELS; k++) {
            put(out, words, row * STRIDE + k);
            put(out, back, row * STRIDE + k);
        }
    if (fclose(out))
        stop(path);
}

int main(int argc, char **argv)
{
    if (argc != 2)
        stop("the folder to write to is the only argument");
    for (int i = 0; i < 4; i++) {
        const struct system *s = &SYSTEMS[i];
        zimg_image_format rgb = format(s->bits, ZIMG_COLOR_RGB, ZIMG_MATRIX_RGB);
        zimg_image_format yuv = format(s->bits, ZIMG_COLOR_YUV, s->matrix);
        fill(s->bits);
        convert(rgb, codes, yuv, words);
        convert(yuv, words, rgb, back);
        save(argv[1], s->number);
    }
}
