/* A PNG file of rows of three bytes a pixel, for the examples: stored, not compressed, and without another library. */
#ifndef PNG_H
#define PNG_H

#include <stdint.h>
#include <stdio.h>
#include <stdlib.h>
#include <string.h>

static uint32_t png_crc(uint32_t sum, const uint8_t *bytes, size_t length) {
    for (size_t i = 0; i < length; i++) {
        sum ^= bytes[i];
        for (int k = 0; k < 8; k++) sum = sum & 1 ? 0xedb88320u ^ (sum >> 1) : sum >> 1;
    }
    return sum;
}

static void png_number(uint8_t *at, uint32_t n) {
    for (int k = 0; k < 4; k++) at[k] = (uint8_t)(n >> (24 - 8 * k));
}

static void png_chunk(FILE *file, const char *name, const uint8_t *bytes, size_t length) {
    uint8_t head[8], tail[4];
    png_number(head, (uint32_t)length);
    memcpy(head + 4, name, 4);
    png_number(tail, ~png_crc(png_crc(0xffffffffu, head + 4, 4), bytes, length));
    fwrite(head, 1, 8, file);
    fwrite(bytes, 1, length, file);
    fwrite(tail, 1, 4, file);
}

/* Puts rows, each behind a byte 0 that says that it is as it is, into stored blocks at `data`. Returns the end. */
static uint8_t *png_stored(uint8_t *at, const uint8_t *rows, size_t size) {
    uint32_t a = 1, b = 0;
    *at++ = 0x78;
    *at++ = 1;
    for (size_t from = 0; from < size; from += 65535) {
        size_t n = size - from < 65535 ? size - from : 65535;
        *at++ = (uint8_t)(from + n == size);
        *at++ = (uint8_t)n;
        *at++ = (uint8_t)(n >> 8);
        *at++ = (uint8_t)~n;
        *at++ = (uint8_t)(~n >> 8);
        memcpy(at, rows + from, n);
        at += n;
    }
    for (size_t i = 0; i < size; i++) {
        a = (a + rows[i]) % 65521;
        b = (b + a) % 65521;
    }
    png_number(at, b << 16 | a);
    return at + 4;
}

/* Writes the file. Returns 0, or 1 where memory or the file's room was wanting. */
static int png_write(FILE *file, const uint8_t *pixels, uint32_t width, uint32_t height) {
    size_t row = 3 * (size_t)width + 1, size = row * height, blocks = (size + 65534) / 65535;
    uint8_t *rows = (uint8_t *)malloc(size), *data = (uint8_t *)malloc(size + 5 * blocks + 6), head[13] = {0};
    if (rows && data) {
        for (uint32_t y = 0; y < height; y++) {
            rows[y * row] = 0;
            memcpy(rows + y * row + 1, pixels + 3 * (size_t)width * y, row - 1);
        }
        png_number(head, width);
        png_number(head + 4, height);
        head[8] = 8; /* bits of a component */
        head[9] = 2; /* red, green, blue */
        fwrite("\x89PNG\r\n\x1a\n", 1, 8, file);
        png_chunk(file, "IHDR", head, 13);
        png_chunk(file, "IDAT", data, (size_t)(png_stored(data, rows, size) - data));
        png_chunk(file, "IEND", head, 0);
    }
    int failed = !rows || !data || fflush(file) != 0 || ferror(file);
    free(rows);
    free(data);
    return failed;
}

#endif
