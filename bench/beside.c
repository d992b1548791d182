/*
 * Times decoding by two builds of this library by turns in one process, on tiles
 * that the encoder of the first one writes, and on streams by chance. Only the
 * ratios mean something: how many times the time of the first build the second
 * one takes.
 *
 * Arguments: the two builds as shared objects, and the number of rounds; the
 * best one counts. `bench/run beside` builds and calls it.
 */
#define _GNU_SOURCE
#include <dlfcn.h>
#include <inttypes.h>
#include <stdio.h>
#include <stdlib.h>
#include <string.h>
#include <time.h>

#include "nulambiro.h"

enum { SIDE = 64, PIXELS = SIDE * SIDE, BYTES = 3 * PIXELS, TILES = 200 };

typedef void (*decoder)(const uint8_t *, size_t, uint8_t *, size_t, size_t,
                        size_t, size_t, uint64_t *);
typedef void (*encoder)(const uint8_t *, size_t, uint8_t *, size_t, size_t,
                        size_t, size_t, uint64_t *);

/* The build's two functions. Each build is loaded apart from the other, since
 * both have the same names. C has no cast from what dlsym answers to a function. */
static void load(const char *file, decoder *decode, encoder *encode) {
  void *library = dlmopen(LM_ID_NEWLM, file, RTLD_NOW);
  void *decompress = library ? dlsym(library, "nulambiro_decompress") : NULL;
  void *compress = library ? dlsym(library, "nulambiro_compress") : NULL;
  if (!decompress || !compress) {
    fprintf(stderr, "beside: %s\n", dlerror());
    exit(1);
  }
  memcpy(decode, &decompress, sizeof decompress);
  memcpy(encode, &compress, sizeof compress);
}

static uint32_t by_chance(void) {
  static uint32_t x = 12345;
  x ^= x << 13;
  x ^= x >> 17;
  return x ^= x << 5;
}

/* A pixel of lines, of areas with specks, of areas alone, or of two colors. */
static uint32_t pixel_of(int kind, int tile, int x, int y) {
  switch (kind) {
    case 0:
      return (x * 7 + tile) % 23 < 2 || (y * 5 + tile * 3) % 17 < 2 ? 0x112233 : 0xffffff;
    case 1:
      return by_chance() % 6 ? ((x / 5 + y / 3) % 2 ? 0xaabbcc : 0x102030) : by_chance();
    case 2:
      return (x + tile) / 9 * (y / 7) % 3 ? 0xffffff : 0x00ff00;
    default:
      return by_chance() % 3 ? 0xffffff : 0;
  }
}

static uint8_t streams[TILES][2 * BYTES];
static size_t lengths[TILES];

static void encode_tiles(encoder encode, int kind, size_t bpp) {
  static uint8_t pixels[BYTES];
  uint64_t report[NULAMBIRO_REPORT_PLACES];
  size_t bytes = (bpp + 7) / 8;
  for (int tile = 0; tile < TILES; tile++) {
    for (int i = 0; i < PIXELS; i++) {
      uint32_t pixel = pixel_of(kind, tile, i % SIDE, i / SIDE);
      for (size_t k = 0; k < bytes; k++) {
        pixels[i * bytes + k] = (uint8_t)(pixel >> (8 * k));
      }
    }
    encode(pixels, PIXELS * bytes, streams[tile], sizeof streams[tile], SIDE, SIDE, bpp, report);
    lengths[tile] = report[NULAMBIRO_COMPRESS_LENGTH];
  }
}

/* White and black pixels. */
static void write_pixels(void) {
  for (int tile = 0; tile < TILES; tile++) {
    for (int i = 0; i < PIXELS; i++) {
      streams[tile][i] = by_chance() % 2 ? 0xfd : 0xfe;
    }
    lengths[tile] = PIXELS;
  }
}

/* Runs and color images of 1 to 15 pixels. */
static void write_short_orders(size_t bpp) {
  static const uint8_t HEADERS[] = {0x00, 0x20, 0x60, 0x80};
  size_t bytes = (bpp + 7) / 8;
  for (int tile = 0; tile < TILES; tile++) {
    size_t at = 0;
    for (size_t left = PIXELS; left > 0;) {
      size_t kind = by_chance() % 4, pixels = 1 + by_chance() % 15;
      pixels = pixels < left ? pixels : left;
      left -= pixels;
      streams[tile][at++] = (uint8_t)(HEADERS[kind] + pixels);
      for (size_t k = kind < 2 ? 0 : kind == 2 ? bytes : pixels * bytes; k > 0; k--) {
        streams[tile][at++] = (uint8_t)by_chance();
      }
    }
    lengths[tile] = at;
  }
}

static void write_tiles(encoder encode, int kind, size_t bpp) {
  if (kind < 4) {
    encode_tiles(encode, kind, bpp);
  } else if (kind == 4) {
    write_short_orders(bpp);
  } else {
    write_pixels();
  }
}

/* Nanoseconds of all tiles, and the orders in them. */
static double decode_tiles(decoder decode, size_t bpp, uint64_t *orders) {
  static uint8_t target[BYTES];
  uint64_t report[NULAMBIRO_REPORT_PLACES];
  struct timespec start, end;
  *orders = 0;
  clock_gettime(CLOCK_MONOTONIC, &start);
  for (int tile = 0; tile < TILES; tile++) {
    decode(streams[tile], lengths[tile], target, sizeof target, SIDE, SIDE, bpp, report);
    *orders += report[NULAMBIRO_ORDERS];
  }
  clock_gettime(CLOCK_MONOTONIC, &end);
  return (double)(end.tv_sec - start.tv_sec) * 1e9 + (double)(end.tv_nsec - start.tv_nsec);
}

int main(int count, char **arguments) {
  static const char *const KINDS[] = {"lines",      "areas with specks",  "areas",
                                      "two colors", "short mixed orders", "white and black pixels"};
  static const size_t DEPTHS[] = {8, 16, 24};
  if (count != 4) {
    fputs("usage: beside FIRST SECOND ROUNDS\n", stderr);
    return 2;
  }
  encoder encoders[2];
  decoder decoders[2];
  for (int i = 0; i < 2; i++) {
    load(arguments[i + 1], &decoders[i], &encoders[i]);
  }
  puts("tiles of 64 x 64        bpp  orders a tile  first, ns a tile  second / first");
  for (int kind = 0; kind < 6; kind++) {
    for (int depth = 0; depth < 3; depth++) {
      double best[2] = {1e18, 1e18};
      uint64_t orders = 0;
      write_tiles(encoders[0], kind, DEPTHS[depth]);
      for (int turn = 0; turn < 2 * atoi(arguments[3]); turn++) {
        double time = decode_tiles(decoders[turn % 2], DEPTHS[depth], &orders);
        if (time < best[turn % 2]) {
          best[turn % 2] = time;
        }
      }
      printf("%-22s %4zu %14" PRIu64 " %17.0f %15.3f\n", KINDS[kind], DEPTHS[depth], orders / TILES,
             best[0] / TILES, best[1] / best[0]);
    }
  }
  return 0;
}
