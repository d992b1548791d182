/*
 * Encodes a tile of 8 x 4 pixels at 8 bits per pixel, prints the stream, and
 * decodes it again. Exits with 1 if the stream is not the one that is due, or
 * the tile does not come back.
 *
 *   cc -std=c99 -I include examples/encode_tile.c \
 *      -L target/staticlib -lnulambiro -o encode_tile
 */
#include <inttypes.h>
#include <stdio.h>
#include <stdlib.h>
#include <string.h>

#include "nulambiro.h"

enum { WIDTH = 8, HEIGHT = 4, BPP = 8 };

static const uint8_t TILE[WIDTH * HEIGHT] = {
    7, 7, 7, 7, 7, 1, 2, 3, /* row 0, the first in the stream */
    7, 7, 7, 7, 7, 1, 2, 3, /* row 1 */
    7, 7, 7, 7, 7, 1, 2, 9, /* row 2 */
    9, 9, 9, 9, 9, 9, 9, 9, /* row 3 */
};

/* A color run of five 7, an image of three pixels, a background run of 15
 * pixels that equal those above, and a color run of nine 9. */
static const uint8_t STREAM[] = {0x65, 7, 0x83, 1, 2, 3, 0x0f, 0x69, 9};

/* Returns the stream's length; 0, which no stream has, if refused. */
static size_t encode(uint8_t *stream, size_t room) {
  uint64_t report[NULAMBIRO_REPORT_PLACES];
  nulambiro_compress(TILE, sizeof TILE, stream, room, WIDTH, HEIGHT, BPP,
                     report);
  if (report[NULAMBIRO_REFUSAL] != NULAMBIRO_OK) {
    printf("refusal: %" PRIu64 " (%" PRIu64 ", %" PRIu64 ")\n",
           report[NULAMBIRO_REFUSAL], report[NULAMBIRO_FIRST],
           report[NULAMBIRO_SECOND]);
  }
  return (size_t)report[NULAMBIRO_COMPRESS_LENGTH];
}

/* Returns 1 if the stream gives the whole tile back, else 0. */
static int comes_back(const uint8_t *stream, size_t length) {
  uint8_t picture[WIDTH * HEIGHT];
  uint64_t report[NULAMBIRO_REPORT_PLACES];
  memset(picture, 0x55, sizeof picture);
  nulambiro_decompress(stream, length, picture, sizeof picture, WIDTH, HEIGHT,
                       BPP, report);
  return report[NULAMBIRO_FORMAT] == BPP &&
         report[NULAMBIRO_PIXELS] == WIDTH * HEIGHT &&
         memcmp(picture, TILE, sizeof TILE) == 0;
}

int main(void) {
  /* With this much room no picture of the size is refused for its output. */
  size_t room = nulambiro_compress_bound(WIDTH, HEIGHT, BPP), length, i;
  uint8_t *stream = malloc(room);
  int good;
  if (stream == NULL) {
    return 1;
  }
  length = encode(stream, room);
  printf("%zu pixels, %zu bytes, at most %zu:", sizeof TILE, length, room);
  for (i = 0; i < length; i++) {
    printf(" %02x", stream[i]);
  }
  putchar('\n');

  good = length == sizeof STREAM && memcmp(stream, STREAM, length) == 0 &&
         comes_back(stream, length);
  free(stream);
  if (!good) {
    fputs("encode_tile: this is not the stream of the tile\n", stderr);
    return 1;
  }
  return 0;
}
