/*
 * Decodes a tile of 4 x 2 pixels at 8 bits per pixel and prints the report
 * and the picture. Exits with 1 if they are not what the stream says.
 *
 *   cc -std=c99 -I include examples/decode_tile.c \
 *      -L target/staticlib -lnulambiro -o decode_tile
 */
#include <inttypes.h>
#include <stdio.h>
#include <string.h>

#include "nulambiro.h"

enum { WIDTH = 4, HEIGHT = 2, BPP = 8 };

static void print_report(const uint64_t *report) {
  if (report[NULAMBIRO_REFUSAL] == NULAMBIRO_OK) {
    printf("format: %" PRIu64 " bits per pixel\n", report[NULAMBIRO_FORMAT]);
  } else {
    printf("refusal: %" PRIu64 " (%" PRIu64 ", %" PRIu64 ")\n",
           report[NULAMBIRO_REFUSAL], report[NULAMBIRO_FIRST],
           report[NULAMBIRO_SECOND]);
  }
  printf("orders: %" PRIu64 "\n", report[NULAMBIRO_ORDERS]);
  printf("pixels: %" PRIu64 " of %d\n", report[NULAMBIRO_PIXELS],
         WIDTH * HEIGHT);
}

static void print_picture(const uint8_t *picture) {
  for (int row = 0; row < HEIGHT; row++) {
    for (int column = 0; column < WIDTH; column++) {
      printf("%02x%c", picture[row * WIDTH + column],
             column + 1 < WIDTH ? ' ' : '\n');
    }
  }
}

int main(void) {
  /* A foreground run of four pixels fills the first row with the foreground,
   * which starts white. One of two pixels in the second row is the row above,
   * exclusive-or the foreground. The stream ends before the picture does. */
  static const uint8_t stream[] = {0x24, 0x22};
  static const uint8_t expected[WIDTH * HEIGHT] = {0xff, 0xff, 0xff, 0xff,
                                                   0x00, 0x00, 0x55, 0x55};
  uint8_t picture[WIDTH * HEIGHT];
  uint64_t report[NULAMBIRO_REPORT_PLACES];

  /* What the stream does not paint stays as it is here. */
  memset(picture, 0x55, sizeof picture);
  nulambiro_decompress(stream, sizeof stream, picture, sizeof picture, WIDTH,
                       HEIGHT, BPP, report);
  print_report(report);
  print_picture(picture);

  if (report[NULAMBIRO_FORMAT] != BPP ||
      report[NULAMBIRO_REFUSAL] != NULAMBIRO_OK ||
      report[NULAMBIRO_ORDERS] != 2 || report[NULAMBIRO_PIXELS] != 6 ||
      memcmp(picture, expected, sizeof picture) != 0) {
    fputs("decode_tile: this is not the picture of the stream\n", stderr);
    return 1;
  }
  return 0;
}
