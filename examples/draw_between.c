/*
 * Decodes a tile of 4 x 2 pixels at 8 bits per pixel order by order, and draws a
 * mark between two orders where the next pixel comes. Exits with 1 if the
 * picture is not the one that comes without pauses.
 *
 *   cc -std=c99 -I include examples/draw_between.c \
 *      -L target/staticlib -lnulambiro -o draw_between
 */
#include <inttypes.h>
#include <stdio.h>
#include <string.h>

#include "nulambiro.h"

enum { WIDTH = 4, HEIGHT = 2, BPP = 8, BYTES = WIDTH * HEIGHT, MARK = 0x2a };

/* A foreground run of the first row, a color run of two pixels, and two
 * foreground pixels. */
static const uint8_t STREAM[] = {0x24, 0x62, 0x07, 0x22};

static void show(const uint8_t *picture, const uint64_t *report) {
  int i;
  printf("%" PRIu64 " orders, %" PRIu64 " pixels:", report[NULAMBIRO_ORDERS],
         report[NULAMBIRO_PIXELS]);
  for (i = 0; i < BYTES; i++) {
    printf(" %02x", picture[i]);
  }
  printf("\n");
}

int main(void) {
  uint8_t picture[BYTES] = {0}, whole[BYTES] = {0};
  uint64_t state[NULAMBIRO_STATE_PLACES];
  uint64_t report[NULAMBIRO_REPORT_PLACES], at_once[NULAMBIRO_REPORT_PLACES];

  nulambiro_start(BPP, state);
  for (;;) {
    nulambiro_decompress_some(STREAM, sizeof STREAM, picture, BYTES, WIDTH,
                              HEIGHT, BPP, 1, state, report);
    if (report[NULAMBIRO_FORMAT] || report[NULAMBIRO_REFUSAL]) {
      break;
    }
    /* Painted pixels must stay: later rows look at them. Others may be drawn
     * on, and the stream's pixels replace what was drawn. */
    if (report[NULAMBIRO_PIXELS] < BYTES) {
      picture[report[NULAMBIRO_PIXELS]] = MARK;
    }
    show(picture, report);
  }
  show(picture, report);

  nulambiro_decompress(STREAM, sizeof STREAM, whole, BYTES, WIDTH, HEIGHT, BPP,
                       at_once);
  if (memcmp(report, at_once, sizeof report) != 0 ||
      memcmp(picture, whole, sizeof picture) != 0) {
    fputs("draw_between: this is not the picture without pauses\n", stderr);
    return 1;
  }
  return 0;
}
