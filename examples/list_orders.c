/*
 * Lists the orders of a stream, for a tile of 4 x 2 pixels at 8 bits per pixel:
 * each one's number and header, and where its length stands. Exits with 1 if
 * this is not how the stream is written.
 *
 *   cc -std=c99 -I include examples/list_orders.c \
 *      -L target/staticlib -lnulambiro -o list_orders
 */
#include <inttypes.h>
#include <stdio.h>

#include "nulambiro.h"

enum { WIDTH = 4, HEIGHT = 2, BPP = 8, ORDERS = 4 };

/* A foreground run of four pixels, an fg/bg image of one pixel, a background
 * run of one pixel, and a black pixel. One pixel is left: the background run of
 * two at the end is refused, and so it is not listed. */
static const uint8_t STREAM[] = {0x24, 0x40, 0x00, 0x05, 0xf0,
                                 0x01, 0x00, 0xfe, 0x02};

static const uint64_t PLACES[ORDERS] = {
    NULAMBIRO_LENGTH_IN_HEADER, NULAMBIRO_LENGTH_IN_ONE_BYTE,
    NULAMBIRO_LENGTH_IN_TWO_BYTES, NULAMBIRO_LENGTH_NONE};

static const char *words(uint64_t place) {
  switch (place) {
  case NULAMBIRO_LENGTH_IN_HEADER:
    return "length in the header";
  case NULAMBIRO_LENGTH_IN_ONE_BYTE:
    return "length in one more byte";
  case NULAMBIRO_LENGTH_IN_TWO_BYTES:
    return "length in two more bytes";
  default:
    return "no length";
  }
}

int main(void) {
  /* Zeros are the start of the stream. */
  uint64_t walk[NULAMBIRO_WALK_PLACES] = {0};
  uint64_t report[NULAMBIRO_REPORT_PLACES];
  int order, good = 1;

  for (order = 0;; order++) {
    nulambiro_next_order(STREAM, sizeof STREAM, WIDTH, HEIGHT, BPP, walk,
                         report);
    if (!report[NULAMBIRO_RECORD_FOUND]) {
      break;
    }
    printf("order %d: header %02" PRIx64 ", %s\n", order,
           report[NULAMBIRO_RECORD_HEADER],
           words(report[NULAMBIRO_RECORD_PLACE]));
    good = good && order < ORDERS &&
           report[NULAMBIRO_RECORD_PLACE] == PLACES[order];
  }

  /* One order alone, by its number. */
  nulambiro_order_record(STREAM, sizeof STREAM, WIDTH, HEIGHT, BPP, 2, report);
  good = good && order == ORDERS && report[NULAMBIRO_RECORD_HEADER] == 0xf0;
  if (!good) {
    fputs("list_orders: this is not how the stream is written\n", stderr);
    return 1;
  }
  return 0;
}
