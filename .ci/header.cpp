// The header serves C++ too: this program links with the library and calls each
// function by its declaration.
#include "nulambiro.h"

#include <cstdio>
#include <cstring>

static int failures = 0;

static void expect(bool good, const char *what) {
  if (!good) {
    std::fprintf(stderr, "header: wrong answer of %s\n", what);
    failures++;
  }
}

// What is called has to write the whole report, over what it held before.
struct Report {
  uint64_t places[NULAMBIRO_REPORT_PLACES];
  Report() { std::memset(places, 0xff, sizeof places); }
  uint64_t operator[](int place) const { return places[place]; }
};

static void decompress() {
  // An image of six pixels in a picture of 2 x 3 pixels, and no order after it.
  const uint8_t stream[] = {0x86, 1, 2, 3, 4, 5, 6, 0xff};
  uint8_t target[7] = {9, 9, 9, 9, 9, 9, 9};
  const uint8_t painted[7] = {1, 2, 3, 4, 5, 6, 9};
  Report report;
  nulambiro_decompress(stream, sizeof stream, target, sizeof target, 2, 3, 8,
                       report.places);
  expect(report[NULAMBIRO_REFUSAL] == NULAMBIRO_BAD_ORDER_CODE &&
             report[NULAMBIRO_PIXELS] == 6 && report[NULAMBIRO_ORDERS] == 1 &&
             std::memcmp(target, painted, sizeof target) == 0,
         "nulambiro_decompress");

  Report large;
  nulambiro_decompress(nullptr, 0, nullptr, 0, 8193, 2, 8, large.places);
  expect(large[NULAMBIRO_FORMAT] == 0 &&
             large[NULAMBIRO_REFUSAL] == NULAMBIRO_DIMENSIONS_TOO_LARGE &&
             large[NULAMBIRO_FIRST] == 8193 && large[NULAMBIRO_SECOND] == 2 &&
             large[6] == 0 && large[7] == 0,
         "nulambiro_decompress for a large picture");
}

// As Report: the start of a stream is written over what the state held before.
struct State {
  uint64_t places[NULAMBIRO_STATE_PLACES];
  explicit State(size_t bpp) {
    std::memset(places, 0xff, sizeof places);
    nulambiro_start(bpp, places);
  }
  bool is(const uint64_t (&expected)[NULAMBIRO_STATE_PLACES]) const {
    return std::memcmp(places, expected, sizeof places) == 0;
  }
};

static void start() {
  const uint64_t white[5][2] = {
      {8, 0xff}, {15, 0x7fff}, {16, 0xffff}, {24, 0xffffff}, {9, 0}};
  for (const auto &depth : white) {
    const uint64_t expected[8] = {0, 0, depth[1], 0, 1, 0, 0, 0};
    expect(State(depth[0]).is(expected), "nulambiro_start");
  }
}

static void decompress_some() {
  // A background run of a row and one of a pixel, a set-foreground run of two
  // pixels, and a pixel that is white, in a picture of 4 x 2 pixels.
  const uint8_t stream[] = {0x04, 0x01, 0xc2, 7, 0xfd};
  uint8_t target[9] = {9, 9, 9, 9, 9, 9, 9, 9, 9};
  State state(8);
  const auto some = [&](size_t limit, uint64_t (&places)[8]) {
    Report report;
    nulambiro_decompress_some(stream, sizeof stream, target, sizeof target, 4,
                              2, 8, limit, places, report.places);
    return report;
  };

  const uint64_t behind_1[8] = {1, 4, 0xff, 1, 1, 1, 0, 0};
  const uint8_t row[9] = {0, 0, 0, 0, 9, 9, 9, 9, 9};
  Report report = some(1, state.places);
  expect(report[NULAMBIRO_FORMAT] == 0 &&
             report[NULAMBIRO_REFUSAL] == NULAMBIRO_OK &&
             report[NULAMBIRO_PIXELS] == 4 && report[NULAMBIRO_ORDERS] == 1 &&
             report[6] == 0 && report[7] == 0 && state.is(behind_1) &&
             std::memcmp(target, row, sizeof row) == 0,
         "nulambiro_decompress_some where it is paused");

  some(0, state.places);
  expect(state.is(behind_1), "nulambiro_decompress_some for no order");

  const uint64_t behind_3[8] = {4, 7, 7, 0, 0, 3, 0, 0};
  target[7] = 8;
  report = some(2, state.places);
  expect(report[NULAMBIRO_PIXELS] == 7 && report[NULAMBIRO_ORDERS] == 3 &&
             state.is(behind_3) && target[7] == 8,
         "nulambiro_decompress_some from a state on");

  const uint8_t picture[9] = {0, 0, 0, 0, 0, 7, 7, 0xff, 9};
  report = some(1, state.places);
  expect(report[NULAMBIRO_FORMAT] == 8 && report[NULAMBIRO_PIXELS] == 8 &&
             report[NULAMBIRO_ORDERS] == 4 && state.is(behind_3) &&
             std::memcmp(target, picture, sizeof picture) == 0,
         "nulambiro_decompress_some at the end");

  // An insert is pending or not.
  uint64_t no_state[8] = {4, 7, 7, 2, 0, 3, 0, 0};
  report = some(1, no_state);
  expect(report[NULAMBIRO_FORMAT] == 0 &&
             report[NULAMBIRO_REFUSAL] == NULAMBIRO_BAD_STATE &&
             report[NULAMBIRO_FIRST] == 0 && report[NULAMBIRO_SECOND] == 0 &&
             report[NULAMBIRO_PIXELS] == 0 && report[NULAMBIRO_ORDERS] == 0 &&
             no_state[NULAMBIRO_STATE_INSERT] == 2 &&
             std::memcmp(target, picture, sizeof picture) == 0,
         "nulambiro_decompress_some for numbers of no state");
}

static void compress() {
  // Two rows of 4 pixels: three equal ones and another, and the same again.
  const uint8_t pixels[9] = {5, 5, 5, 6, 5, 5, 5, 6, 7};
  const uint8_t stream[5] = {0x63, 5, 0x81, 6, 0x04};
  uint8_t output[6] = {9, 9, 9, 9, 9, 9};
  Report report;
  nulambiro_compress(pixels, sizeof pixels, output, sizeof output, 4, 2, 8,
                     report.places);
  expect(report[0] == 0 && report[NULAMBIRO_REFUSAL] == NULAMBIRO_OK &&
             report[NULAMBIRO_COMPRESS_LENGTH] == sizeof stream &&
             report[5] == 0 && report[6] == 0 && report[7] == 0 &&
             std::memcmp(output, stream, sizeof stream) == 0 && output[5] == 9,
         "nulambiro_compress");

  Report shorter;
  uint8_t small[4] = {9, 9, 9, 9};
  const uint8_t untouched[4] = {9, 9, 9, 9};
  nulambiro_compress(pixels, sizeof pixels, small, sizeof small, 4, 2, 8,
                     shorter.places);
  expect(shorter[NULAMBIRO_REFUSAL] == NULAMBIRO_OUTPUT_TOO_SHORT &&
             shorter[NULAMBIRO_FIRST] == 0 && shorter[NULAMBIRO_SECOND] == 0 &&
             shorter[NULAMBIRO_COMPRESS_LENGTH] == 0 &&
             std::memcmp(small, untouched, sizeof small) == 0,
         "nulambiro_compress for a short output");

  Report none;
  nulambiro_compress(nullptr, 0, nullptr, 0, 4, 2, 8, none.places);
  expect(none[NULAMBIRO_REFUSAL] == NULAMBIRO_BUFFER_TOO_SHORT &&
             none[NULAMBIRO_FIRST] == 8 && none[NULAMBIRO_SECOND] == 0,
         "nulambiro_compress for missing pixels");

  // 32 pixels of one byte in an image have a head of two bytes.
  expect(nulambiro_compress_bound(4, 2, 8) == 9 &&
             nulambiro_compress_bound(32, 1, 8) == 34 &&
             nulambiro_compress_bound(4, 2, 24) == 25 &&
             nulambiro_compress_bound(4, 2, 9) == 0 &&
             nulambiro_compress_bound(8193, 2, 8) == 0,
         "nulambiro_compress_bound");
}

static void orders() {
  // A run of the first row, an fg/bg image of one pixel, two background runs of
  // one pixel each, and one that does not fit.
  const uint8_t stream[] = {0x24, 0x40, 0x00, 0x05, 0xf0,
                            0x01, 0x00, 0x01, 0x02};
  const uint64_t records[4][2] = {{0x24, NULAMBIRO_LENGTH_IN_HEADER},
                                  {0x40, NULAMBIRO_LENGTH_IN_ONE_BYTE},
                                  {0xf0, NULAMBIRO_LENGTH_IN_TWO_BYTES},
                                  {0x01, NULAMBIRO_LENGTH_IN_HEADER}};
  uint64_t walk[NULAMBIRO_WALK_PLACES] = {0};
  for (size_t n = 0; n < 4; n++) {
    Report record, next;
    nulambiro_order_record(stream, sizeof stream, 4, 2, 8, n, record.places);
    expect(record[NULAMBIRO_RECORD_FOUND] == 1 &&
               record[NULAMBIRO_RECORD_HEADER] == records[n][0] &&
               record[NULAMBIRO_RECORD_PLACE] == records[n][1] &&
               record[3] == 0 && record[7] == 0,
           "nulambiro_order_record");
    nulambiro_next_order(stream, sizeof stream, 4, 2, 8, walk, next.places);
    expect(std::memcmp(next.places, record.places, sizeof next.places) == 0,
           "nulambiro_next_order");
  }

  uint64_t end[NULAMBIRO_WALK_PLACES] = {0};
  end[NULAMBIRO_WALK_BYTES] = 8;
  end[NULAMBIRO_WALK_PIXELS] = 7;
  end[NULAMBIRO_WALK_INSERT] = 1;
  end[NULAMBIRO_WALK_LATER_ROW] = 1;
  expect(std::memcmp(walk, end, sizeof walk) == 0,
         "nulambiro_next_order for the walk");

  Report past, stays;
  const uint64_t none[NULAMBIRO_REPORT_PLACES] = {0};
  nulambiro_order_record(stream, sizeof stream, 4, 2, 8, 4, past.places);
  expect(std::memcmp(past.places, none, sizeof none) == 0,
         "nulambiro_order_record past the last order");
  nulambiro_next_order(stream, sizeof stream, 4, 2, 8, walk, stays.places);
  expect(std::memcmp(stays.places, none, sizeof none) == 0 &&
             std::memcmp(walk, end, sizeof walk) == 0,
         "nulambiro_next_order past the last order");
}

static void colors() {
  uint8_t palette[NULAMBIRO_PALETTE_BYTES] = {0};
  const uint8_t entry[3] = {10, 20, 30};
  std::memcpy(palette + 3 * 7, entry, sizeof entry);
  std::memcpy(palette + 3 * 9, entry, sizeof entry);
  Report report;
  nulambiro_expand(7, 8, 9, 8, palette, sizeof palette, report.places);
  expect(report[NULAMBIRO_EXPAND_REFUSAL] == NULAMBIRO_OK &&
             report[NULAMBIRO_EXPAND_BLUE] == 10 &&
             report[NULAMBIRO_EXPAND_GREEN] == 20 &&
             report[NULAMBIRO_EXPAND_RED] == 30 && report[6] == 0 &&
             report[7] == 0,
         "nulambiro_expand");
  // Depths, and the second and third byte of their white.
  const uint8_t depths[3][3] = {{15, 0x7f, 0}, {16, 0xff, 0}, {24, 0xff, 0xff}};
  for (const auto &depth : depths) {
    Report white;
    nulambiro_expand(0xff, depth[1], depth[2], depth[0], nullptr, 0,
                     white.places);
    expect(white[NULAMBIRO_EXPAND_REFUSAL] == NULAMBIRO_OK &&
               white[NULAMBIRO_EXPAND_BLUE] == 255 &&
               white[NULAMBIRO_EXPAND_GREEN] == 255 &&
               white[NULAMBIRO_EXPAND_RED] == 255,
           "nulambiro_expand for white");
  }
  expect(nulambiro_palette_look(palette, sizeof palette, 10, 20, 30) == 7 &&
             nulambiro_palette_look(palette, sizeof palette, 0, 0, 0) == 0,
         "nulambiro_palette_look for colors that several entries have");
  expect(nulambiro_palette_look(palette, sizeof palette, 30, 20, 10) ==
             NULAMBIRO_NO_ENTRY,
         "nulambiro_palette_look for a color that is not there");

  // Two pixels of 15 bits, one of them painted. The others differ in the byte
  // after it, and in its top bit.
  const uint8_t pixels[4] = {0x1f, 0x7c, 1, 1}, past[4] = {0x1f, 0x7c, 2, 1},
                marked[4] = {0x1f, 0xfc, 1, 1};
  const auto same = [&pixels](const uint8_t(&other)[4], size_t bpp) {
    return nulambiro_same_picture(pixels, sizeof pixels, 1, 2, 1, 15, other,
                                  sizeof other, 1, 2, 1, bpp, nullptr, 0);
  };
  expect(same(past, 15) == 1, "nulambiro_same_picture");
  expect(same(marked, 15) == 0, "nulambiro_same_picture for another top bit");
  expect(same(pixels, 16) == 0, "nulambiro_same_picture at other bits");
}

static void rows() {
  // Of 4 x 3 pixels of two bytes, seven are painted: row 1 is not whole.
  Report whole, partly;
  nulambiro_row_to_show(25, 7, 24, 16, 4, 3, 0, whole.places);
  expect(whole[NULAMBIRO_ROW_ON_SCREEN] == 0 &&
             whole[NULAMBIRO_ROW_START] == 0 &&
             whole[NULAMBIRO_ROW_LENGTH] == 8 && whole[3] == 0 && whole[7] == 0,
         "nulambiro_row_to_show");
  nulambiro_row_to_show(25, 7, 24, 16, 4, 3, 1, partly.places);
  expect(partly[NULAMBIRO_ROW_ON_SCREEN] == 1 &&
             partly[NULAMBIRO_ROW_START] == 8 &&
             partly[NULAMBIRO_ROW_LENGTH] == 8,
         "nulambiro_row_to_show for a row that is not whole");
}

int main() {
  decompress();
  start();
  decompress_some();
  compress();
  orders();
  colors();
  rows();
  return failures == 0 ? 0 : 1;
}
