/* Where a cart dots a lane: the stations of dots at equal spacing along its outer border, where marks of kind 1 cover it, and the surface
 * under each. Reads a job, lays a mark on a lane of it, lends the section's stations every metre and asks for the dots. example.c has
 * the calls on the road itself. It runs from the repository's root and writes what dots.stdout holds. */
#include <inttypes.h>
#include <stdio.h>
#include <xmmintrin.h>

#include "riftkettle.h"

/* Lent memory is the caller's: static here, so nothing is allocated. */
static uint8_t text[RIFTKETTLE_TEXT + 1]; /* one byte more than a job may have, so that too long a file is refused */
static uint16_t words[RIFTKETTLE_WORDS];
static double numbers[RIFTKETTLE_NUMBERS];
static double samples[RIFTKETTLE_SAMPLES];
static uint64_t wants[RIFTKETTLE_WANTS];
static double stations[RIFTKETTLE_STATIONS];
static double list[RIFTKETTLE_DOTS]; /* room for every line; a cart that knows its spacing needs less */

#define ROAD words, RIFTKETTLE_WORDS, numbers, RIFTKETTLE_NUMBERS
#define SAMPLES samples, RIFTKETTLE_SAMPLES

/* As in example.c. */
static int usual_environment(void) {
  const unsigned masks = 0x1f80, rounding = 0x6000, flush = 0x8040;
  return (_mm_getcsr() & (masks | rounding | flush)) == masks;
}

static int refused(const char *call, uint32_t refusal) {
  if (refusal != 0) {
    printf("%s: refused %" PRIu32 "\n", call, refusal);
  }
  return refusal != 0;
}

/* The job into the road, then the samples of the road's spirals. */
static int read_job(const char *path) {
  FILE *file = fopen(path, "rb");
  if (file == NULL) {
    perror(path);
    return 0;
  }
  size_t length = fread(text, 1, sizeof text, file), count, made;
  fclose(file);
  return !refused("read", riftkettle_read(text, length, ROAD, wants, RIFTKETTLE_WANTS, &count)) &&
         !refused("samples", riftkettle_samples(ROAD, SAMPLES, &made));
}

/* The lane's place among those of its section: left ones outward, then right ones. */
static int place(size_t section, int32_t lane) {
  const int left = words[RIFTKETTLE_LANES + RIFTKETTLE_LANES_STRIDE * section + 1];
  return lane > 0 ? lane - 1 : left - lane - 1;
}

/* The road's only mark, of kind 1, from start to end metres into the section. A job may have marks of its own: the table `mark`. */
static void lay_mark(size_t section, int32_t lane, double start, double end) {
  words[RIFTKETTLE_MARKS + RIFTKETTLE_MARKS_STRIDE * section + 1] = 1; /* its first mark is mark 0 */
  words[RIFTKETTLE_MARK] = (uint16_t)place(section, lane);
  words[RIFTKETTLE_MARK + 1] = 1;
  numbers[RIFTKETTLE_SPAN] = start;
  numbers[RIFTKETTLE_SPAN + 1] = end;
}

/* The section's stations, every metre, and its end: how many there are, 0 where they are over 512. A longer section needs longer steps,
 * or is dotted in parts, each counted from its own start. */
static size_t lay_stations(size_t section) {
  const double start = numbers[RIFTKETTLE_SECTION + section];
  const int last = section + 1 == words[RIFTKETTLE_SECTIONS];
  const double end = last ? numbers[RIFTKETTLE_LENGTH] : numbers[RIFTKETTLE_SECTION + section + 1];
  size_t q = 0;
  for (; start + (double)q < end; q++) {
    if (q + 1 == RIFTKETTLE_STATIONS) {
      puts("the section is over 511 m: lend stations farther apart");
      return 0;
    }
    stations[q] = start + (double)q;
  }
  stations[q] = end;
  return q + 1;
}

/* The surface of the lane at its outer border. A dot lies before the section's end, so the section at s is the one that was dotted, but
 * in the last nanometre before the end. */
static int border_point(size_t section, int32_t lane, double s, float point[3]) {
  double borders[RIFTKETTLE_BORDERS], heading;
  size_t lanes;
  if (refused("borders", riftkettle_borders(ROAD, s, borders, RIFTKETTLE_BORDERS, &lanes))) {
    return 0;
  }
  const double t = borders[RIFTKETTLE_BORDER_STRIDE * place(section, lane) + 1];
  return !refused("lane surface", riftkettle_lane_surface(ROAD, SAMPLES, lane, s, t, point, &heading));
}

static int dot(size_t section, int32_t lane, float spacing) {
  size_t q = lay_stations(section), dots;
  if (q == 0) {
    return 0;
  }
  printf("section %zu, lane %" PRId32 ", every %.3f m: ", section, lane, spacing);
  if (refused("dots", riftkettle_dots(ROAD, SAMPLES, section, lane, spacing, stations, q, list, RIFTKETTLE_DOTS, &dots))) {
    return 0;
  }
  printf("%zu dots\n", dots);
  for (size_t i = 0; i < dots; i++) {
    float point[3];
    if (!border_point(section, lane, list[i], point)) {
      return 0;
    }
    printf("  s %.3f: x %.3f y %.3f z %.3f\n", list[i], point[0], point[1], point[2]);
  }
  return 1;
}

int main(void) {
  if (!usual_environment()) {
    fputs("the floating-point environment is not the usual one: no answer would be sure\n", stderr);
    return 1;
  }
  const size_t section = 2; /* from 330 to 430 m */
  if (!read_job("examples/jobs/country_road.job")) {
    return 1;
  }
  lay_mark(section, -1, 20, 80);
  return dot(section, -1, 7.5f) ? 0 : 1;
}
