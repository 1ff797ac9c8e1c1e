/* How far measured dots lie from a line of the road: what a camera crew asks after painting. Reads a job, takes surface points every
 * metre at one t, makes a track of them, and projects each dot on it. example.c has the calls on the road itself. It runs from the
 * repository's root and writes what track.stdout holds. */
#include <inttypes.h>
#include <stdio.h>
#include <xmmintrin.h>

#include "riftkettle.h"

/* Lent memory is the caller's: static here, so nothing is allocated. */
static uint8_t text[RIFTKETTLE_TEXT + 1]; /* one byte more than a job may have, so that too long a file is refused */
static uint16_t words[RIFTKETTLE_WORDS];
static double numbers[RIFTKETTLE_NUMBERS];
static double samples[RIFTKETTLE_SAMPLES];
static uint64_t wants[RIFTKETTLE_WANTS];
static float track[RIFTKETTLE_TRACK];

#define ROAD words, RIFTKETTLE_WORDS, numbers, RIFTKETTLE_NUMBERS
#define SAMPLES samples, RIFTKETTLE_SAMPLES

/* As in example.c. */
static int usual_environment(void) {
  const unsigned masks = 0x1f80, rounding = 0x6000, flush = 0x8040;
  return (_mm_getcsr() & (masks | rounding | flush)) == masks;
}

static int refused(const char *call, uint32_t refusal) {
  if (refusal != 0) {
    printf("%s: refused %" PRIu32 "\n", call, refusal);
  }
  return refusal != 0;
}

/* The job into the road, then the samples of the road's spirals. */
static int read_job(const char *path) {
  FILE *file = fopen(path, "rb");
  if (file == NULL) {
    perror(path);
    return 0;
  }
  size_t length = fread(text, 1, sizeof text, file), count, made;
  fclose(file);
  return !refused("read", riftkettle_read(text, length, ROAD, wants, RIFTKETTLE_WANTS, &count)) &&
         !refused("samples", riftkettle_samples(ROAD, SAMPLES, &made));
}

/* The surface at t, every metre of the road, as a track: how many f32 it has, 0 after a refusal. A track has room for 512 points; a
 * longer road needs longer steps, or several tracks. */
static size_t lay_track(double t) {
  size_t n = 0;
  for (double s = 0; s <= numbers[RIFTKETTLE_LENGTH] && n < RIFTKETTLE_TRACK; s += 1) {
    double heading;
    if (refused("surface", riftkettle_surface(ROAD, SAMPLES, s, t, track + n, &heading))) {
      return 0;
    }
    n += RIFTKETTLE_POINT_STRIDE;
  }
  return n;
}

/* How far the dot lies from the track, where along it, and which way the track runs there. */
static int measure(size_t n, const float dot[3]) {
  float projection[5], pose[6]; /* s, x, y, z, offset; x, y, z and the heading's x, y, z */
  if (refused("project", riftkettle_track_project(track, n, dot[0], dot[1], dot[2], projection)) ||
      refused("pose", riftkettle_track_pose(track, n, projection[0], pose))) {
    return 0;
  }
  const float s = projection[0], offset = projection[4];
  printf("dot at x %.3f y %.3f z %.3f: %.3f m to the %s, %.3f m along, heading x %.4f y %.4f\n", dot[0], dot[1], dot[2],
         offset < 0 ? -offset : offset, offset < 0 ? "right" : "left", s, pose[3], pose[4]);
  return 1;
}

int main(void) {
  static const float dots[3][3] = {{528.227f, 211.740f, 212.912f}, {610.609f, 265.542f, 216.012f}, {708.372f, 418.873f, 215.922f}};
  if (!usual_environment()) {
    fputs("the floating-point environment is not the usual one: no answer would be sure\n", stderr);
    return 1;
  }
  size_t n = read_job("examples/jobs/country_road.job") ? lay_track(-3.25) : 0;
  if (n == 0) {
    return 1;
  }
  printf("track of %zu points\n", n / RIFTKETTLE_POINT_STRIDE);
  for (int i = 0; i < 3; i++) {
    if (!measure(n, dots[i])) {
      return 1;
    }
  }
  return 0;
}
