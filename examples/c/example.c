/* Reads a job text and asks the library what a controller asks: the surface at each want, lane borders and names, a lane's surface,
 * where a point of the plan lies on the road. Every answer is either there or a numbered refusal.
 *
 *     example [JOB]
 *
 * JOB is a job text (docs/JOB-TEXT.md); examples/jobs/lanes_width.job, from the repository's root, if none is named. examples/run.sh
 * builds and runs this, and the same in C++ and Rust; all write what examples/stdout holds. by_hand.c lays a road itself;
 * dots.c spaces dots along a lane, track.c measures dots against a line of surface points. */
#include <inttypes.h>
#include <stdio.h>
#include <string.h>
#include <xmmintrin.h>

#include "riftkettle.h"

/* Lent memory is the caller's: static here, so nothing is allocated. */
static uint8_t text[RIFTKETTLE_TEXT + 1]; /* one byte more than a job may have, so that too long a file is refused */
static uint16_t words[RIFTKETTLE_WORDS];
static double numbers[RIFTKETTLE_NUMBERS];
static double samples[RIFTKETTLE_SAMPLES];
static uint64_t wants[RIFTKETTLE_WANTS];

/* A road and its samples, as every call that takes both takes them. */
#define ROAD words, RIFTKETTLE_WORDS, numbers, RIFTKETTLE_NUMBERS
#define SAMPLES samples, RIFTKETTLE_SAMPLES

/* Exceptions masked, rounding to nearest, neither flush-to-zero nor denormals-are-zero: the state in which a program starts, unless it
 * is linked with -ffast-math. */
static int usual_environment(void) {
  const unsigned masks = 0x1f80, rounding = 0x6000, flush = 0x8040;
  return (_mm_getcsr() & (masks | rounding | flush)) == masks;
}

/* Ends the line if the call refused. */
static int refused(uint32_t refusal) {
  static const char *const names[] = {"Form",       "Capacity",   "Structure", "Range",       "SampleBudget", "SampleSpace",
                                      "Station",    "Offset",     "Target",    "Lane",        "BorderSpace",  "CountRange",
                                      "TrackCount", "TrackRange", "Spacing",   "StationList", "DotSpace"};
  if (refusal == 0) {
    return 0;
  }
  printf("refused %" PRIu32 " (%s)\n", refusal, refusal <= 17 ? names[refusal - 1] : "unknown");
  return 1;
}

/* The job into the road and its wants, then the samples of the road's spirals. Writes the number of wants to *count. */
static int read_job(const char *path, size_t *count) {
  FILE *file = fopen(path, "rb");
  if (file == NULL) {
    perror(path);
    return 0;
  }
  size_t length = fread(text, 1, sizeof text, file);
  fclose(file);
  size_t made = 0;
  printf("job: ");
  if (refused(riftkettle_read(text, length, ROAD, wants, RIFTKETTLE_WANTS, count)) || refused(riftkettle_samples(ROAD, SAMPLES, &made))) {
    return 0;
  }
  printf("length %.4f, %zu wants, %zu samples\n", numbers[RIFTKETTLE_LENGTH], *count, made);
  return 1;
}

static void surface(double s, double t) {
  float point[3];
  double heading;
  printf("surface at s %.4f t %.4f: ", s, t);
  if (!refused(riftkettle_surface(ROAD, SAMPLES, s, t, point, &heading))) {
    printf("x %.4f y %.4f z %.4f heading %.4f\n", point[0], point[1], point[2], heading);
  }
}

static void lane_surface(int32_t id, double s, double t) {
  float point[3];
  double heading;
  printf("surface of lane %" PRId32 " at s %.4f t %.4f: ", id, s, t);
  if (!refused(riftkettle_lane_surface(ROAD, SAMPLES, id, s, t, point, &heading))) {
    printf("x %.4f y %.4f z %.4f heading %.4f\n", point[0], point[1], point[2], heading);
  }
}

/* The number of left lanes at s: the first so many borders are those of lanes 1, 2, .., the others those of lanes -1, -2, .. The
 * section at s is the last whose start is at most s + 1e-9, the first where there is none. */
static int left_lanes(double s) {
  size_t section = words[RIFTKETTLE_SECTIONS] - 1; /* a road that was read has one */
  while (section > 0 && numbers[RIFTKETTLE_SECTION + section] > s + 1e-9) {
    section--;
  }
  return words[RIFTKETTLE_LANES + RIFTKETTLE_LANES_STRIDE * section + 1];
}

static void borders(double s) {
  double list[RIFTKETTLE_BORDERS];
  size_t lanes;
  printf("borders at s %.4f: ", s);
  if (refused(riftkettle_borders(ROAD, s, list, RIFTKETTLE_BORDERS, &lanes))) {
    return;
  }
  printf("%zu lanes\n", lanes);
  const int left = left_lanes(s);
  for (int i = 0; i < (int)lanes; i++) {
    const double *lane = list + RIFTKETTLE_BORDER_STRIDE * i;
    const int id = i < left ? i + 1 : left - i - 1;
    printf("  lane %d: inner %.4f outer %.4f width %.4f\n", id, lane[0], lane[1], lane[2]);
  }
}

static void lane_named(double s, double t) {
  int32_t id;
  printf("lane at s %.4f t %.4f: ", s, t);
  if (!refused(riftkettle_lane_named(ROAD, s, t, &id))) {
    printf("%" PRId32 "\n", id); /* 0 where there is none */
  }
}

static void locate(double x, double y, double guess) {
  double pair[2];
  uint32_t moves, met;
  printf("x %.4f y %.4f from s %.4f: ", x, y, guess);
  if (!refused(riftkettle_locate(ROAD, SAMPLES, x, y, guess, pair, &moves, &met))) {
    printf("s %.4f t %.4f, %" PRIu32 " moves, %s\n", pair[0], pair[1], moves, met ? "met" : "not met");
  }
}

int main(int argc, char **argv) {
  if (!usual_environment()) {
    fputs("the floating-point environment is not the usual one: no answer would be sure\n", stderr);
    return 1;
  }
  printf("riftkettle %s\n", RIFTKETTLE_VERSION);
  size_t count;
  if (!read_job(argc > 1 ? argv[1] : "examples/jobs/lanes_width.job", &count)) {
    return 1;
  }
  for (size_t i = 0; i < count; i++) {
    double want[2]; /* s and t, kept as bits */
    memcpy(want, wants + 2 * i, sizeof want);
    surface(want[0], want[1]);
  }
  const double length = numbers[RIFTKETTLE_LENGTH], middle = length / 2;
  borders(middle);
  lane_named(middle, 5);
  lane_named(middle, -1);
  lane_named(middle, 0.25);
  lane_surface(-2, middle, -4);
  locate(30, 2, 0);
  surface(length + 1, 0); /* off the road */
  return 0;
}
