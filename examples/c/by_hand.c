/* A road laid by hand in lent memory, at the places of the header: a line of 10 m, then a spiral of 2 m. Its samples, the reference
 * line, the axes, the line's own pose; a value in axis counts; and the road refused when a number is over its limit. example.c has the
 * other calls. It writes what by_hand.stdout holds. */
#include <inttypes.h>
#include <stdio.h>
#include <xmmintrin.h>

#include "riftkettle.h"

/* Zero is a fine start for what a road does not use. */
static uint16_t words[RIFTKETTLE_WORDS];
static double numbers[RIFTKETTLE_NUMBERS];
static double samples[RIFTKETTLE_SAMPLES];

#define ROAD words, RIFTKETTLE_WORDS, numbers, RIFTKETTLE_NUMBERS
#define SAMPLES samples, RIFTKETTLE_SAMPLES

/* As in example.c. */
static int usual_environment(void) {
  const unsigned masks = 0x1f80, rounding = 0x6000, flush = 0x8040;
  return (_mm_getcsr() & (masks | rounding | flush)) == masks;
}

static void geometry(int i, uint16_t kind, const double columns[RIFTKETTLE_GEOM_STRIDE]) {
  for (int k = 0; k < RIFTKETTLE_GEOM_STRIDE; k++) {
    numbers[RIFTKETTLE_GEOM + RIFTKETTLE_GEOM_STRIDE * i + k] = columns[k];
  }
  words[RIFTKETTLE_KIND + i] = kind;
}

static void lay_road(void) {
  const double line[RIFTKETTLE_GEOM_STRIDE] = {0, 0, 0, 0, 10, 0, 0};
  const double spiral[RIFTKETTLE_GEOM_STRIDE] = {10, 10, 0, 0, 2, 0, 0.5};
  numbers[RIFTKETTLE_LENGTH] = 12;
  geometry(0, 0, line);
  geometry(1, 2, spiral);
  words[RIFTKETTLE_GEOMS] = 2;
  words[RIFTKETTLE_SECTIONS] = 1;
}

static void along_road(void) {
  const double at[3] = {4, 11.5, 13};
  for (int i = 0; i < 3; i++) {
    double station[8] = {0}; /* a refusal leaves it */
    uint32_t refusal = riftkettle_station(ROAD, SAMPLES, at[i], station);
    printf("station %.1f: %" PRIu32 ", x %.6f y %.6f heading %.6f\n", at[i], refusal, station[1], station[2], station[3]);
  }
  double axes[9] = {0};
  uint32_t refusal = riftkettle_axes(ROAD, SAMPLES, 11.5, axes);
  printf("axes at 11.5: %" PRIu32 ", along %.6f %.6f %.6f, across %.6f %.6f %.6f\n", refusal, axes[0], axes[1], axes[2], axes[3], axes[4],
         axes[5]);
  double pose[3] = {0};
  refusal = riftkettle_pose(ROAD, SAMPLES, 0, 11.5, pose);
  printf("the line at 11.5: %" PRIu32 ", x %.6f y %.6f heading %.6f\n", refusal, pose[0], pose[1], pose[2]);
}

int main(void) {
  if (!usual_environment()) {
    fputs("the floating-point environment is not the usual one: no answer would be sure\n", stderr);
    return 1;
  }
  lay_road();
  size_t made = 0;
  printf("admitted %" PRIu32 "\n", riftkettle_admit(ROAD));
  uint32_t refusal = riftkettle_samples(ROAD, SAMPLES, &made);
  printf("samples %" PRIu32 ", %zu made\n", refusal, made);
  along_road();

  int64_t count = 0;
  refusal = riftkettle_counts(1.0 / 32.0, &count);
  printf("counts %" PRIu32 ", %" PRId64 "\n", refusal, count);

  numbers[RIFTKETTLE_GEOM + RIFTKETTLE_GEOM_STRIDE + 6] = 1.5; /* the spiral's curvature at its end */
  refusal = riftkettle_admit(ROAD);
  printf("refused %" PRIu32 ", out of range: %d\n", refusal, refusal == RIFTKETTLE_REFUSED_RANGE);
  return 0;
}
