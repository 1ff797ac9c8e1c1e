/* Riftkettle: road surface points and poses for marking carts; dots at equal spacing; track lines. Metres and radians.
 *
 * What the words mean (s, t, heading, curvature, base, lanes, heights, tracks), each number's unit and limit, and worked examples:
 * docs/ROAD.md.
 *
 * Every function answers for every argument, allocates nothing, keeps nothing between calls, and reads and writes only what is
 * lent to it. A lent slice is a pointer and then the number of its elements; the pointer is not null, aligned to its element and
 * valid for that many elements (an empty slice needs any such pointer), and what is written through one pointer overlaps nothing
 * else that is lent.
 *
 * A function that can refuse returns 0 and writes its answer, or returns the number of the refusal (RIFTKETTLE_REFUSED_.. below) and
 * changes nothing behind its pointers, riftkettle_read alone excepted: see there. Refusals are tested in the order in which a function
 * lists them.
 *
 * What the caller's program must provide:
 * - x86-64, and the usual floating-point environment at each call: rounding to nearest, no flushing of subnormals to zero (neither
 *   flush-to-zero nor denormals-are-zero), all exceptions masked. Any other was seen to change an answer or to trap. A program that is
 *   linked with -ffast-math starts with flushing on. examples/c/example.c shows the test.
 * - `memset`, the one symbol that the library takes from elsewhere. */
#ifndef RIFTKETTLE_H
#define RIFTKETTLE_H

#include <stddef.h>
#include <stdint.h>

#ifdef __cplusplus
extern "C" {
#endif

#define RIFTKETTLE_VERSION "2.1.0"
#define RIFTKETTLE_VERSION_MAJOR 2
#define RIFTKETTLE_VERSION_MINOR 1
#define RIFTKETTLE_VERSION_PATCH 0

/* ---- refusals: the numbers of documents 01 and 02. Which call answers which: docs/ROAD.md, "Refusals" */

#define RIFTKETTLE_REFUSED_FORM 1          /* a line of the job text breaks its form */
#define RIFTKETTLE_REFUSED_CAPACITY 2      /* the text, or a table of it, is too long, or a slice to read it into is too short */
#define RIFTKETTLE_REFUSED_STRUCTURE 3     /* the road's counts, references or order are wrong, or its slice is too short */
#define RIFTKETTLE_REFUSED_RANGE 4         /* a number of the road is not finite or outside its limit */
#define RIFTKETTLE_REFUSED_SAMPLE_BUDGET 5 /* the road's spirals need over 2,000 samples */
#define RIFTKETTLE_REFUSED_SAMPLE_SPACE 6  /* the lent samples are fewer than the road needs */
#define RIFTKETTLE_REFUSED_STATION 7       /* s is outside 0..length; the guess is not finite */
#define RIFTKETTLE_REFUSED_OFFSET 8        /* t is outside -80..80 */
#define RIFTKETTLE_REFUSED_TARGET 9        /* x or y is outside -2,000,000..2,000,000 */
#define RIFTKETTLE_REFUSED_LANE 10         /* the section at s, or the section named, has no lane of that id */
#define RIFTKETTLE_REFUSED_BORDER_SPACE 11 /* the lent list is shorter than the section's lanes */
#define RIFTKETTLE_REFUSED_COUNT_RANGE 12  /* the value is outside -80..80 */
#define RIFTKETTLE_REFUSED_TRACK_COUNT 13  /* the track is not 2 to 512 points of three f32, or the lent list is shorter than it */
#define RIFTKETTLE_REFUSED_TRACK_RANGE 14  /* a coordinate of the track or of the point is outside -2,000,000..2,000,000 */
#define RIFTKETTLE_REFUSED_SPACING 15      /* the spacing is outside 0.1..100 */
#define RIFTKETTLE_REFUSED_STATION_LIST 16 /* the stations are not 2 to 512 rising ones of the section, or their line is no track */
#define RIFTKETTLE_REFUSED_DOT_SPACE 17    /* the lent list is shorter than the dots kept, or the line has over 65,536 multiples */

/* ---- a road in lent memory
 *
 * Two slices: `words`, at least RIFTKETTLE_WORDS elements (counts, codes and ranges), and `numbers`, at least RIFTKETTLE_NUMBERS
 * elements (all that is an f64). A table's lines stand one after another from its place on, each with the columns listed. Longer
 * slices are allowed; what no count or range names is not read. What each column means, from where its start counts and its limit:
 * docs/ROAD.md, "Columns".
 *
 * A range (first, count) names lines of a table. first + count is at most the table's lines. Ranges may overlap: two lanes may
 * share their records. */

#define RIFTKETTLE_WORDS 1891
#define RIFTKETTLE_NUMBERS 8449

/* Places in `numbers`, with the most lines and the columns. */
#define RIFTKETTLE_LENGTH 0     /*   1: the road's length */
#define RIFTKETTLE_GEOM 1       /*  64: s x y hdg length k0 k1 (unused k0, k1 zero) */
#define RIFTKETTLE_ELEV 449     /*  64: start a b c d */
#define RIFTKETTLE_BANK 769     /*  64: start a b c d */
#define RIFTKETTLE_OFFSET 1089  /*  64: start a b c d */
#define RIFTKETTLE_TSHIFT 1409  /*  64: start a b c d */
#define RIFTKETTLE_SECTION 1729 /*  16: start */
#define RIFTKETTLE_EXTENT 1745  /* 512: start a b c d; start counts from the section's start; of a border lane the
                                      t of its outer border, from the reference line */
#define RIFTKETTLE_HEIGHT 4305  /* 512: start inner outer; start likewise */
#define RIFTKETTLE_PROFILE 5841 /*  16: s */
#define RIFTKETTLE_SHAPE 5857   /* 256: t a b c d */
#define RIFTKETTLE_CUBIC 7137   /* 160: start a b c d */
#define RIFTKETTLE_SPAN 7937    /* 256: start end; line i is the span of mark i (RIFTKETTLE_MARK). Both count from the section's start:
                                      0 <= start <= end <= its extent, the next section's start, or the length, less its own */

/* Places in `words`. The first seven are counts of lines. */
#define RIFTKETTLE_GEOMS 0         /* 1..64 */
#define RIFTKETTLE_ELEVS 1         /* 0..64 */
#define RIFTKETTLE_BANKS 2         /* 0..64 */
#define RIFTKETTLE_OFFSETS 3       /* 0..64 */
#define RIFTKETTLE_TSHIFTS 4       /* 0..64 */
#define RIFTKETTLE_SECTIONS 5      /* 1..16 */
#define RIFTKETTLE_PROFILES 6      /* 0..16 */
#define RIFTKETTLE_KIND 7          /*  64: a geometry's kind: 0 line, 1 arc (k0), 2 spiral (k0 at its start, k1 at its end) */
#define RIFTKETTLE_LANES 71        /*  16, three words a section: first lane, left lanes, right lanes (0..6 each), left outward */
#define RIFTKETTLE_LANE 119        /* 192, six words a lane: extents are 0 widths 1 borders; level 0 or 1; range of extents
                                      (0..16); range of heights (0..8) */
#define RIFTKETTLE_SHAPES 1271     /*  16, two words a profile: range of shapes (1..16) */
#define RIFTKETTLE_STRIP 1303      /*   4, eleven words a strip: 0 absent, 1 there, 2 there and relative; ranges of cubics (0..8
                                      each) of its width and of its terms 0, 1, 2, 3. Left inner, left outer, right inner, right
                                      outer. An absent strip's ranges are not read. */
#define RIFTKETTLE_MARKS 1347      /*  16, two words a section: range of marks (0..16); 0, 0 for none */
#define RIFTKETTLE_MARK 1379       /* 256, two words a mark: its lane, by its place in its section, counted from 0, the left ones
                                      outward, then the right ones, as riftkettle_borders lists them; its kind (1..255). A place that
                                      the section does not have is 3, and so is a start that is less than that of an earlier line on
                                      the same lane; a kind, start or end outside is 4. Sections that share a range are each tested
                                      with their own lanes and extent. Of all calls riftkettle_dots alone goes by marks. */

/* Elements a line: of a table of cubics (elev, bank, offset, tshift, extent, shape, cubic), of the others in `numbers`, and of those
 * in `words`. A table of one element a line is not listed. */
#define RIFTKETTLE_CUBIC_STRIDE 5
#define RIFTKETTLE_GEOM_STRIDE 7
#define RIFTKETTLE_HEIGHT_STRIDE 3
#define RIFTKETTLE_LANES_STRIDE 3
#define RIFTKETTLE_LANE_STRIDE 6
#define RIFTKETTLE_SHAPES_STRIDE 2
#define RIFTKETTLE_STRIP_STRIDE 11
#define RIFTKETTLE_SPAN_STRIDE 2
#define RIFTKETTLE_MARKS_STRIDE 2
#define RIFTKETTLE_MARK_STRIDE 2

/* ---- lent slices besides the road's: numbers an item, and as many as any road or track needs */

#define RIFTKETTLE_SAMPLE_STRIDE 4 /* a sample: distance from the geometry's start, x, y, heading */
#define RIFTKETTLE_SAMPLES 8000    /* 2,000 samples */
#define RIFTKETTLE_BORDER_STRIDE 3 /* a lane: t of its inner border, t of its outer border, its width */
#define RIFTKETTLE_BORDERS 36      /* 12 lanes */
#define RIFTKETTLE_STATIONS 512    /* the stations of a line to dot */
#define RIFTKETTLE_DOTS 65536      /* the dots of a line */
#define RIFTKETTLE_POINT_STRIDE 3  /* a point of a track, or its tangent: x, y, z, as f32 */
#define RIFTKETTLE_TRACK 1536      /* 512 points */

/* ---- arithmetic: answers for every argument, NaN and the infinities included */

/* The f64 nearest the exact root; NaN below 0. */
double riftkettle_root(double x);

/* The f32 nearest the exact root; NaN below 0. */
float riftkettle_root32(float x);

/* The root of a*a + b*b, each operation rounded once. */
double riftkettle_hypot(double a, double b);

/* Sine, cosine and sine / cosine; NaN outside -12000..12000. */
double riftkettle_sin(double h);
double riftkettle_cos(double h);
double riftkettle_tan(double h);

/* The f32 nearest x, halves to even. */
float riftkettle_narrow(double x);

/* Axis counts: v * 10,000, rounded once, to the nearest whole number, halves away from zero.
 * Refusals: 12. Writes *count. 1/32 gives 313. */
uint32_t riftkettle_counts(double v, int64_t *count);

/* ---- calls on a road: each checks the road whole */

/* 0 where the road is admitted. Refusals: 3, 4, 5. */
uint32_t riftkettle_admit(const uint16_t *words, size_t n, const double *numbers, size_t m);

/* Makes the samples of the road's spirals: four numbers each (distance from the geometry's start, x, y, heading), geometries in
 * order. Writes the samples from samples[0] on and their number to *made; what lies past them stays as it was. RIFTKETTLE_SAMPLES
 * numbers are enough for every road; a road without spirals needs none.
 * Refusals: 3, 4, 5; 6 where k / 4 is less than the samples needed. */
uint32_t riftkettle_samples(const uint16_t *words, size_t n, const double *numbers, size_t m, double *samples, size_t k,
                            size_t *made);

/* x, y and heading on the geometry of that number (from 0) at s, whether it is in use there or not. Lines and arcs run on past their
 * length and before their start; a spiral stays at its ends. The geometry in use at s is the last one whose start is at most s + 1e-9,
 * the first where there is none; riftkettle_station answers on that one and needs no number. The samples are those that
 * riftkettle_samples made of this road; the answer follows what they hold.
 * Writes x, y and heading to pose. Refusals: 3, 4, 5, 6; 3 where the road has no geometry of that number; 7. */
uint32_t riftkettle_pose(const uint16_t *words, size_t n, const double *numbers, size_t m, const double *samples, size_t k,
                         size_t geometry, double s, double pose[3]);

/* The borders of the lanes of the section at s: three numbers a lane (t of its inner border, t of its outer border, its width), the
 * left lanes from the center outward, then the right ones from the center outward. Writes them from list[0] on and the number of
 * lanes to *lanes; what lies past them stays as it was. RIFTKETTLE_BORDERS numbers are enough for every road: at most 6 lanes a side.
 * Which item is which lane: the section at s is the last whose start is at most s + 1e-9 (one f64 sum), the first where there is none;
 * words[RIFTKETTLE_LANES + RIFTKETTLE_LANES_STRIDE * section + 1] is its number of left lanes; the first so many items are lanes
 * 1, 2, .., the others lanes -1, -2, .. examples/c/example.c does it.
 * Refusals: 3, 4, 5, 7; 11 where k / 3 is less than the section's lanes. */
uint32_t riftkettle_borders(const uint16_t *words, size_t n, const double *numbers, size_t m, double s, double *list, size_t k,
                            size_t *lanes);

/* The lane at s and t, beyond all borders the outermost. Writes its id to *id: 1, 2, .. on the left and -1, -2, .. on the right, from
 * the center outward; 0, which no lane has, where t is at the base or on a side without lanes.
 * Refusals: 3, 4, 5, 7, 8. */
uint32_t riftkettle_lane_named(const uint16_t *words, size_t n, const double *numbers, size_t m, double s, double t, int32_t *id);

/* ---- calls on a road with its samples: those that riftkettle_samples made of this road. Call it first. An answer follows what they
 * hold: a slice of zeros of the right length is no refusal and gives wrong points on spirals; with other samples it may be NaN */

/* The reference line at s. Writes s, x, y, heading, z, grade (the rate of z along s), bank and the bank's rate to station.
 * Refusals: 3, 4, 5, 6, 7. */
uint32_t riftkettle_station(const uint16_t *words, size_t n, const double *numbers, size_t m, const double *samples, size_t k,
                            double s, double station[8]);

/* The road's own axes at s, x, y and z of each: along the reference line up its grade, across it tilted by the bank, and up, square
 * to both. Writes along, across and up to axes. The squares of along sum to within 0.001 of 1, and so do those of up; across is their
 * cross product as it is. Refusals: 3, 4, 5, 6, 7. */
uint32_t riftkettle_axes(const uint16_t *words, size_t n, const double *numbers, size_t m, const double *samples, size_t k, double s,
                         double axes[9]);

/* The surface at s and t, t in the banked plane, positive to the left; a positive bank raises the left. Writes x, y and z, narrowed,
 * to point, and the reference line's heading at s to *heading. Where lanes, profiles or a cross section stand off the road's plane the
 * point does; past the outermost lane its outer height holds.
 * x, y and z are f32, so each is off by up to 0.03 mm at 1 km from the origin, 0.5 mm at 10 km, 4 mm at 100 km and 31 mm at 1,000 km:
 * lay the origin near the site. riftkettle_station and riftkettle_pose answer in f64.
 * Refusals: 3, 4, 5, 6, 7, 8. */
uint32_t riftkettle_surface(const uint16_t *words, size_t n, const double *numbers, size_t m, const double *samples, size_t k,
                            double s, double t, float point[3], double *heading);

/* The same on the surface of the lane of that id (1, 2, .. left and -1, -2, .. right), which runs on straight past its borders. Past
 * the borders of a narrow lane the point may be infinite or NaN, which is no refusal.
 * Refusals: 3, 4, 5, 6, 7, 8; 10 where the section at s has no lane of that id, as for 0. */
uint32_t riftkettle_lane_surface(const uint16_t *words, size_t n, const double *numbers, size_t m, const double *samples, size_t k,
                                 int32_t id, double s, double t, float point[3], double *heading);

/* Where the point x, y lies on the road, from a guess of its station, by at most 24 moves. Writes s and t to pair, how many moves were
 * made to *moves, and 1 or 0 to *met: 1 where s lies in 0..length, t in -80..80, and the surface at the pair is under 0.0000009 m from
 * x, y as computed (then under 0.000001 m exactly). Where it is 0, s or t may be NaN. A finite guess off the road counts as the nearer
 * end. Refusals: 3, 4, 5, 6; 7 where the guess is not finite; 9 where x or y is outside -2,000,000..2,000,000. */
uint32_t riftkettle_locate(const uint16_t *words, size_t n, const double *numbers, size_t m, const double *samples, size_t k, double x,
                           double y, double guess, double pair[2], uint32_t *moves, uint32_t *met);

/* The dots of a lane: stations at equal spacing along its outer border, where marks of kind 1 cover it. The section is named by its
 * number, from 0. Its stations are lent: 2 to 512, each above the one before, none before the section's start nor past its end, the
 * next one's start or the road's length; they need not begin or end there. At each stands the point of the lane's surface at its outer
 * border, as f32; at the section's end too the lane is that of the section named. The line runs straight from point to point, and f32
 * lengths along it, in space, count from the first.
 * A dot lies at each multiple 0, spacing, 2 * spacing, .., one f32 product each, that is at most the line's length. It is a station
 * and divides the way between the stations of its segment's ends as the multiple divides that between their lengths. Kept are the dots
 * that a mark of kind 1 on the lane covers. Writes them in order from list[0] on and their number to *dots; what lies past them stays as it was. No dot
 * lies more than 0.000000001 m below the one before it. RIFTKETTLE_DOTS numbers are enough for every line. The call takes 6 KiB of
 * stack more than the others.
 * Refusals: 3, 4, 5, 6; 10 where the road has no section of that number, or the section no lane of that id, as for 0; 15 where the
 * spacing is outside 0.1f..100; 16 where the stations are others, or a coordinate of the line is outside -2,000,000..2,000,000, as it
 * may be with samples of another road; 17 where over 65,536 multiples, kept or not, are at most the line's length, or r is less than
 * the dots kept. */
uint32_t riftkettle_dots(const uint16_t *words, size_t n, const double *numbers, size_t m, const double *samples, size_t k,
                         size_t section, int32_t lane, float spacing, const double *stations, size_t q, double *list, size_t r,
                         size_t *dots);

/* ---- calls on a track line: each checks it whole
 *
 * A track is one slice of f32: x, y and z of its first point, then of the next, 2 to 512 points; n counts the f32, three a point. The
 * line runs straight from point to point, and s is the distance along it from its first point, in space. Points may repeat; the line
 * may turn back, cross itself or stand upright. A direction is x, y and z of a vector in plan, its z 0; it is zero where the line has
 * none. It is scaled to length 1, but that length is not promised: where the line all but turns straight back, rounding can leave it
 * well off 1. All arithmetic is f32, each operation rounded once: lay the origin near the site.
 *
 * Refusals: 13 where n is not three times 2..512; then 14 where a coordinate is outside -2,000,000..2,000,000. */

/* The direction at each point: halfway between those of the two segments that meet there; where only one has a direction, as at the
 * ends, that one's; zero where neither has. Where the line turns straight back it is zero or, by rounding, any. Writes three f32 a
 * point from list[0] on; what lies past them stays as it was. RIFTKETTLE_TRACK numbers are enough for every track.
 * Refusals: 13, also where k / 3 is less than the points; 14. */
uint32_t riftkettle_track_tangents(const float *points, size_t n, float *list, size_t k);

/* The place and the direction at s. Below 0 and beyond the line's length s is held to the ends, infinities too. The direction lies
 * between those at the two ends of the segment, by how far along it s is, so that it has no step at a corner, but where the line turns
 * straight back or a point is repeated. At the line's end the place may miss the last point by rounding. Writes x, y and z of the
 * place, then of the direction, to pose; for every s but NaN all are finite. A NaN s is no refusal: the place is NaN and the direction
 * zero, or both are the first point's where the first segment is no longer than 1e-6. Refusals: 13, 14. */
uint32_t riftkettle_track_pose(const float *points, size_t n, float s, float pose[6]);

/* The place of the line nearest in space to the point x, y, z; of equally near places (by the squares of their distances in f32) that
 * of the earliest segment. Writes s, x, y and z of the place, then the offset, to projection; all are finite, and s is in 0..length.
 * The offset is how far the point lies from that segment's direction in plan, positive to its left. It is measured across the segment
 * only: not up or down, nor along, where the point lies past an end of the line or outside a corner. An upright segment has no
 * direction: the offset is 0 there, however far the point is. Refusals: 13; 14, also for x, y and z. */
uint32_t riftkettle_track_project(const float *points, size_t n, float x, float y, float z, float projection[5]);

/* ---- reading */

#define RIFTKETTLE_TEXT 65536 /* the most bytes of a job text */
#define RIFTKETTLE_WANTS 32   /* two a want, 16 wants */

/* Reads a job text (docs/JOB-TEXT.md) of l bytes, at most RIFTKETTLE_TEXT, into a road: `words`, at least RIFTKETTLE_WORDS elements,
 * and `numbers`, at least RIFTKETTLE_NUMBERS, as above; and its wants into `wants`, at least RIFTKETTLE_WANTS: s, then t, of each, as
 * the bits of an f64. Writes the number of wants to *count. The road is admitted; the slices hold zeros wherever nothing was read.
 * This is the one call whose refusal clears what was lent: all three slices then hold zeros, whatever they held before, and *count
 * stays as it was.
 * Refusals: 2 for the lengths of the slices and of the text, before any line; then line by line 1, or 2 for a line more than its table
 * may have; then 3, 4, 5. */
uint32_t riftkettle_read(const uint8_t *text, size_t l, uint16_t *words, size_t n, double *numbers, size_t m, uint64_t *wants,
                         size_t k, size_t *count);

#ifdef __cplusplus
}
#endif

#endif
