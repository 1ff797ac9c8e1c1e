// Reads a job text and asks the library what a controller asks: the surface at each want, lane borders and names, a lane's surface,
// where a point of the plan lies on the road. Every answer is either there or a numbered refusal.
//
//     example [JOB]
//
// JOB is a job text (docs/JOB-TEXT.md); examples/jobs/lanes_width.job, from the repository's root, if none is named. examples/run.sh
// builds and runs this, and the same in C and Rust; all write what examples/stdout holds.
#include <array>
#include <cstdint>
#include <cstring>
#include <fstream>
#include <iomanip>
#include <iostream>
#include <vector>

#include <xmmintrin.h>

#include "riftkettle.h"

namespace {

// A road, its samples and its wants: the memory that is lent to the calls.
struct Road {
  std::vector<std::uint16_t> words = std::vector<std::uint16_t>(RIFTKETTLE_WORDS);
  std::vector<double> numbers = std::vector<double>(RIFTKETTLE_NUMBERS);
  std::vector<double> samples = std::vector<double>(RIFTKETTLE_SAMPLES);
  std::array<std::uint64_t, RIFTKETTLE_WANTS> wants{};

  double length() const { return numbers[RIFTKETTLE_LENGTH]; }

  // A call on the road alone, with what it takes besides.
  template <class Call, class... More>
  std::uint32_t ask(Call call, More... more) const {
    return call(words.data(), words.size(), numbers.data(), numbers.size(), more...);
  }

  // A call on the road and its samples.
  template <class Call, class... More>
  std::uint32_t ask_sampled(Call call, More... more) const {
    return ask(call, samples.data(), samples.size(), more...);
  }
};

// Exceptions masked, rounding to nearest, neither flush-to-zero nor denormals-are-zero: the state in which a program starts, unless it
// is linked with -ffast-math.
bool usual_environment() {
  constexpr unsigned masks = 0x1f80, rounding = 0x6000, flush = 0x8040;
  return (_mm_getcsr() & (masks | rounding | flush)) == masks;
}

// Ends the line if the call refused.
bool refused(std::uint32_t refusal) {
  static constexpr std::array<const char *, 17> names = {
      "Form", "Capacity",    "Structure",  "Range",      "SampleBudget", "SampleSpace", "Station",     "Offset",  "Target",
      "Lane", "BorderSpace", "CountRange", "TrackCount", "TrackRange",   "Spacing",     "StationList", "DotSpace"};
  if (refusal == 0) {
    return false;
  }
  std::cout << "refused " << refusal << " (" << (refusal <= names.size() ? names[refusal - 1] : "unknown") << ")\n";
  return true;
}

// The job into the road and its wants, then the samples of the road's spirals. Writes the number of wants to count.
bool read_job(const char *path, Road &road, std::size_t &count) {
  std::ifstream file(path, std::ios::binary);
  if (!file) {
    std::cerr << path << ": cannot be opened\n";
    return false;
  }
  std::vector<char> text(RIFTKETTLE_TEXT + 1); // one byte more than a job may have, so that too long a file is refused
  file.read(text.data(), text.size());
  const auto bytes = reinterpret_cast<const std::uint8_t *>(text.data()); // not null, for an empty file too
  std::size_t made = 0;
  std::cout << "job: ";
  if (refused(riftkettle_read(bytes, file.gcount(), road.words.data(), road.words.size(), road.numbers.data(), road.numbers.size(),
                              road.wants.data(), road.wants.size(), &count)) ||
      refused(road.ask(riftkettle_samples, road.samples.data(), road.samples.size(), &made))) {
    return false;
  }
  std::cout << "length " << road.length() << ", " << count << " wants, " << made << " samples\n";
  return true;
}

void show_point(const std::array<float, 3> &point, double heading) {
  std::cout << "x " << point[0] << " y " << point[1] << " z " << point[2] << " heading " << heading << '\n';
}

void surface(const Road &road, double s, double t) {
  std::array<float, 3> point;
  double heading;
  std::cout << "surface at s " << s << " t " << t << ": ";
  if (!refused(road.ask_sampled(riftkettle_surface, s, t, point.data(), &heading))) {
    show_point(point, heading);
  }
}

void lane_surface(const Road &road, std::int32_t id, double s, double t) {
  std::array<float, 3> point;
  double heading;
  std::cout << "surface of lane " << id << " at s " << s << " t " << t << ": ";
  if (!refused(road.ask_sampled(riftkettle_lane_surface, id, s, t, point.data(), &heading))) {
    show_point(point, heading);
  }
}

// The number of left lanes at s: the first so many borders are those of lanes 1, 2, .., the others those of lanes -1, -2, .. The
// section at s is the last whose start is at most s + 1e-9, the first where there is none.
int left_lanes(const Road &road, double s) {
  std::size_t section = road.words[RIFTKETTLE_SECTIONS] - 1; // a road that was read has one
  while (section > 0 && road.numbers[RIFTKETTLE_SECTION + section] > s + 1e-9) {
    section--;
  }
  return road.words[RIFTKETTLE_LANES + RIFTKETTLE_LANES_STRIDE * section + 1];
}

void borders(const Road &road, double s) {
  std::array<double, RIFTKETTLE_BORDERS> list;
  std::size_t lanes;
  std::cout << "borders at s " << s << ": ";
  if (refused(road.ask(riftkettle_borders, s, list.data(), list.size(), &lanes))) {
    return;
  }
  std::cout << lanes << " lanes\n";
  const int left = left_lanes(road, s);
  for (int i = 0; i < static_cast<int>(lanes); i++) {
    const double *lane = &list[RIFTKETTLE_BORDER_STRIDE * i];
    const int id = i < left ? i + 1 : left - i - 1;
    std::cout << "  lane " << id << ": inner " << lane[0] << " outer " << lane[1] << " width " << lane[2] << '\n';
  }
}

void lane_named(const Road &road, double s, double t) {
  std::int32_t id;
  std::cout << "lane at s " << s << " t " << t << ": ";
  if (!refused(road.ask(riftkettle_lane_named, s, t, &id))) {
    std::cout << id << '\n'; // 0 where there is none
  }
}

void locate(const Road &road, double x, double y, double guess) {
  std::array<double, 2> pair;
  std::uint32_t moves, met;
  std::cout << "x " << x << " y " << y << " from s " << guess << ": ";
  if (!refused(road.ask_sampled(riftkettle_locate, x, y, guess, pair.data(), &moves, &met))) {
    std::cout << "s " << pair[0] << " t " << pair[1] << ", " << moves << " moves, " << (met ? "met" : "not met") << '\n';
  }
}

} // namespace

int main(int argc, char **argv) {
  if (!usual_environment()) {
    std::cerr << "the floating-point environment is not the usual one: no answer would be sure\n";
    return 1;
  }
  std::cout << std::fixed << std::setprecision(4) << "riftkettle " << RIFTKETTLE_VERSION << '\n';
  Road road;
  std::size_t count = 0;
  if (!read_job(argc > 1 ? argv[1] : "examples/jobs/lanes_width.job", road, count)) {
    return 1;
  }
  for (std::size_t i = 0; i < count; i++) {
    std::array<double, 2> want; // s and t, kept as bits
    std::memcpy(want.data(), &road.wants[2 * i], sizeof want);
    surface(road, want[0], want[1]);
  }
  const double length = road.length(), middle = length / 2;
  borders(road, middle);
  lane_named(road, middle, 5);
  lane_named(road, middle, -1);
  lane_named(road, middle, 0.25);
  lane_surface(road, -2, middle, -4);
  locate(road, 30, 2, 0);
  surface(road, length + 1, 0); // off the road
  return 0;
}
