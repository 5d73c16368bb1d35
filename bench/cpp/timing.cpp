#include "timing.h"
#include <algorithm>
#include <cstdio>
#include <ctime>
#include <vector>

// Each side works at least so long between two looks at the clock, and so many turns, so that what a turn finds
// in the caches is mostly what an earlier one left there.
static const double LEAST = 20e6;
static const uint32_t LEAST_TURNS = 4;

// Nanoseconds of processor time that this thread has taken.
static double now() {
  timespec time;
  clock_gettime(CLOCK_THREAD_CPUTIME_ID, &time);
  return time.tv_sec * 1e9 + time.tv_nsec;
}

static double time_of(const Work &work, uint32_t turns) {
  double start = now();
  volatile uint64_t sum = work(turns);
  (void)sum;
  return now() - start;
}

// A turn without what is prepared for all turns, which a call of no turns takes as well.
static double turn_of(const Work &work, uint32_t turns) {
  double prepared = time_of(work, 0);
  return std::max(0.0, time_of(work, turns) - prepared) / turns;
}

// How many turns it takes for the least time.
static uint32_t enough(const Work &work) {
  for (uint32_t turns = LEAST_TURNS; turns < 1u << 20; turns *= 2)
    if (turn_of(work, turns) * turns >= LEAST)
      return turns;
  return 1u << 20;
}

static double quantile(std::vector<double> values, double part) {
  std::sort(values.begin(), values.end());
  return values[size_t(part * (values.size() - 1) + 0.5)];
}

bool sums_agree(const Row &row) { return row.ours(1) == row.theirs(1); }

void print_times(const Row &row, uint32_t rounds) {
  uint32_t ours = enough(row.ours), theirs = enough(row.theirs);
  std::vector<double> of_ours, of_theirs, ratios;
  for (uint32_t round = 0; round < rounds; round++) {
    double a, b;
    if (round % 2 == 0) {
      a = turn_of(row.ours, ours);
      b = turn_of(row.theirs, theirs);
    } else {
      b = turn_of(row.theirs, theirs);
      a = turn_of(row.ours, ours);
    }
    of_ours.push_back(a);
    of_theirs.push_back(b);
    ratios.push_back(a / b);
  }
  printf("{\"work\": \"%s\", \"on\": \"%s\", \"size\": %llu, \"ours\": %.0f, \"theirs\": %.0f, \"low\": %.4f, \"ratio\": %.4f, \"high\": %.4f}\n",
         row.work.c_str(), row.on.c_str(), (unsigned long long)row.size, quantile(of_ours, 0.5), quantile(of_theirs, 0.5),
         quantile(ratios, 0.25), quantile(ratios, 0.5), quantile(ratios, 0.75));
  fflush(stdout);
}
