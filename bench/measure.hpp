/* Times of calls: each side is called in turn, again and again, and the median counts. */
#pragma once

#include <algorithm>
#include <chrono>
#include <functional>
#include <vector>

inline double microseconds() { return std::chrono::duration<double, std::micro>(std::chrono::steady_clock::now().time_since_epoch()).count(); }

/* how long a call takes */
inline double timed(const std::function<void()> &call) {
    double from = microseconds();
    call();
    return microseconds() - from;
}

/* how often a call that takes so long is made in a repetition: as often as fills 1 ms */
inline unsigned often(double time) { return static_cast<unsigned>(std::clamp(1000 / time, 1.0, 1000.0)); }

inline double median(std::vector<double> times) {
    std::sort(times.begin(), times.end());
    return times[times.size() / 2];
}

/* One call that is timed. In every repetition it is made once untimed, so that it finds no cache as another side left it, and then as often as fills some
   time, since the clock weighs on a short one. */
class Side {
    std::function<void()> call;
    unsigned calls = 1;
    std::vector<double> samples;

    double sample() const {
        call();
        double all = timed([this] {
            for (unsigned i = 0; i < calls; i++)
                call();
        });
        return all / calls;
    }

  public:
    explicit Side(std::function<void()> call) : call(std::move(call)) {}

    /* finds how often it is called in a repetition */
    void calibrate() { calls = often(sample()); }

    void repeat() { samples.push_back(sample()); }

    double time() const { return median(samples); }
};

/* A call, and a part of it that can be made by itself. In a call that is made again and again the part finds caches and foretold branches as the rest of the
   call before left them. Called alone again and again it would find them better, and the difference would be put down to the rest. So both are timed right
   behind a whole call, one by one; the clock weighs on both alike. */
class Parted {
    std::function<void()> call, part;
    unsigned calls = 1;
    std::vector<double> wholes, parts, rests;

  public:
    Parted(std::function<void()> call, std::function<void()> part) : call(std::move(call)), part(std::move(part)) {}

    void calibrate() {
        call();
        calls = often(timed(call));
    }

    void repeat() {
        double in_calls = 0, in_parts = 0;
        for (unsigned i = 0; i < calls; i++) {
            call();
            in_calls += timed(call);
            in_parts += timed(part);
        }
        wholes.push_back(in_calls / calls);
        parts.push_back(in_parts / calls);
        rests.push_back((in_calls - in_parts) / calls);
    }

    double whole_time() const { return median(wholes); }
    double part_time() const { return median(parts); }

    /* the whole less the part, in the same repetition: a machine that changes its speed between two of them changes both */
    double rest_time() const { return median(rests); }
};

/* medians, in microseconds */
struct Times {
    double whole, judging, engine, lemon, boost;
};
