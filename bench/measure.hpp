// How the programs of this folder measure: processor time, the least of several repetitions, in which those that are compared take turns. A line is printed for each figure:
// measure, kind of graph, n, d, kind of pairs, who, and nanoseconds for one of what is measured.
#pragma once
#include <algorithm>
#include <cstdint>
#include <cstdio>
#include <cstdlib>
#include <ctime>
#include <functional>
#include <pthread.h>
#include <string>
#include <vector>

static void must(bool holds, const char *what) {
    if (holds) return;
    fprintf(stderr, "bench: %s\n", what);
    exit(1);
}

static bool quick;
static volatile uint32_t sink; // takes the answers, so that they are worked out

struct Where {
    const char *measure, *kind;
    uint32_t n;
    int d;
    const char *pairs;
};

struct Job {
    const char *who;
    std::function<void()> run;
};

static double now() {
    timespec t;
    clock_gettime(CLOCK_PROCESS_CPUTIME_ID, &t);
    return t.tv_sec + t.tv_nsec * 1e-9;
}

static double once(const Job &job, int times) {
    double begun = now();
    for (int i = 0; i < times; i++) job.run();
    return (now() - begun) / times;
}

static void figure(const Where &w, const char *who, double value) {
    printf("%s\t%s\t%u\t%d\t%s\t%s\t%.2f\n", w.measure, w.kind, w.n, w.d, w.pairs, who, value);
    fflush(stdout);
}

// One run of a job does `count` of what is measured. A repetition takes some milliseconds, or one run. Repetitions that take long are fewer, but three at least.
static void measure(const Where &w, double count, const std::vector<Job> &jobs) {
    const int rounds = quick ? 2 : 15;
    const double span = quick ? 0.0002 : 0.004, long_enough = 1;
    std::vector<int> times;
    std::vector<double> least(jobs.size(), 1e9);
    for (const Job &job : jobs) {
        double first = once(job, 1);
        times.push_back(1 + span / ((first < span ? once(job, 1) : first) + 1e-9));
    }
    double begun = now();
    for (int r = 0; r < rounds && (r < 3 || now() - begun < long_enough); r++)
        for (size_t i = 0; i < jobs.size(); i++) least[i] = std::min(least[i], once(jobs[i], times[i]));
    for (size_t i = 0; i < jobs.size(); i++) figure(w, jobs[i].who, least[i] * 1e9 / count);
}

// Runs `all`, as the program's one word says it, `all`, `quick` or, where the program has it, `build`, on a large stack: the peers nest a call for each level of a line.
inline void run(int words, char **word, void *(*all)(void *)) {
    std::string what = words == 2 ? word[1] : "";
    must(what == "all" || what == "build" || what == "quick", "all, build or quick?");
    quick = what == "quick";
    pthread_attr_t large;
    pthread_t thread;
    must(!pthread_attr_init(&large) && !pthread_attr_setstacksize(&large, 1 << 29), "no stack of 512 MB");
    must(!pthread_create(&thread, &large, all, nullptr) && !pthread_join(thread, nullptr), "no thread");
}
