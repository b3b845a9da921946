/* Compares libhegtalim.a with document 01 as this program reads it and LEMON solves it, on document 01's plans, on plans at the limits and on
   plans at random.

     compare [--seed S] [--first I] [--plans N | --minutes M] [--small] [--keep FOLDER]   N plans from the I-th, or plans for M minutes
     compare --again FOLDER                                                               a case that was kept
     compare --folders FOLDER N [--seed S]                                                N folders for the program timetable, with what it must print

   Each plan is tried whole, with reports and changes of its slice, and once more with damaged tables. The first case that differs is made smaller and kept,
   unless FOLDER is empty. --small tries small plans only, on a slow machine such as valgrind's. Everything runs on a thread with a stack of 512 KiB.
   The last line is 'N passed, M failed'. */
#include <chrono>
#include <csignal>
#include <cstdio>
#include <cstring>
#include <pthread.h>
#include <unistd.h>

#include "folder.hpp"
#include "limits.hpp"
#include "shrink.hpp"
#include "starred.hpp"

struct Options {
    uint64_t seed = 20160612, first = 0, plans = 3000, minutes = 0;
    bool small = false;
    std::string keep_in = "target/tests/kept", again, folders;
};

static Options options;
static Met met;
static unsigned passed, failed;
static char running[80]; /* what to say if a call is stopped */

/* ---- one case */

static void keep_smallest(const Case &found) {
    auto differs = [](const Case &tried) {
        Met none;
        return !difference(tried, none).empty();
    };
    Case smallest = Shrinking(found, differs, std::chrono::seconds(20)).run();
    Met none;
    std::filesystem::remove_all(options.keep_in);
    keep(options.keep_in, smallest, difference(smallest, none));
    printf("kept, made smaller: %s\n", options.keep_in.c_str());
}

static void try_case(const std::string &name, const Case &tried) {
    snprintf(running, sizeof running, "%s", name.c_str());
    std::string found = difference(tried, met);
    if (found.empty()) {
        passed++;
        return;
    }
    printf("%s: %s\n", name.c_str(), found.c_str());
    if (failed++ == 0 && !options.keep_in.empty())
        keep_smallest(tried);
}

/* ---- plans */

/* the test's reading must come to what is known, too */
static void try_known(const std::vector<Known> &all) {
    for (const Known &known : all) {
        std::string wrong = misread(known);
        if (!wrong.empty()) {
            printf("%s: read wrongly: %s\n", known.name.c_str(), wrong.c_str());
            failed++;
        }
        try_case(known.name, known.tried);
    }
}

/* each plan has a seed of its own, so that it can be tried alone */
static uint64_t seed_of(uint64_t plan) { return options.seed * UINT64_C(0x9e3779b97f4a7c15) + plan; }

static void try_plan(uint64_t plan) {
    Random random(seed_of(plan));
    Case whole = random_case(random, options.small);
    add_changes(random, whole, 3);
    try_case("plan " + std::to_string(plan), whole);
    Case damaged{whole.tables, {{1, 0}}, {}, 0};
    damage_tables(random, damaged.tables);
    try_case("plan " + std::to_string(plan) + ", damaged", damaged);
}

static void try_plans() {
    using Clock = std::chrono::steady_clock;
    auto end = Clock::now() + std::chrono::minutes(options.minutes);
    uint64_t plan = options.first;
    while (failed == 0 && (options.minutes > 0 ? Clock::now() < end : plan < options.first + options.plans))
        try_plan(plan++);
    printf("%llu plans from %llu on\n", static_cast<unsigned long long>(plan - options.first), static_cast<unsigned long long>(options.first));
}

static bool is_whole() { return options.plans >= 1000 || options.minutes > 0; }

/* a whole run that never comes to some refusal shows nothing of it */
static void check_met() {
    static const std::vector<std::pair<std::string, std::vector<unsigned>>> due = {
        {"load", {0, 1, 2, 3, 4, 5, 6, 7, 8, 9, 14}}, {"report", {0, 10, 11, 12, 14}}, {"timetable", {0, 10, 13, 14}},
        {"timetable with reports", {0, 13}},          {"changed slice", {0, 10}},
    };
    for (const auto &[call, refusals] : due) {
        printf("%s, how often each refusal came (0: none):", call.c_str());
        for (unsigned refusal : refusals)
            printf(" %u: %u", refusal, met.count(call, refusal));
        printf("\n");
        for (unsigned refusal : refusals)
            if (met.count(call, refusal) == 0 && is_whole()) {
                printf("%s: %u never came\n", call.c_str(), refusal);
                failed++;
            }
    }
}

static void write_folders() {
    for (uint64_t i = 0; i < options.plans; i++) {
        Random random(seed_of(i));
        Tables tables = write_tables(random_plan(random, false));
        if (i % 4 == 3)
            damage_tables(random, tables);
        write_program_case(std::filesystem::path(options.folders) / std::to_string(i), tables);
    }
}

static void run() {
    setvbuf(stdout, nullptr, _IOLBF, 0);
    if (!options.folders.empty()) {
        write_folders();
        return;
    }
    if (!options.again.empty()) {
        try_case(options.again, kept_in(options.again));
    } else {
        printf("seed %llu\n", static_cast<unsigned long long>(options.seed));
        try_known(starred());
        if (!options.small)
            try_known(at_limits());
        try_plans();
        check_met();
    }
    printf("%u passed, %u failed\n", passed, failed);
}

/* ---- the thread */

/* a call that reads or writes where there is nothing, or needs more stack than there is */
static void stopped(int) {
    static const char said[] = ": stopped at a place that is not lent, or out of stack\n0 passed, 1 failed\n";
    if (write(1, running, strlen(running)) < 0 || write(1, said, sizeof said - 1) < 0)
        _exit(2);
    _exit(1);
}

static void *run_in_thread(void *) {
    static char other_stack[1 << 16];
    stack_t stack = {}, was = {};
    stack.ss_sp = other_stack;
    stack.ss_size = sizeof other_stack;
    struct sigaction action = {};
    action.sa_handler = stopped;
    action.sa_flags = SA_ONSTACK;
    sigaltstack(&stack, &was);
    sigaction(SIGSEGV, &action, nullptr);
    sigaction(SIGBUS, &action, nullptr);
    run();
    sigaltstack(&was, nullptr);
    return nullptr;
}

static bool run_on_stack(size_t bytes) {
    pthread_attr_t attributes;
    pthread_t thread;
    return pthread_attr_init(&attributes) == 0 && pthread_attr_setstacksize(&attributes, bytes) == 0 &&
           pthread_create(&thread, &attributes, run_in_thread, nullptr) == 0 && pthread_join(thread, nullptr) == 0;
}

static bool read_options(int count, char **words) {
    for (int i = 1; i < count; i++) {
        std::string word = words[i];
        int left = count - 1 - i;
        if (word == "--folders" && left >= 2) {
            options.folders = words[++i];
            options.plans = strtoull(words[++i], nullptr, 10);
        } else if (word == "--small") {
            options.small = true;
        } else if ((word == "--keep" || word == "--again") && left >= 1) {
            (word == "--keep" ? options.keep_in : options.again) = words[++i];
        } else if ((word == "--seed" || word == "--first" || word == "--plans" || word == "--minutes") && left >= 1) {
            uint64_t number = strtoull(words[++i], nullptr, 10);
            (word == "--seed" ? options.seed : word == "--first" ? options.first : word == "--plans" ? options.plans : options.minutes) = number;
        } else {
            return false;
        }
    }
    return true;
}

int main(int count, char **words) {
    if (!read_options(count, words)) {
        fprintf(stderr,
                "compare [--seed S] [--first I] [--plans N | --minutes M] [--small] [--keep FOLDER] | --again FOLDER | --folders FOLDER N [--seed S]\n");
        return 2;
    }
    if (!run_on_stack(512 << 10)) {
        fprintf(stderr, "no thread with a stack of 512 KiB\n");
        return 2;
    }
    return failed != 0;
}
