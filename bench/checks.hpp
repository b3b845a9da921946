/* Counts of checks. */
#pragma once

#include <cstdio>
#include <string>

class Checks {
    unsigned passed = 0, failed = 0;

  public:
    void that(bool holds, const std::string &otherwise) {
        holds ? passed++ : failed++;
        if (!holds)
            std::printf("%s\n", otherwise.c_str());
    }

    bool all_passed() const { return failed == 0; }

    /* the last line, and the exit status */
    int finish() const {
        std::printf("%u passed, %u failed\n", passed, failed);
        return failed == 0 && passed > 0 ? 0 : 1;
    }
};
