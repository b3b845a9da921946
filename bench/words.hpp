/* Numbers and times in words. */
#pragma once

#include <cstdio>
#include <string>

/* three digits, no exponent */
inline std::string three_digits(double number) {
    char text[32];
    std::snprintf(text, sizeof text, "%.*f", number < 9.995 ? 2 : number < 99.95 ? 1 : 0, number);
    return text;
}

inline std::string duration(double microseconds) {
    return microseconds < 999.5 ? three_digits(microseconds) + " µs" : three_digits(microseconds / 1000) + " ms";
}

/* with a comma between thousands */
inline std::string count(size_t number) {
    std::string text = std::to_string(number);
    for (size_t i = text.size(); i > 3;)
        text.insert(i -= 3, ",");
    return text;
}
