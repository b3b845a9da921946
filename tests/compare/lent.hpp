/* Memory that is lent to a call: a slice between guard bytes. */
#pragma once

#include <algorithm>
#include <cstdint>
#include <vector>

using Bytes = std::vector<uint8_t>;

class Lent {
    static constexpr size_t guard = 61; /* odd, so that no slice begins at a round address */
    static constexpr uint8_t guard_byte = 0xa5;
    Bytes memory;

  public:
    explicit Lent(const Bytes &slice) : memory(slice.size() + 2 * guard, guard_byte) { put(slice); }

    uint8_t *data() { return memory.data() + guard; }
    size_t size() const { return memory.size() - 2 * guard; }
    Bytes slice() const { return Bytes(memory.begin() + guard, memory.end() - guard); }
    void put(const Bytes &slice) { std::copy(slice.begin(), slice.end(), memory.begin() + guard); }

    /* whether the slice holds just these bytes and no guard byte has changed */
    bool holds(const Bytes &slice) const {
        auto is_guard = [](uint8_t byte) { return byte == guard_byte; };
        return std::all_of(memory.begin(), memory.begin() + guard, is_guard) && std::all_of(memory.end() - guard, memory.end(), is_guard) &&
               slice.size() == size() && std::equal(slice.begin(), slice.end(), memory.begin() + guard);
    }
};

/* what a slice holds before a call: no zero, no two neighbours alike */
inline Bytes unlike_any(size_t length) {
    Bytes bytes(length);
    for (size_t i = 0; i < length; i++)
        bytes[i] = static_cast<uint8_t>(1 + i % 251);
    return bytes;
}

/* numbers in slices are little-endian */
inline void put_number(Bytes &bytes, size_t place, size_t length, uint64_t number) {
    for (size_t i = 0; i < length; i++)
        bytes[place + i] = static_cast<uint8_t>(number >> 8 * i);
}

inline uint64_t get_number(const Bytes &bytes, size_t place, size_t length) {
    uint64_t number = 0;
    for (size_t i = 0; i < length; i++)
        number |= static_cast<uint64_t>(bytes[place + i]) << 8 * i;
    return number;
}
