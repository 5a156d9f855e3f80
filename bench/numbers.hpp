// Numbers as text, as quickly as the program writes them: doubles as whole numbers of a unit.
#pragma once
#include <charconv>
#include <cstdio>
#include <string>

inline void put(std::string& text, unsigned long long number) {
    char room[24];
    text.append(room, std::to_chars(room, room + sizeof room, number).ptr);
}

/// A mass with 12 decimals.
inline void put_mass(std::string& text, double mass) {
    const unsigned long long unit = 1000000000000, units = (unsigned long long)(mass * 1e12 + 0.5);
    put(text, units / unit);
    const size_t point = text.size();
    put(text, unit + units % unit);
    text[point] = '.';
}

/// A symbol with its count, where that isn't 0.
inline void put_count(std::string& text, const std::string& symbol, unsigned count) {
    if (!count) return;
    text += symbol;
    if (count > 1) put(text, count);
}

/// Ends a line, and writes out what has gathered.
inline void end_line(std::string& text) {
    text += '\n';
    if (text.size() < 65536) return;
    std::fwrite(text.data(), 1, text.size(), stdout);
    text.clear();
}
