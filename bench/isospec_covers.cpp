// The smallest sets of isotopologues for a coverage by IsoSpec, in doubles.
// Words: COVERAGE ISOTOPES [sizes]. The file ISOTOPES has lines "SYMBOL MASS PROBABILITY". Input: lines that begin
// with a formula. Output: for each formula its size and, without the word sizes, a line for each isotopologue by
// falling probability. The last line of standard error is the seconds inside the library.
#include <IsoSpec++/fixedEnvelopes.h>
#include <IsoSpec++/isoSpec++.h>
#include <algorithm>
#include <cctype>
#include <cmath>
#include <chrono>
#include <cstdio>
#include <cstdlib>
#include <fstream>
#include <iostream>
#include <map>
#include <string>
#include <vector>
#include "numbers.hpp"

struct Isotopes {
    std::vector<std::string> names;
    std::vector<double> masses, probabilities;
};

int main(int argc, char** argv) {
    if (argc < 3) return 2;
    std::map<std::string, Isotopes> table;
    std::ifstream file(argv[2]);
    std::string symbol;
    for (double mass, probability; file >> symbol >> mass >> probability;) {
        table[symbol].names.push_back("[" + std::to_string(std::lround(mass)) + symbol + "]");
        table[symbol].masses.push_back(mass);
        table[symbol].probabilities.push_back(probability);
    }
    using Clock = std::chrono::steady_clock;
    Clock::duration inside{};
    std::string text;
    for (std::string line; std::getline(std::cin, line);) {
        std::vector<std::string> names;
        std::vector<int> atoms, sizes;
        std::vector<const double*> masses, probabilities;
        for (size_t i = 0; i < line.size() && line[i] != ' ';) {
            size_t from = i++;
            while (i < line.size() && std::islower(line[i])) i++;
            const Isotopes& isotopes = table.at(line.substr(from, i - from));
            for (from = i; i < line.size() && std::isdigit(line[i]);) i++;
            atoms.push_back(i > from ? std::stoi(line.substr(from, i - from)) : 1);
            names.insert(names.end(), isotopes.names.begin(), isotopes.names.end());
            sizes.push_back((int)isotopes.masses.size());
            masses.push_back(isotopes.masses.data());
            probabilities.push_back(isotopes.probabilities.data());
        }
        const auto start = Clock::now();
        auto found = IsoSpec::FixedEnvelope::FromTotalProb(
            IsoSpec::Iso((int)atoms.size(), sizes.data(), atoms.data(), masses.data(), probabilities.data()),
            std::atof(argv[1]), true, true);
        inside += Clock::now() - start;
        text += "size ";
        put(text, found.confs_no());
        end_line(text);
        if (argc > 3) continue;
        std::vector<std::pair<double, size_t>> order(found.confs_no());
        for (size_t i = 0; i < order.size(); i++) order[i] = {-found.prob(i), i};
        std::sort(order.begin(), order.end());
        for (const auto& [_, place] : order) {
            const int* count = found.conf(place);
            for (const std::string& name : names) put_count(text, name, (unsigned)*count++);
            text += ' ';
            put_mass(text, found.mass(place));
            text += ' ';
            put(text, (unsigned long long)(found.prob(place) * 1e18));
            end_line(text);
        }
    }
    std::fwrite(text.data(), 1, text.size(), stdout);
    std::fprintf(stderr, "%.9f\n", std::chrono::duration<double>(inside).count());
}
