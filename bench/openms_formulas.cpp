// The formulas of masses by OpenMS's mass decomposer (Böcker, Lipták), in doubles.
// Words: SYMBOL MASS for each symbol, by rising mass. Input: a line "MASS HALF_WIDTH" in Da for each window.
// Output: a line for each formula of each window. The last line of standard error is the seconds inside the library.
#include <OpenMS/CHEMISTRY/MASSDECOMPOSITION/IMS/RealMassDecomposer.h>
#include <OpenMS/CHEMISTRY/MASSDECOMPOSITION/IMS/Weights.h>
#include <chrono>
#include <cstdio>
#include <cstdlib>
#include <string>
#include <vector>
#include "numbers.hpp"

int main(int argc, char** argv) {
    std::vector<std::string> symbols;
    std::vector<double> masses;
    for (int i = 1; i + 1 < argc; i += 2) {
        symbols.push_back(argv[i]);
        masses.push_back(std::atof(argv[i + 1]));
    }
    using Clock = std::chrono::steady_clock;
    Clock::duration inside{};
    auto from = Clock::now();
    OpenMS::ims::RealMassDecomposer decomposer(OpenMS::ims::Weights(masses, 1e-5));
    inside += Clock::now() - from;
    std::string text;
    double mass, half;
    while (std::scanf("%lf %lf", &mass, &half) == 2) {
        from = Clock::now();
        const auto found = decomposer.getDecompositions(mass, half);
        inside += Clock::now() - from;
        for (const auto& counts : found) {
            double sum = 0;
            for (size_t i = 0; i < counts.size(); i++) {
                put_count(text, symbols[i], counts[i]);
                sum += counts[i] * masses[i];
            }
            text += ' ';
            put_mass(text, sum);
            end_line(text);
        }
    }
    std::fwrite(text.data(), 1, text.size(), stdout);
    std::fprintf(stderr, "%.9f\n", std::chrono::duration<double>(inside).count());
}
