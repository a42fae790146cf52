// IT++'s exact tail-biting decoder over lines of values: a line is a block, a value for each coded bit.
// Answers a line for each: nanoseconds, and the bits of the decoder's input in order.
#include <itpp/itcomm.h>

#include <chrono>
#include <cstdlib>
#include <iostream>
#include <sstream>
#include <string>
#include <vector>

// The generators with the newest bit highest, as IT++ takes them.
static itpp::ivec generators(int constraint) {
    itpp::ivec both(2);
    both(0) = constraint == 7 ? 0133 : 0561;
    both(1) = constraint == 7 ? 0171 : 0753;
    return both;
}

// The values of a line: positive for 0, as IT++ has it too.
static itpp::vec values_of(const std::string &line) {
    std::istringstream words(line);
    std::vector<double> read;
    for (double value; words >> value;) {
        read.push_back(value);
    }
    itpp::vec values(static_cast<int>(read.size()));
    for (int i = 0; i < values.size(); i++) {
        values(i) = read[i];
    }
    return values;
}

int main(int count, char **words) {
    if (count != 2) {
        std::cerr << "usage: itpp CONSTRAINT <BLOCKS\n";
        return 1;
    }
    const int constraint = std::atoi(words[1]);
    itpp::Convolutional_Code code;
    code.set_generator_polynomials(generators(constraint), constraint);
    for (std::string line; std::getline(std::cin, line);) {
        const itpp::vec values = values_of(line);
        itpp::bvec bits;
        const auto start = std::chrono::steady_clock::now();
        code.decode_tailbite(values, bits);
        const std::chrono::nanoseconds taken = std::chrono::steady_clock::now() - start;
        std::cout << taken.count() << ' ';
        for (int i = 0; i < bits.size(); i++) {
            std::cout << static_cast<int>(bits(i));
        }
        std::cout << '\n';
    }
    return 0;
}
