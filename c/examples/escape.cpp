// Escapes its arguments by escape.hpp.
//
//     c++ -std=c++17 -O2 -I.. escape.cpp ../libescape.a -o escape
//     c++ -std=c++17 -O2 -I../include escape.cpp ../lib/libescape.a -o escape     in a release
//     ./escape "<a href='/x'>"
#include "escape.hpp"

#include <iostream>

int main(int argc, char **argv) {
    std::string output;
    try {
        for (int n = 1; n < argc; n++) {
            output += escape::json(argv[n]) += '\n';
            escape::append_html(output, argv[n]);
            output += '\n';
            escape::append_script(output, argv[n]);
            output += '\n';
        }
    } catch (const escape::error &error) {
        std::cerr << "escape: " << error.what() << '\n';
        return 1;
    }
    std::cout << output << std::flush;
    return std::cout ? 0 : 1;
}
