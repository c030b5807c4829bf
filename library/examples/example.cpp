// example PROGRAM PUA TIMES INTERGREENS < DETECTORS: a second for each line, as a line of the log.
//
//   c++ -std=c++17 example.cpp $(pkg-config --cflags --libs junction)
#include "junction.h"
#include "junction_log.h"
#include <array>
#include <fstream>
#include <iostream>
#include <iterator>
#include <memory>
#include <new>
#include <stdexcept>
#include <string>

// A controller of one junction. It moves, and is not copied.
class Controller {
public:
    explicit Controller(const std::array<std::string, 4> &files) {
        const auto text = [&](std::size_t at) { return junction_text{files[at].data(), files[at].size()}; };
        const junction_texts texts{text(0), text(1), text(2), text(3)};
        junction *opened = nullptr;
        junction_refusal refusal{};
        const junction_status status = junction_open(&opened, &texts, &refusal);
        if (status == JUNCTION_NO_MEMORY) throw std::bad_alloc();
        if (status) throw std::invalid_argument(refusal.note);
        held.reset(opened);
    }

    // Makes a second; answers whether the counts were taken.
    bool second(const junction_counts &counts, junction_told &told) {
        return junction_second(held.get(), &counts, &told) == JUNCTION_DONE;
    }
    junction *get() { return held.get(); }

private:
    struct Close {
        void operator()(junction *one) const { junction_close(one); }
    };
    std::unique_ptr<junction, Close> held;
};

int main(int count, char **words) {
    if (count != 5) return 2;
    std::array<std::string, 4> files;
    for (std::size_t at = 0; at < 4; at++) {
        std::ifstream file(words[at + 1], std::ios::binary);
        if (!file) return 3;
        files[at].assign(std::istreambuf_iterator<char>(file), {});
    }
    try {
        Controller first(files), controller = std::move(first);
        junction_names names;
        junction_take_names(controller.get(), &names);
        junction_put_header(stdout, &names);
        for (std::string line; std::getline(std::cin, line);) {
            junction_counts counts;
            junction_told told;
            if (!junction_read_counts(line.c_str(), &counts) || !controller.second(counts, told)) return 6;
            junction_put_second(stdout, controller.get(), &names, &counts, &told);
        }
    } catch (const std::invalid_argument &refused) {
        std::cerr << refused.what();
        return 5;
    }
}
