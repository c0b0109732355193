/*
 * A test of yeldozhym.h from C++, for tests/library: reads a day from standard input and works it over vectors. Empty ones, whose data is null,
 * ask for the room and are the empty day. Writes the text to standard output.
 */
#include <cstdint>
#include <cstdio>
#include <vector>

#include "yeldozhym.h"

typedef std::vector<std::uint8_t> bytes;

static std::size_t work(const bytes &input, bytes &out)
{
    return yeldozhym_work_day(input.data(), input.size(), out.data(), out.size());
}

int main()
{
    bytes input, none, out;

    for (int c = std::getchar(); c != EOF; c = std::getchar())
        input.push_back(static_cast<std::uint8_t>(c));
    out.resize(work(input, none));
    if (work(input, out) != out.size()) {
        std::fputs("vectors: another room is told\n", stderr);
        return 1;
    }
    if (work(none, none) != YELDOZHYM_HEADER || yeldozhym_work_day(nullptr, 0, nullptr, 0) != YELDOZHYM_HEADER) {
        std::fputs("vectors: the empty day has another length\n", stderr);
        return 1;
    }
    if (std::ferror(stdin) || std::fwrite(out.data(), 1, out.size(), stdout) != out.size() || std::fflush(stdout) != 0) {
        std::fputs("vectors: cannot read or write\n", stderr);
        return 1;
    }
    return 0;
}
