// Normal paths, into a std::string.
//
// normalize unix|windows < PATHS, one a line
// c++ normalize.cpp $(pkg-config --cflags --libs typed_path) -o normalize
#include <iostream>
#include <new>
#include <stdexcept>
#include <string>
#include <typed_path.h>

// Returns the path without `.`, and without `..` and the names that these cancel.
static std::string normalized(uint32_t dialect, const std::string &path) {
    std::string out(TYPED_PATH_NORMALIZE_BOUND(path.size()), '\0');
    size_t len = 0;
    switch (typed_path_normalize(dialect, path.data(), path.size(), &out[0], out.size(), &len)) {
        case TYPED_PATH_STATUS_DONE: break;
        case TYPED_PATH_STATUS_OUT_OF_MEMORY: throw std::bad_alloc();
        default: throw std::invalid_argument("there is no such dialect");
    }
    out.resize(len);
    return out;
}

int main(int count, char **words) {
    const std::string word = count == 2 ? words[1] : "";
    if (word != "unix" && word != "windows") {
        std::cerr << "usage: " << words[0] << " unix|windows < PATHS\n";
        return 2;
    }
    const uint32_t dialect = word == "windows" ? TYPED_PATH_WINDOWS : TYPED_PATH_UNIX;
    for (std::string path; std::getline(std::cin, path);)
        std::cout << normalized(dialect, path) << '\n';
}
