// What a server does with the names that strangers send: it keeps files in a map, under the paths that they name.
//
// serve < REQUESTS, one a line: `PUT TARGET TEXT`, `GET TARGET`
// c++ -std=c++17 serve.cpp $(pkg-config --cflags --libs typed_path) -o serve
//
// A target is `/` and a name, with `%` and two hexadecimal digits for a byte. A name is accepted if every system
// takes it and it stays below the folder. `/a//./b`, `/a/c/../b` and `/a/b` are one file. The key of the map's hash
// is drawn at random, so strangers know no names that collide in it.
#include <iostream>
#include <sstream>
#include <string>
#include <typed_path.hpp>
#include <unordered_map>

using typed_path::result;
using typed_path::status;

class files {
public:
    explicit files(std::string folder) : folder_(std::move(folder)) {}

    // Puts a file in place of one that is there. Returns its path, or why it has none.
    result<std::string> put(std::string_view target, std::string text) {
        auto path = path_of(target);
        if (path)
            files_.insert_or_assign(*path, std::move(text));
        return path;
    }
    // Returns the text of a file, a null pointer if there is none, or why its name is refused.
    result<const std::string *> get(std::string_view target) const {
        const auto path = path_of(target);
        if (!path)
            return path.status();
        const auto found = files_.find(*path);
        return found == files_.end() ? nullptr : &found->second;
    }

private:
    // Returns where a target leads, which is below the folder, or why it is refused.
    result<std::string> path_of(std::string_view target) const {
        std::string name;
        if (target.empty() || target.front() != '/')
            return status::none;
        for (std::size_t at = 1; at < target.size(); at++) {
            if (target[at] != '%') {
                name += target[at];
                continue;
            }
            const std::string digits(target.substr(at + 1, 2));
            if (digits.size() != 2 || digits.find_first_not_of("0123456789abcdefABCDEF") != std::string::npos)
                return status::none;
            name += static_cast<char>(std::stoi(digits, nullptr, 16));
            at += 2;
        }
        const auto path = typed_path::unix_path(folder_).join_portable(name);
        return path ? result<std::string>(typed_path::unix_path(*path).clean()) : path;
    }

    std::string folder_;
    std::unordered_map<std::string, std::string, typed_path::unix_hash, typed_path::unix_equal> files_;
};

int main() {
    if (!typed_path::runs_here()) {
        std::cerr << "this processor is too old\n";
        return 2;
    }
    files held("/srv");
    for (std::string line; std::getline(std::cin, line);) {
        std::istringstream words(line);
        std::string method, target, text;
        words >> method >> target >> std::ws;
        std::getline(words, text);
        if (method == "PUT") {
            if (const auto path = held.put(target, text))
                std::cout << "201 " << *path << '\n';
            else
                std::cout << "400 " << to_string(path.status()) << '\n';
        } else if (method == "GET") {
            const auto found = held.get(target);
            if (!found)
                std::cout << "400 " << to_string(found.status()) << '\n';
            else if (*found)
                std::cout << "200 " << **found << '\n';
            else
                std::cout << "404\n";
        } else {
            std::cout << "405\n";
        }
    }
}
