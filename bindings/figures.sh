#!/usr/bin/env bash
# Times the calls for C beside std::filesystem, and the package of Python beside pathlib, posixpath and ntpath, by turns:
# nanoseconds a call, the least of SWEEPS sweeps (100) over a thousand paths of a sort, which a seed makes, and which
# are objects already. It stops where answers differ, and prints a table of C, and two of Python, of usual and of short
# paths, where a `!` stands at what is not as fast as the fastest of Python's own.
# bindings/figures.sh DIR [SWEEPS]: DIR has what bindings/c/build.sh laid out.
set -euo pipefail
[[ $# -ge 1 ]] || { echo "figures.sh: it takes the folder that build.sh laid out" >&2 && exit 2; }
here=$(cd "$(dirname "$0")" && pwd) dir=$(cd "$1" && pwd) room=$(mktemp -d)
trap 'rm -rf "$room"' EXIT
export PYTHONPATH=$room TYPED_PATH_DIR=$dir TYPED_PATH_LIBRARY=$dir/lib/libtyped_path.so PYTHONDONTWRITEBYTECODE=1
python3 "$here/python/wheel_of.py" "$room"

g++ -std=c++17 -O2 "-I$dir/include" -o "$room/calls" -x c++ - -x none "$dir/lib/libtyped_path.a" << 'END'
#include <chrono>
#include <filesystem>
#include <iostream>
#include <typed_path.h>
#include <vector>
using View = std::string_view; using Path = std::filesystem::path;
struct Texts { std::vector<std::string> own; std::vector<Path> theirs; std::string all; std::vector<size_t> ends; };
static Texts names[2], dotted[2], paths[2];
static const View base[] = {"/srv/www/data", "C:\\srv\\www\\data"};
static Path made, their_base = base[0];
static char out[1 << 20];
static size_t len, out_ends[1000], sum;
static uint32_t statuses[1000];
static View put(uint32_t status) { return status == TYPED_PATH_STATUS_DONE ? View(out, len) : throw status; }
static View put(Path &&path) { return (made = std::move(path)).native(); }
static View said(bool answer) { return answer ? "yes" : "no"; }
static bool leads_out(const Path &path) { return path.empty() || *path.begin() == ".."; }
template <decltype(typed_path_clean) call> static View one(int d, size_t at) {
    return put(call(d, dotted[d].own[at].data(), dotted[d].own[at].size(), out, sizeof out, &len));
}
template <decltype(typed_path_join) call> static View two(int d, View path, View other) {
    return put(call(d, path.data(), path.size(), other.data(), other.size(), out, sizeof out, &len));
}
static View within(int d, View path, View other, bool answer = false) {
    put(typed_path_is_within(d, path.data(), path.size(), other.data(), other.size(), &answer));
    return said(answer);
}
static View batch(int d, size_t) {
    const std::string &all = names[d].all;
    put(typed_path_join_checked_batch(d, base[d].data(), base[d].size(), all.data(), all.size(), names[d].ends.data(),
        1000, out, sizeof out, out_ends, 1000, statuses, 1000, &len));
    return View(out, out_ends[999]);
}
static View join(int d, size_t at) { return two<typed_path_join_checked>(d, base[d], names[d].own[at]); }
static View their_normal(int, size_t at) { return put(dotted[0].theirs[at].lexically_normal()); }
static const struct { const char *name, *by; View (*ours)(int, size_t), (*theirs)(int, size_t); } rows[] = {
    {"join_checked", "`operator/`, with no check", join,
     [](int, size_t at) { return put(their_base / names[0].theirs[at]); }},
    {"join_checked", "`operator/`, `lexically_normal`, `lexically_relative`", join, [](int, size_t at) {
        Path path = their_base / names[0].theirs[at];
        return leads_out(path.lexically_normal().lexically_relative(their_base)) ? View() : put(std::move(path));
    }},
    {"join_checked_batch", "", batch, nullptr},
    {"normalize", "`lexically_normal`", one<typed_path_normalize>, their_normal},
    {"clean", "`lexically_normal`", one<typed_path_clean>, their_normal},
    {"is_within", "`lexically_relative`", [](int d, size_t at) { return within(d, paths[d].own[at], base[d]); },
     [](int, size_t at) { return said(!leads_out(paths[0].theirs[at].lexically_relative(their_base))); }},
    {"relative_to", "`lexically_relative`",
     [](int d, size_t at) { return two<typed_path_relative_to>(d, paths[d].own[at], base[d]); },
     [](int, size_t at) { return put(paths[0].theirs[at].lexically_relative(their_base)); }}};
int main(int, char **words) {
    std::string line;
    for (Texts *sort : {&names[0], &dotted[0], &paths[0], &names[1], &dotted[1], &paths[1]})
        for (int at = 0; at < 1000 && std::getline(std::cin, line); ++at, sort->ends.push_back(sort->all.size()))
            sort->own.push_back(line), sort->theirs.push_back(line), sort->all += line;
    for (const auto &row : rows) {
        double least[] = {1e9, 1e9, 1e9};
        for (size_t at = 0; row.theirs && at < 1000; ++at)
            if (const std::string ours(row.ours(0, at)); ours != row.theirs(0, at))
                return std::cout << row.name << ": " << ours << ", not " << row.theirs(0, at) << "\n", 1;
        for (int turn = 0; turn < 3 * std::stoi(words[1]); ++turn)
            if (const auto ask = turn % 3 < 2 ? row.ours : row.theirs) {
                const auto begun = std::chrono::steady_clock::now();
                for (size_t at = 0; at < (ask == batch ? 1 : 1000); ++at)
                    sum += ask(turn % 3, at).size();
                const std::chrono::duration<double, std::micro> took = std::chrono::steady_clock::now() - begun;
                least[turn % 3] = std::min(least[turn % 3], took.count());
            }
        std::cout << "| `" << row.name << "` | " << int(least[0] + 0.5) << " | " << int(least[1] + 0.5) << " | "
                  << (row.theirs ? std::to_string(int(least[2] + 0.5)) : "") << " | " << row.by << " |\n";
    }
    return sum == 0;
}
END
python3 - "$room/calls" "${2:-100}" << 'END'
import random, subprocess, sys
chosen, words = random.Random(20261128), "src lib.rs a test_data README.md images long-name-of-a-file.tar.gz".split()
bases, sorts = ("/srv/www/data", r"C:\srv\www\data"), []
for d, sep in enumerate("/\\"):
    for fronts, ends in (([""], "/"), (["a/b/"], ["/", "/./", "//", "/../x/"]),
                         ([bases[d] + "/", bases[d][:-4] + "image/"], "/")):
        sorts += [(chosen.choice(fronts) + "".join(chosen.choice(words) + chosen.choice(ends) for _ in range(
            chosen.randrange(1, 7))) + "z").replace("/", sep) for _ in range(1000)]
print("| Call | Unix | Windows | `std::filesystem` | By |\n|---|---|---|---|---|", flush=True)
subprocess.run(sys.argv[1:], input="\n".join(sorts), text=True, check=True)
END
for sort in usual short; do
    echo
    OVER_CTYPES=$(TYPED_PATH_BACKEND=ctypes python3 "$here/python/figures.py" "${2:-100}" $sort here) \
        python3 "$here/python/figures.py" "${2:-100}" $sort
done
