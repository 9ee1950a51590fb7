// The rows of ../../rows.tsv by the C++ header.
//
// rows FILE: prints what is wrong, and how many rows there are.
#include <typed_path.hpp>

#include <algorithm>
#include <cstdio>
#include <fstream>
#include <iostream>
#include <sstream>
#include <variant>
#include <vector>

using namespace typed_path;
using namespace std::literals;

using Answer = std::variant<std::string, status>;

// Returns the status that the word of a row names.
static status named(const std::string &word) {
    static const std::pair<const char *, status> statuses[] = {
        {"DONE", status::done},
        {"INVALID_FILENAME", status::invalid_filename},
        {"PATH_TRAVERSAL_ATTACK", status::path_traversal_attack},
        {"UNEXPECTED_PREFIX", status::unexpected_prefix},
        {"UNEXPECTED_ROOT", status::unexpected_root},
        {"NONE", status::none},
        {"AMBIGUOUS", status::ambiguous},
        {"HAS_PREFIX", status::has_prefix},
        {"FORBIDDEN", status::forbidden},
        {"DEVICE", status::device},
        {"ENDING", status::ending},
        {"TOO_LONG", status::too_long},
        {"NOT_TEXT", status::not_text},
    };
    for (const auto &[name, of] : statuses)
        if (word == name)
            return of;
    std::cerr << "no status is called " << word << '\n';
    std::exit(2);
}

static const char *word_of(kind of) {
    static const char *const words[] = {
        "root", "current", "parent", "normal", "Verbatim", "VerbatimUNC", "VerbatimDisk", "DeviceNS", "UNC", "Disk",
    };
    return words[static_cast<std::size_t>(of)];
}

static Answer answer(bool it) { return std::string(it ? "true" : "false"); }
static Answer answer(std::string it) { return it; }
static Answer answer(status it) { return it == status::done ? Answer(std::string()) : Answer(it); }
static Answer answer(const result<std::string> &it) {
    if (it)
        return it.value();
    try {
        (void)it.value();
    } catch (const error &refused) {
        if (refused.status() == it.status() && refused.what() == to_string(it.status()))
            return refused.status();
    }
    return "not thrown"s;
}
template <class Part>
static Answer answer(const std::optional<Part> &it) {
    return it ? Answer(std::string(*it)) : Answer(status::none);
}

static bool are_alike(const component &one, const component &other) {
    return one.kind == other.kind && one.text == other.text && one.text.data() == other.text.data();
}

// Returns the components from the front, if those from the back, by steps to and fro and by index are the same.
template <dialect D>
static Answer listed(basic_path_view<D> path) {
    const auto components = path.components();
    const std::vector<component> list(components.begin(), components.end());
    std::vector<component> back(components.rbegin(), components.rend());
    std::reverse(back.begin(), back.end());
    if (!std::equal(list.begin(), list.end(), back.begin(), back.end(), are_alike) || components.empty() != list.empty())
        return "other components from the back"s;
    auto at = components.begin();
    for (std::size_t index = 0; index < list.size(); index++) {
        const auto before = at++;
        auto again = at;
        if (!are_alike(*before, list[index]) || --again != before || !are_alike(*again, list[index]) || ++again != at
            || (at != components.end() && !are_alike(*again, list[index + 1])))
            return "lost by a step back"s;
        if (!are_alike(*path.component_at(index), list[index]))
            return "another component by its number"s;
    }
    if (at != components.end() || path.component_at(list.size()))
        return "another number of components"s;
    std::string said;
    for (const component one : components)
        said += (said.empty() ? "" : "|") + std::string(word_of(one.kind)) + "=" + std::string(one.text);
    return said;
}

// Returns the order, if the operators and the hashes agree with it.
template <dialect D>
static Answer ordered(basic_path_view<D> path, basic_path_view<D> other) {
    const int order = path.compare(other);
    const std::hash<basic_path_view<D>> hash;
    if ((path == other) != (order == 0) || (path != other) != (order != 0) || (path < other) != (order < 0)
        || (path > other) != (order > 0) || (path <= other) != (order <= 0) || (path >= other) != (order >= 0)
        || path_less<D>()(path, other) != (order < 0) || path_equal<D>()(path, other) != (order == 0)
        || (hash(path) == hash(other)) != (order == 0) || (path.hash(5, 6) == other.hash(5, 6)) != (order == 0))
        return "operators or hashes differ"s;
    return std::to_string(order);
}

// Returns the answer for one name, if a batch of it, an accepted name and it again gives that both times.
static Answer twice(const joined_names &joined, const Answer &alone) {
    for (const std::size_t index : {std::size_t{0}, std::size_t{2}}) {
        const Answer one = joined.status(index) == status::done ? Answer(std::string(joined[index]))
                                                                : Answer(joined.status(index));
        if (one != alone)
            return "another answer in a batch"s;
    }
    return joined.size() == 3 && joined.status(1) == status::done ? alone : "another batch"s;
}

template <dialect D>
static Answer asked(const std::string &call, const std::string &text, const std::string &other) {
    const basic_path_view<D> path(text), beside(other);
    const dialect to = other == "windows" ? dialect::Windows : dialect::Unix;
    if (call == "join") return answer(path.join(other));
    const std::string_view batch[] = {other, "a", other};
    if (call == "join_checked") return twice(path.join_checked_each(batch), answer(path.join_checked(beside)));
    if (call == "join_portable") return twice(path.join_portable_each(batch), answer(path.join_portable(beside)));
    if (call == "resolve_checked") return answer(path.resolve_checked(beside));
    if (call == "with_file_name") return answer(path.with_file_name(other));
    if (call == "with_extension") return answer(path.with_extension(other));
    if (call == "with_added_extension") return answer(path.with_added_extension(other));
    if (call == "normalize") return answer(path.normalize());
    if (call == "clean") return answer(path.clean());
    if (call == "relative_to") return answer(path.relative_to(beside));
    if (call == "key_words") return answer(path.key_words());
    if (call == "convert") return answer(path.convert(to));
    if (call == "convert_checked") return answer(path.convert_checked(to));
    if (call == "absolutize") return answer(path.absolutize(beside.text()));
    if (call == "absolutize_from_unix") return answer(path.absolutize_from(unix_path(other)));
    if (call == "absolutize_from_windows") return answer(path.absolutize_from(windows_path(other)));
    if (call == "to_ascii_lowercase") return answer(path.to_ascii_lowercase());
    if (call == "parent") return answer(path.parent());
    if (call == "file_name") return answer(path.file_name());
    if (call == "file_stem") return answer(path.file_stem());
    if (call == "file_prefix") return answer(path.file_prefix());
    if (call == "extension") return answer(path.extension());
    if (call == "strip_prefix") return answer(path.strip_prefix(beside));
    if (call == "common_ancestor") return answer(path.common_ancestor(beside));
    if (call == "simplified") return answer(std::string(path.simplified()));
    if (call == "check") return answer(path.check());
    if (call == "check_portable") return answer(path.check_portable());
    if (call == "is_absolute") return answer(path.is_absolute());
    if (call == "has_root") return answer(path.has_root());
    if (call == "is_valid") return answer(path.is_valid());
    if (call == "is_valid_name") return answer(path.is_valid_name(text));
    if (call == "is_portable") return answer(path.is_portable());
    if (call == "may_be_device") return answer(path.may_be_device());
    if (call == "keeps_prefix") return answer(path.keeps_prefix());
    if (call == "starts_with") return answer(path.starts_with(beside));
    if (call == "ends_with") return answer(path.ends_with(beside));
    if (call == "is_within") return answer(path.is_within(beside));
    if (call == "equal") return answer(path.equals(beside));
    if (call == "starts_with_ignore_ascii_case") return answer(path.starts_with_ignore_ascii_case(beside));
    if (call == "equal_ignore_ascii_case") return answer(path.equals_ignore_ascii_case(beside));
    if (call == "compare_ignore_ascii_case") return std::to_string(path.compare_ignore_ascii_case(beside));
    if (call == "derive") return answer(derive(text) == dialect::Windows ? "windows"s : "unix"s);
    if (call == "compare") return ordered(path, beside);
    if (call == "components") return listed(path);
    if (call == "prefix_names") {
        const auto names = path.prefix_names();
        return names ? Answer(std::string(names->first) + "|" + std::string(names->second)) : Answer(status::none);
    }
    if (call == "push_place") {
        const auto place = path.push_place(other);
        return place ? Answer(std::to_string(place->kept) + "|"
                              + std::string(place->separator != 0, static_cast<char>(place->separator)))
                     : Answer(status::none);
    }
    return "no such call"s;
}

// Returns the text of a field, in which `%` and two digits are a byte.
static std::string text_of(const std::string &field) {
    std::string text;
    for (std::size_t at = 0; at < field.size(); at++) {
        unsigned byte = 0;
        if (field[at] == '%' && std::sscanf(field.c_str() + at + 1, "%2x", &byte) == 1) {
            text += static_cast<char>(byte);
            at += 2;
        } else {
            text += field[at];
        }
    }
    return text;
}

static std::string shown(const Answer &it) {
    if (const auto *text = std::get_if<std::string>(&it))
        return "=" + *text;
    return to_string(std::get<status>(it));
}

int main(int count, char **words) {
    std::ifstream file(count == 2 ? words[1] : "", std::ios::binary);
    std::size_t rows = 0, wrong = 0;
    for (std::string line; std::getline(file, line);) {
        if (line.rfind('#', 0) == 0)
            continue;
        std::vector<std::string> fields;
        std::istringstream rest(line);
        for (std::string field; std::getline(rest, field, '\t');)
            fields.push_back(field);
        const bool done = fields.at(4).rfind('=', 0) == 0;
        const Answer wanted = done ? Answer(text_of(fields[4].substr(1))) : answer(named(fields[4]));
        const std::string text = text_of(fields[2]), other = text_of(fields[3]);
        const Answer told = fields[1] == "windows" ? asked<dialect::Windows>(fields[0], text, other)
                                                   : asked<dialect::Unix>(fields[0], text, other);
        rows++;
        if (told != wanted && ++wrong)
            std::cerr << line << ": " << shown(told) << '\n';
    }
    std::cout << "rows: " << rows << " rows, " << wrong << " wrong\n";
    return wrong != 0 || rows == 0;
}
