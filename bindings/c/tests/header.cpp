// Includes the header as any file of C++17 or later does, makes some calls of each sort, and exits with 0 if they
// are right.
#include <typed_path.hpp>

#include <algorithm>
#include <set>
#include <unordered_map>

using namespace typed_path;
using namespace std::literals;

// The constants of C have one type.
static_assert(std::is_same_v<decltype(TYPED_PATH_WINDOWS), std::uint32_t>);
static_assert(std::is_same_v<decltype(TYPED_PATH_STATUS_NOT_TEXT), std::uint32_t>);
static_assert(std::is_same_v<decltype(TYPED_PATH_KIND_PREFIX_DISK), std::uint32_t>);

// A path is a view, and its components are a range that can be read from both ends.
static_assert(std::is_trivially_copyable_v<unix_path> && sizeof(unix_path) == sizeof(std::string_view));
static_assert(std::is_nothrow_default_constructible_v<windows_path> && std::is_convertible_v<std::string, unix_path>);
static_assert(std::is_convertible_v<const char *, windows_path> && !std::is_convertible_v<unix_path, windows_path>);
static_assert(!std::is_convertible_v<unix_path, std::string_view>);
static_assert(std::is_same_v<
              std::iterator_traits<unix_components::iterator>::iterator_category, std::bidirectional_iterator_tag>);
static_assert(std::is_nothrow_copy_constructible_v<error> && std::is_base_of_v<std::runtime_error, error>);
#if defined(__cpp_lib_filesystem)
static_assert(std::is_convertible_v<std::filesystem::path, unix_path>);
static_assert(!std::is_constructible_v<windows_path, std::filesystem::path>);
#endif
#if defined(__cpp_lib_ranges)
static_assert(std::bidirectional_iterator<unix_components::iterator>);
static_assert(std::bidirectional_iterator<windows_components::reverse_iterator>);
static_assert(std::ranges::bidirectional_range<windows_components> && std::ranges::common_range<unix_components>);
static_assert(std::ranges::view<unix_components> && std::ranges::borrowed_range<windows_components>);
static_assert(std::regular<unix_path> && std::totally_ordered<windows_path>);
#endif
#if defined(__cpp_lib_three_way_comparison)
static_assert(std::three_way_comparable<unix_path, std::weak_ordering>);
#endif

// Maps find equal paths, by views and by texts; refusals are returned and thrown; paths of the system are accepted.
int main() {
    std::unordered_map<unix_path, int> views = {{"/a/b", 1}};
    std::unordered_map<std::string, int, windows_hash, windows_equal> texts;
    std::set<std::string, unix_less> sorted = {"a/b", "a//b/.", "a"};
    texts["C:\\a"] = 2;
    bool good = views.at("//a/./b/") == 1 && views.count("/a/B") == 0 && texts.at("c:/a") == 2 && sorted.size() == 2
        && sorted.count("./a") == 0 && sorted.find("a//b"sv) != sorted.end();
    const auto made = unix_path("/srv").join_checked("..");
#if defined(__cpp_exceptions)
    try {
        (void)made.value();
        good = false;
    } catch (const error &refused) {
        good = good && refused.status() == made.status() && refused.what() == to_string(made.status());
    }
#endif
    good = good && !made && made.status() == status::path_traversal_attack && made.value_or("no") == "no"
        && unix_path("/srv").join_checked("a")->size() == 6 && unix_path() == "" && "a/b" == unix_path("a//b");
#if defined(__cpp_lib_filesystem)
    const std::filesystem::path of_system = "/srv/./a";
    good = good && unix_path(of_system).clean() == "/srv/a" && unix_path("/a").is_within(std::filesystem::path("/"))
        && unix_path("a/b").to_filesystem() == std::filesystem::path("a") / "b";
#endif
// The views of libstdc++ need clang 16 or later.
#if defined(__cpp_lib_ranges) && (!defined(__clang__) || __clang_major__ >= 16)
    const unix_path path = "/usr/lib/x.so";
    const auto is_name = [](component it) { return it.kind == kind::name; };
    auto names = path.components() | std::views::reverse | std::views::filter(is_name);
    good = good && (*names.begin()).text == "x.so" && std::ranges::distance(path.components()) == 4
        && std::ranges::find(path.components(), "lib"sv, &component::text) != path.components().end();
#endif
    return good ? 0 : 1;
}
