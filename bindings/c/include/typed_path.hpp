// Paths of Unix and of Windows for C++17 and later, over the calls of typed_path.h, which says of each what it
// returns.
//
// A path is a view of the caller's text, as a std::string_view is, and copies nothing:
//
//     typed_path::unix_path folder("/srv");
//     std::string target = folder.join_checked("a/b").value();          // throws typed_path::error if it is refused
//     if (auto made = folder.join_checked(name)) use(*made);            // or asks; made.status() says why it is refused
//
// The text has to outlive the path, so what a call makes is kept as a std::string: `unix_path p = folder.join(name);`
// dangles, and so does a path of a temporary std::filesystem::path.
//
// Paths and names come in as what a std::string_view can be made of. A path that is made is a std::string, a part
// of a path a std::optional<std::string_view> into its text. If an allocation fails, std::bad_alloc is thrown.
// Without exceptions the program ends there, and where `value` would throw. Parts, components, questions and
// comparisons are noexcept.
#ifndef TYPED_PATH_HPP
#define TYPED_PATH_HPP

#if !defined(__cplusplus) || __cplusplus < 201703L
#error "typed_path.hpp is for C++17 and later; typed_path.h is for C, and for earlier ones"
#endif

#include <typed_path.h>

#include <cstddef>
#include <cstdint>
#include <cstdlib>
#include <functional>
#include <iterator>
#include <memory>
#include <new>
#include <optional>
#include <random>
#include <stdexcept>
#include <string>
#include <string_view>
#include <type_traits>
#include <utility>
#include <vector>
#if __has_include(<filesystem>)
#include <filesystem>
#endif
#if __cplusplus > 201703L && __has_include(<compare>)
#include <compare>
#endif
#if __cplusplus > 201703L && __has_include(<ranges>)
#include <ranges>
#endif

// The bounds of typed_path.h are C, and so are their casts.
#if defined(__GNUC__)
#pragma GCC diagnostic push
#pragma GCC diagnostic ignored "-Wold-style-cast"
#endif

namespace typed_path {

/// How a path is read. The names have a capital, since compilers define `unix` as a macro.
enum class dialect : std::uint32_t { Unix = TYPED_PATH_UNIX, Windows = TYPED_PATH_WINDOWS };

/// Why a call failed, or refused a path; typed_path.h says of each status when.
enum class status : std::uint32_t {
    done = TYPED_PATH_STATUS_DONE,
    invalid_filename = TYPED_PATH_STATUS_INVALID_FILENAME,
    path_traversal_attack = TYPED_PATH_STATUS_PATH_TRAVERSAL_ATTACK,
    unexpected_prefix = TYPED_PATH_STATUS_UNEXPECTED_PREFIX,
    unexpected_root = TYPED_PATH_STATUS_UNEXPECTED_ROOT,
    out_of_memory = TYPED_PATH_STATUS_OUT_OF_MEMORY,
    too_small = TYPED_PATH_STATUS_TOO_SMALL,
    bad_dialect = TYPED_PATH_STATUS_BAD_DIALECT,
    none = TYPED_PATH_STATUS_NONE,
    ambiguous = TYPED_PATH_STATUS_AMBIGUOUS,
    bad_ends = TYPED_PATH_STATUS_BAD_ENDS,
    bad_reading = TYPED_PATH_STATUS_BAD_READING,
    has_prefix = TYPED_PATH_STATUS_HAS_PREFIX,
    forbidden = TYPED_PATH_STATUS_FORBIDDEN,
    device = TYPED_PATH_STATUS_DEVICE,
    ending = TYPED_PATH_STATUS_ENDING,
    too_long = TYPED_PATH_STATUS_TOO_LONG,
    not_text = TYPED_PATH_STATUS_NOT_TEXT,
};

/// The kind of a component.
enum class kind : std::uint32_t {
    root = TYPED_PATH_KIND_ROOT,
    current = TYPED_PATH_KIND_CURRENT,
    parent = TYPED_PATH_KIND_PARENT,
    name = TYPED_PATH_KIND_NAME,
    prefix_verbatim = TYPED_PATH_KIND_PREFIX_VERBATIM,
    prefix_verbatim_unc = TYPED_PATH_KIND_PREFIX_VERBATIM_UNC,
    prefix_verbatim_disk = TYPED_PATH_KIND_PREFIX_VERBATIM_DISK,
    prefix_device_ns = TYPED_PATH_KIND_PREFIX_DEVICE_NS,
    prefix_unc = TYPED_PATH_KIND_PREFIX_UNC,
    prefix_disk = TYPED_PATH_KIND_PREFIX_DISK,
};

namespace detail {

// Throws an exception, or without exceptions ends the program.
template <class Thrown>
[[noreturn]] void thrown(const Thrown &it) {
#if defined(__cpp_exceptions)
    throw it;
#else
    (void)it;
    std::abort();
#endif
}

// Lets `put` write into a buffer of `bound` bytes: `out` is what that puts there, or empty if it refuses. Throws
// if an allocation failed.
template <class Put>
status put_in(std::string &out, std::size_t bound, Put put) {
    std::uint32_t told = TYPED_PATH_STATUS_DONE;
    std::size_t len = 0;
#if defined(__cpp_lib_string_resize_and_overwrite)
    out.resize_and_overwrite(bound, [&](char *at, std::size_t size) {
        told = put(at, size, &len);
        return told == TYPED_PATH_STATUS_DONE ? len : 0;
    });
#else
    out.resize(bound);
    told = put(out.data(), out.size(), &len);
    out.resize(told == TYPED_PATH_STATUS_DONE ? len : 0);
#endif
    if (told == TYPED_PATH_STATUS_OUT_OF_MEMORY)
        thrown(std::bad_alloc());
    return static_cast<status>(told);
}

// Returns what `put` puts, which fails only if an allocation does.
template <class Put>
std::string made_by(std::size_t bound, Put put) {
    std::string out;
    (void)put_in(out, bound, put);
    return out;
}

}  // namespace detail

/// Returns what a status says, in English; nothing for a number that is no status.
inline std::string to_string(status of) {
    return detail::made_by(TYPED_PATH_TEXT_BOUND, [=](char *out, std::size_t size, std::size_t *len) {
        return typed_path_status_text(static_cast<std::uint32_t>(of), out, size, len);
    });
}

/// Returns what a kind of component is called, in English; nothing for a number that is no kind.
inline std::string to_string(kind of) {
    return detail::made_by(TYPED_PATH_TEXT_BOUND, [=](char *out, std::size_t size, std::size_t *len) {
        return typed_path_kind_text(static_cast<std::uint32_t>(of), out, size, len);
    });
}

/// Whether this processor can run the library; call it once, before the others.
inline bool runs_here() noexcept { return typed_path_runs_here(); }

/// Returns the dialect that a path looks like: Windows if it begins with `\` or with a prefix of Windows, else
/// Unix.
inline dialect derive(std::string_view text) noexcept {
    return static_cast<dialect>(typed_path_derive(text.data(), text.size()));
}

/// The exception that `value` of a refused result throws.
class error : public std::runtime_error {
public:
    explicit error(typed_path::status of) : std::runtime_error(to_string(of)), status_(of) {}
    /// Why the call was refused.
    [[nodiscard]] typed_path::status status() const noexcept { return status_; }

private:
    typed_path::status status_;
};

/// What a call made, or why it was refused.
template <class T>
class [[nodiscard]] result {
public:
    result(T made) : made_(std::move(made)), status_(typed_path::status::done) {}
    /// A refusal, whose status is not `done`.
    result(typed_path::status refused) noexcept : made_(), status_(refused) {}

    /// Whether something was made.
    [[nodiscard]] bool has_value() const noexcept { return made_.has_value(); }
    explicit operator bool() const noexcept { return has_value(); }
    /// Why nothing was made, or `done`.
    [[nodiscard]] typed_path::status status() const noexcept { return status_; }
    /// What was made; throws an `error` if nothing was.
    const T &value() const & { return checked(), *made_; }
    T &value() & { return checked(), *made_; }
    T &&value() && { return checked(), *std::move(made_); }
    /// What was made. If nothing was, the behaviour is undefined: ask first, or take `value`.
    const T &operator*() const & noexcept { return *made_; }
    T &operator*() & noexcept { return *made_; }
    T &&operator*() && noexcept { return *std::move(made_); }
    const T *operator->() const noexcept { return &*made_; }
    T *operator->() noexcept { return &*made_; }
    /// What was made, or `other` if nothing was.
    template <class Other>
    [[nodiscard]] T value_or(Other &&other) const & {
        return made_.value_or(std::forward<Other>(other));
    }
    template <class Other>
    [[nodiscard]] T value_or(Other &&other) && {
        return std::move(made_).value_or(std::forward<Other>(other));
    }

private:
    void checked() const {
        if (!made_)
            detail::thrown(error(status_));
    }

    std::optional<T> made_;
    typed_path::status status_;
};

/// A component: its kind, and the part of the path that it is.
struct component {
    typed_path::kind kind;
    std::string_view text;

    /// Whether it is a prefix, which only Windows paths have.
    [[nodiscard]] constexpr bool is_prefix() const noexcept { return kind >= typed_path::kind::prefix_verbatim; }
};

/// The components of a path, read from either end. No list is held: each step reads the path.
template <dialect D>
class basic_components {
public:
    class iterator {
    public:
        // A component is returned by value, so this is of an old category by name alone, as the iterator of
        // std::filesystem::path is.
        using iterator_category = std::bidirectional_iterator_tag;
        using value_type = component;
        using difference_type = std::ptrdiff_t;
        using reference = component;
        class pointer {
        public:
            explicit pointer(component one) noexcept : one_(one) {}
            const component *operator->() const noexcept { return &one_; }

        private:
            component one_;
        };

        iterator() noexcept = default;
        component operator*() const noexcept {
            return {static_cast<typed_path::kind>(one_.kind), {text_.data() + one_.start, one_.length}};
        }
        pointer operator->() const noexcept { return pointer(**this); }
        iterator &operator++() noexcept {
            if (typed_path_next(number(), text_.data(), text_.size(), &left_, &one_) != TYPED_PATH_STATUS_DONE)
                one_ = {text_.size(), 0, 0};
            return *this;
        }
        iterator operator++(int) noexcept {
            iterator before = *this;
            ++*this;
            return before;
        }
        iterator &operator--() noexcept {
            typed_path_reading before = TYPED_PATH_READING(one_.start);
            left_ = {one_.start, text_.size(), 2};
            if (typed_path_next_back(number(), text_.data(), text_.size(), &before, &one_) == TYPED_PATH_STATUS_DONE
                && one_.kind >= TYPED_PATH_KIND_PREFIX_VERBATIM)
                left_.stage = 1;
            return *this;
        }
        iterator operator--(int) noexcept {
            iterator behind = *this;
            --*this;
            return behind;
        }
        friend bool operator==(const iterator &one, const iterator &other) noexcept {
            return one.one_.start == other.one_.start;
        }
        friend bool operator!=(const iterator &one, const iterator &other) noexcept { return !(one == other); }

    private:
        friend class basic_components;
        static constexpr std::uint32_t number() noexcept { return static_cast<std::uint32_t>(D); }
        iterator(std::string_view text, std::size_t start) noexcept : text_(text), one_{start, 0, 0} {}

        std::string_view text_;
        // The current component, or the end of the path, and what is left after it.
        typed_path_component one_{};
        typed_path_reading left_{};
    };
    using const_iterator = iterator;
    using reverse_iterator = std::reverse_iterator<iterator>;
    using value_type = component;

    basic_components() noexcept = default;
    explicit basic_components(std::string_view text) noexcept : text_(text) {}

    [[nodiscard]] iterator begin() const noexcept {
        iterator first(text_, 0);
        first.left_ = TYPED_PATH_READING(text_.size());
        return ++first;
    }
    [[nodiscard]] iterator end() const noexcept { return iterator(text_, text_.size()); }
    [[nodiscard]] reverse_iterator rbegin() const noexcept { return reverse_iterator(end()); }
    [[nodiscard]] reverse_iterator rend() const noexcept { return reverse_iterator(begin()); }
    [[nodiscard]] bool empty() const noexcept { return text_.empty(); }

private:
    std::string_view text_;
};

/// Many names joined onto one base, in their order: the path of each, or why it is refused.
class joined_names {
public:
    /// Returns how many names there are.
    [[nodiscard]] std::size_t size() const noexcept { return statuses_.size(); }
    [[nodiscard]] bool empty() const noexcept { return statuses_.empty(); }
    /// Returns why the name at an index, which is less than `size`, is refused, or `done`.
    [[nodiscard]] typed_path::status status(std::size_t index) const noexcept {
        return static_cast<typed_path::status>(statuses_[index]);
    }
    /// Returns the path that was made of the name, as a view of the text of this value; empty if it is refused.
    [[nodiscard]] std::string_view operator[](std::size_t index) const noexcept {
        const std::size_t start = index ? ends_[index - 1] : 0;
        return std::string_view(text_).substr(start, ends_[index] - start);
    }

private:
    template <dialect D>
    friend class basic_path_view;
    // The paths one after the other, the index at which each ends, and the statuses.
    std::string text_;
    std::vector<std::size_t> ends_;
    std::vector<std::uint32_t> statuses_;
};

/// A path in a dialect: a view of its text, which has to outlive it. It allocates nothing, and is passed by
/// value. A map with such keys holds no texts: see `path_hash`.
template <dialect D>
class basic_path_view {
public:
    using components_type = basic_components<D>;
    /// The dialect in which the text is read.
    static constexpr dialect dialect_of = D;

    constexpr basic_path_view() noexcept = default;
    /// The path of a std::string_view, a std::string, or a text that ends with a NUL.
    template <class Text, class = std::enable_if_t<std::is_convertible_v<const Text &, std::string_view>>>
    constexpr basic_path_view(const Text &text) noexcept : text_(text) {}
#if defined(__cpp_lib_filesystem)
    /// The Unix path of a path of the system, if that is a Unix path.
    template <class Path,
              class = std::enable_if_t<std::is_same_v<Path, std::filesystem::path> && D == dialect::Unix
                                       && std::is_same_v<typename Path::value_type, char>>,
              class = void>
    basic_path_view(const Path &path) noexcept : text_(path.native()) {}
    /// The path as one of the system, if both are Unix paths.
    [[nodiscard]] std::filesystem::path to_filesystem() const {
        static_assert(D == dialect::Unix && std::is_same_v<std::filesystem::path::value_type, char>,
                      "std::filesystem reads paths of Unix here: convert() it first");
        return std::filesystem::path(text_);
    }
#endif

    /// The text of the path.
    [[nodiscard]] constexpr std::string_view text() const noexcept { return text_; }
    [[nodiscard]] constexpr bool empty() const noexcept { return text_.empty(); }

    // Calls that make a path.

    /// Returns the path with `other` pushed onto it: an absolute one replaces it, an empty one makes a copy. On
    /// Windows one with a prefix replaces it too, as `D:x`, and one with a root replaces all but the prefix, as
    /// `\x`.
    [[nodiscard]] std::string join(basic_path_view other) const {
        return made<typed_path_join>(join_bound(other), other);
    }
    /// Returns the path with `other` pushed onto it, unless a component of `other` offends. What is made lies
    /// within this path, if this one keeps its prefix.
    result<std::string> join_checked(basic_path_view other) const {
        return asked<typed_path_join_checked>(join_bound(other), other);
    }
    /// Returns what `join_checked` does, unless some system does not take `other` as it is written.
    result<std::string> join_portable(basic_path_view other) const {
        return asked<typed_path_join_portable>(join_bound(other), other);
    }
    /// Joins each of a range of names as `join_checked` does, in one call. A name is what a std::string_view can be
    /// made of.
    template <class Names>
    [[nodiscard]] joined_names join_checked_each(const Names &names) const {
        return joined_each<typed_path_join_checked_batch>(names);
    }
    /// Joins each of a range of names as `join_portable` does, in one call.
    template <class Names>
    [[nodiscard]] joined_names join_portable_each(const Names &names) const {
        return joined_each<typed_path_join_portable_batch>(names);
    }
    /// Returns the clean path of a checked join.
    result<std::string> resolve_checked(basic_path_view other) const {
        return asked<typed_path_resolve_checked>(TYPED_PATH_RESOLVE_BOUND(text_.size(), other.text_.size()), other);
    }
    /// Returns a copy with another file name. If the path has no file name, `name` is pushed onto it as it is.
    [[nodiscard]] std::string with_file_name(basic_path_view name) const {
        return made<typed_path_with_file_name>(join_bound(name), name);
    }
    /// Returns a copy whose file name has another extension, or none if `extension` is empty. The extension is
    /// put as it is. Without a file name it is an unchanged copy.
    [[nodiscard]] std::string with_extension(std::string_view extension) const {
        return made<typed_path_with_extension>(extension_bound(extension), extension);
    }
    /// Returns a copy with `extension` appended to its file name as it is, after a dot. Without a file name, or
    /// with an empty extension, it is an unchanged copy.
    [[nodiscard]] std::string with_added_extension(std::string_view extension) const {
        return made<typed_path_with_added_extension>(extension_bound(extension), extension);
    }
    /// Returns the path without `.`, and without `..` and the names that these cancel.
    [[nodiscard]] std::string normalize() const {
        return made<typed_path_normalize>(TYPED_PATH_NORMALIZE_BOUND(text_.size()));
    }
    /// Returns the path without `.`, doubled separators, and the names that a `..` cancels. A relative path keeps
    /// the `..` that it needs. If nothing is left, it is `.`.
    [[nodiscard]] std::string clean() const { return made<typed_path_clean>(TYPED_PATH_CLEAN_BOUND(text_.size())); }
    /// The path from a base to this one, by `..` and names, if one is found.
    [[nodiscard]] std::optional<std::string> relative_to(basic_path_view base) const {
        auto led = asked<typed_path_relative_to>(TYPED_PATH_RELATIVE_BOUND(text_.size(), base.text_.size()), base);
        return led ? std::optional<std::string>(*std::move(led)) : std::nullopt;
    }
    /// Returns the path as it is written in the dialect `to`: a copy if that is its own. Else a root replaces the
    /// prefix before it: `C:\a` and `\\s\h\a` of Windows are `/a` of Unix, and `C:a` is `C:/a`.
    [[nodiscard]] std::string convert(dialect to) const {
        return made<typed_path_convert>(TYPED_PATH_CONVERT_BOUND(text_.size()), to);
    }
    /// Returns the path as it is written in the dialect `to` by checked pushes of its names and drives, unless one of
    /// these offends there. This is no check of where the path leads: its own `..` and root are accepted. For a name
    /// from outside use `join_checked`.
    result<std::string> convert_checked(dialect to) const {
        return asked<typed_path_convert_checked>(TYPED_PATH_CONVERT_BOUND(text_.size()), to);
    }
    /// Returns the normal path of the path if it is absolute, else that of the Unix path `directory`, written in
    /// this path's dialect, with the path pushed onto it; `ambiguous` if the path is absolute neither alone nor
    /// after the directory, as a Windows path that is not absolute is after `/srv`.
    result<std::string> absolutize(basic_path_view<dialect::Unix> directory) const {
        return asked<typed_path_absolutize>(TYPED_PATH_JOIN_BOUND(text_.size(), directory.text().size()),
                                            directory.text());
    }
    /// Returns what `absolutize` does, with a directory of either dialect: a Windows path takes one of Windows.
    template <dialect E>
    result<std::string> absolutize_from(basic_path_view<E> directory) const {
        const std::string_view from = directory.text();
        return asked<typed_path_absolutize_from>(TYPED_PATH_JOIN_BOUND(text_.size(), from.size()), E, from.data(),
                                                 from.size());
    }
    /// Returns the path in lower case: with each ASCII letter in lower case, except the `UNC` of a prefix
    /// `\\?\UNC\`.
    [[nodiscard]] std::string to_ascii_lowercase() const {
        return made<typed_path_to_ascii_lowercase>(TYPED_PATH_NORMALIZE_BOUND(text_.size()));
    }
    /// Returns the words of the path's key, for a hasher of one's own: the same bytes for equal paths, and for no
    /// others.
    [[nodiscard]] std::string key_words() const {
        return made<typed_path_key_words>(TYPED_PATH_KEY_BOUND(text_.size()));
    }

    // Parts, which lie in the text of the path.

    /// The path without its last component: nothing for an empty path, one whose last component is the root, and a
    /// prefix alone but `C:`. That of `a` and `C:` is an empty text.
    [[nodiscard]] std::optional<std::string_view> parent() const noexcept { return part<typed_path_parent>(); }
    /// The last component, if that is a name.
    [[nodiscard]] std::optional<std::string_view> file_name() const noexcept { return part<typed_path_file_name>(); }
    /// The file name up to its last dot, or the whole file name if it has no dot but one at its start.
    [[nodiscard]] std::optional<std::string_view> file_stem() const noexcept { return part<typed_path_file_stem>(); }
    /// The file name up to its first dot that is not at its start, or the whole file name if it has none.
    [[nodiscard]] std::optional<std::string_view> file_prefix() const noexcept {
        return part<typed_path_file_prefix>();
    }
    /// What follows the last dot of the file name, if that has a dot other than one at its start; empty of `a.`.
    [[nodiscard]] std::optional<std::string_view> extension() const noexcept { return part<typed_path_extension>(); }
    /// What is left of the path after `base`, if it begins with the components of that.
    [[nodiscard]] std::optional<std::string_view> strip_prefix(basic_path_view base) const noexcept {
        return part<typed_path_strip_prefix>(base);
    }
    /// The leading components that both paths share, as they are written here, if they share some.
    [[nodiscard]] std::optional<std::string_view> common_ancestor(basic_path_view other) const noexcept {
        return part<typed_path_common_ancestor>(other);
    }
    /// The path of a verbatim drive without its `\\?\`, if that means the same to Windows; else the path itself.
    [[nodiscard]] std::string_view simplified() const noexcept { return *part<typed_path_simplified>(); }
    /// The names of the prefix, if there is one: the server and the share, or one name or letter and an empty
    /// text.
    [[nodiscard]] std::optional<std::pair<std::string_view, std::string_view>> prefix_names() const noexcept {
        typed_path_span first{}, second{};
        if (typed_path_prefix_names(number(), text_.data(), text_.size(), &first, &second) != TYPED_PATH_STATUS_DONE)
            return std::nullopt;
        return std::pair(in_text(first), in_text(second));
    }
    /// The components of the path, from either end.
    [[nodiscard]] components_type components() const noexcept { return components_type(text_); }
    /// The component at `index`, counted from 0, if there is one. Those before it are read too.
    [[nodiscard]] std::optional<component> component_at(std::size_t index) const noexcept {
        typed_path_component one{};
        if (typed_path_component_at(number(), text_.data(), text_.size(), index, &one) != TYPED_PATH_STATUS_DONE)
            return std::nullopt;
        return component{static_cast<kind>(one.kind), in_text({one.start, one.length})};
    }
    /// Where `other` goes if it is pushed onto this path in memory of one's own; nothing if it is merged into a
    /// base with a verbatim prefix.
    [[nodiscard]] std::optional<typed_path_place> push_place(basic_path_view other) const noexcept {
        typed_path_place place{};
        if (call<typed_path_push_place>(other, &place) != TYPED_PATH_STATUS_DONE)
            return std::nullopt;
        return place;
    }

    // Questions.

    /// Returns the status of the first component for which a checked join refuses the path, whatever it is joined
    /// to, or `done`.
    [[nodiscard]] status check() const noexcept { return static_cast<status>(call<typed_path_check>()); }
    /// Returns the status of the first component that some system does not take as it is written, or `done`.
    [[nodiscard]] status check_portable() const noexcept {
        return static_cast<status>(call<typed_path_check_portable>());
    }
    /// Whether it is absolute; on Windows `C:\a` and `\\s\h` are, and `C:a`, `\a`, `\\s` and `\\.\COM1` are not.
    [[nodiscard]] bool is_absolute() const noexcept { return is<typed_path_is_absolute>(); }
    /// Whether it has a root: one written first or right after the prefix, as in `C:\a`, or one implied by a prefix
    /// other than `C:` and `\\?\C:`, which is not among the components.
    [[nodiscard]] bool has_root() const noexcept { return is<typed_path_has_root>(); }
    /// Whether the dialect allows every name of the path.
    [[nodiscard]] bool is_valid() const noexcept { return is<typed_path_is_valid>(); }
    /// Whether the dialect allows `name`.
    [[nodiscard]] static bool is_valid_name(std::string_view name) noexcept {
        return basic_path_view(name).template is<typed_path_is_valid_name>();
    }
    /// Whether it has no prefix and every system takes each name as it is written.
    [[nodiscard]] bool is_portable() const noexcept { return is<typed_path_is_portable>(); }
    /// Whether some version of Windows may take a name of the path for a device.
    [[nodiscard]] bool may_be_device() const noexcept { return is<typed_path_may_be_device>(); }
    /// Whether each path that a checked join makes of this one is known to have the prefix of this one, or none
    /// if this one has none, and so lies within it. False leaves it open.
    [[nodiscard]] bool keeps_prefix() const noexcept { return is<typed_path_keeps_prefix>(); }
    /// Whether the path begins with the components of `base`, compared as they are written: no check of
    /// containment.
    [[nodiscard]] bool starts_with(basic_path_view base) const noexcept { return is<typed_path_starts_with>(base); }
    /// Whether the path in lower case begins with the components of `base` in lower case, in ASCII letters.
    [[nodiscard]] bool starts_with_ignore_ascii_case(basic_path_view base) const noexcept {
        return is<typed_path_starts_with_ignore_ascii_case>(base);
    }
    /// Whether the path ends with the components of `end`, compared as they are written.
    [[nodiscard]] bool ends_with(basic_path_view end) const noexcept { return is<typed_path_ends_with>(end); }
    /// Whether the path lies at `base` or below it, from whatever directory both are read.
    [[nodiscard]] bool is_within(basic_path_view base) const noexcept { return is<typed_path_is_within>(base); }

    // Equality, order and hash, each by the components.

    /// Whether both paths have the same components.
    [[nodiscard]] bool equals(basic_path_view other) const noexcept { return is<typed_path_equal>(other); }
    /// Whether both paths have the same components in lower case, in ASCII letters. A map without regard to case
    /// hashes and compares what `to_ascii_lowercase` returns.
    [[nodiscard]] bool equals_ignore_ascii_case(basic_path_view other) const noexcept {
        return is<typed_path_equal_ignore_ascii_case>(other);
    }
    /// Returns the order of both paths by components: -1, 0 or 1.
    [[nodiscard]] int compare(basic_path_view other) const noexcept {
        std::int32_t order = 0;
        (void)call<typed_path_compare>(other, &order);
        return order;
    }
    /// Returns the order of both paths in lower case by components: -1, 0 or 1.
    [[nodiscard]] int compare_ignore_ascii_case(basic_path_view other) const noexcept {
        std::int32_t order = 0;
        (void)call<typed_path_compare_ignore_ascii_case>(other, &order);
        return order;
    }
    /// Returns a hash with a key of 128 bits: SipHash 1-3. Equal paths have the same.
    [[nodiscard]] std::uint64_t hash(std::uint64_t key0, std::uint64_t key1) const noexcept {
        std::uint64_t hash = 0;
        (void)typed_path_hash_keyed(number(), key0, key1, text_.data(), text_.size(), &hash);
        return hash;
    }
    friend bool operator==(basic_path_view one, basic_path_view other) noexcept { return one.equals(other); }
#if defined(__cpp_lib_three_way_comparison)
    friend std::weak_ordering operator<=>(basic_path_view one, basic_path_view other) noexcept {
        return one.compare(other) <=> 0;
    }
#else
    friend bool operator!=(basic_path_view one, basic_path_view other) noexcept { return !one.equals(other); }
    friend bool operator<(basic_path_view one, basic_path_view other) noexcept { return one.compare(other) < 0; }
    friend bool operator<=(basic_path_view one, basic_path_view other) noexcept { return one.compare(other) <= 0; }
    friend bool operator>(basic_path_view one, basic_path_view other) noexcept { return one.compare(other) > 0; }
    friend bool operator>=(basic_path_view one, basic_path_view other) noexcept { return one.compare(other) >= 0; }
#endif

private:
    static constexpr std::uint32_t number() noexcept { return static_cast<std::uint32_t>(D); }
    [[nodiscard]] std::size_t join_bound(basic_path_view other) const noexcept {
        return TYPED_PATH_JOIN_BOUND(text_.size(), other.text_.size());
    }
    [[nodiscard]] std::size_t extension_bound(std::string_view extension) const noexcept {
        return TYPED_PATH_EXTENSION_BOUND(text_.size(), extension.size());
    }
    [[nodiscard]] std::string_view in_text(typed_path_span span) const noexcept {
        return {text_.data() + span.start, span.length};
    }

    // A call with the path: alone, with another, or with a dialect.
    template <auto Call, class... Told>
    std::uint32_t call(Told... told) const noexcept {
        return Call(number(), text_.data(), text_.size(), told...);
    }
    template <auto Call, class... Told>
    std::uint32_t call(std::string_view other, Told... told) const noexcept {
        return Call(number(), text_.data(), text_.size(), other.data(), other.size(), told...);
    }
    template <auto Call, class... Told>
    std::uint32_t call(basic_path_view other, Told... told) const noexcept {
        return call<Call>(other.text_, told...);
    }
    template <auto Call, class... Told>
    std::uint32_t call(dialect to, Told... told) const noexcept {
        return call<Call>(static_cast<std::uint32_t>(to), told...);
    }

    template <auto Call, class... Other>
    status put(std::string &out, std::size_t bound, Other... other) const {
        return detail::put_in(out, bound, [&](char *at, std::size_t size, std::size_t *len) {
            return call<Call>(other..., at, size, len);
        });
    }
    template <auto Call, class... Other>
    std::string made(std::size_t bound, Other... other) const {
        std::string out;
        (void)put<Call>(out, bound, other...);
        return out;
    }
    template <auto Call, class... Other>
    result<std::string> asked(std::size_t bound, Other... other) const {
        std::string out;
        const status told = put<Call>(out, bound, other...);
        if (told != status::done)
            return told;
        return out;
    }
    template <auto Batch, class Names>
    joined_names joined_each(const Names &names) const {
        std::string all;
        std::vector<std::size_t> ends;
        for (const auto &name : names) {
            all += std::string_view(name);
            ends.push_back(all.size());
        }
        joined_names out;
        out.ends_.resize(ends.size());
        out.statuses_.resize(ends.size());
        std::size_t done = 0;
        const status told = detail::put_in(
            out.text_, TYPED_PATH_BATCH_BOUND(text_.size(), all.size(), ends.size()),
            [&](char *at, std::size_t size, std::size_t *len) {
                const std::uint32_t ended =
                    Batch(number(), text_.data(), text_.size(), all.data(), all.size(), ends.data(), ends.size(), at,
                          size, out.ends_.data(), out.ends_.size(), out.statuses_.data(), out.statuses_.size(), &done);
                *len = out.ends_.empty() ? 0 : out.ends_.back();
                return ended;
            });
        // A bound that wraps is of more bytes than there are.
        if (told != status::done)
            detail::thrown(std::bad_alloc());
        return out;
    }
    template <auto Call, class... Other>
    std::optional<std::string_view> part(Other... other) const noexcept {
        typed_path_span span{};
        if (call<Call>(other..., &span) != TYPED_PATH_STATUS_DONE)
            return std::nullopt;
        return in_text(span);
    }
    template <auto Call, class... Other>
    bool is(Other... other) const noexcept {
        bool answer = false;
        return call<Call>(other..., &answer) == TYPED_PATH_STATUS_DONE && answer;
    }

    std::string_view text_;
};

using unix_path = basic_path_view<dialect::Unix>;
using windows_path = basic_path_view<dialect::Windows>;
using unix_components = basic_components<dialect::Unix>;
using windows_components = basic_components<dialect::Windows>;

namespace detail {

// The key of std::hash, which is drawn once in a process, or in each shared object that hides its symbols.
inline const std::pair<std::uint64_t, std::uint64_t> &process_key() {
    static const std::pair<std::uint64_t, std::uint64_t> key = [] {
        std::random_device device;
        const auto drawn = [&] { return std::uint64_t{device()} << 32 | std::uint32_t{device()}; };
        const std::uint64_t first = drawn();
        return std::pair(first, drawn());
    }();
    return key;
}

}  // namespace detail

/// The hash of std::hash, for maps whose keys are texts that are read as paths of a dialect. Names that strangers
/// choose collide by chance alone, since its key is drawn at random once in a process. A std::string_view is found in
/// a std::unordered_map from C++20 on, in a std::map by `path_less` in C++17 too.
template <dialect D>
struct path_hash {
    using is_transparent = void;
    std::size_t operator()(basic_path_view<D> path) const {
        const auto &[key0, key1] = detail::process_key();
        return static_cast<std::size_t>(path.hash(key0, key1));
    }
};

/// Whether two texts are equal as paths of a dialect.
template <dialect D>
struct path_equal {
    using is_transparent = void;
    bool operator()(basic_path_view<D> one, basic_path_view<D> other) const noexcept { return one.equals(other); }
};

/// Whether the first of two texts is less than the other as a path of a dialect.
template <dialect D>
struct path_less {
    using is_transparent = void;
    bool operator()(basic_path_view<D> one, basic_path_view<D> other) const noexcept { return one.compare(other) < 0; }
};

using unix_hash = path_hash<dialect::Unix>;
using unix_equal = path_equal<dialect::Unix>;
using unix_less = path_less<dialect::Unix>;
using windows_hash = path_hash<dialect::Windows>;
using windows_equal = path_equal<dialect::Windows>;
using windows_less = path_less<dialect::Windows>;

}  // namespace typed_path

template <typed_path::dialect D>
struct std::hash<typed_path::basic_path_view<D>> : typed_path::path_hash<D> {};

#if defined(__cpp_lib_ranges)
template <typed_path::dialect D>
inline constexpr bool std::ranges::enable_view<typed_path::basic_components<D>> = true;
template <typed_path::dialect D>
inline constexpr bool std::ranges::enable_borrowed_range<typed_path::basic_components<D>> = true;
#endif

#if defined(__GNUC__)
#pragma GCC diagnostic pop
#endif

#endif
