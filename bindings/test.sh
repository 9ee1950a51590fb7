#!/usr/bin/env bash
# Tests the calls for C at their boundary, how they are installed and found, and the package of Python, over what
# bindings/c/build.sh lays out. It says what it leaves out where a compiler, valgrind, pkg-config, cmake, man, mandoc,
# abidiff, qemu-x86_64, musl-gcc, libarchive, python3 or a package of it is missing, and ends in `N passed, M failed`, where each
# part counts once.
#
# bindings/test.sh [DIR]: DIR has what build.sh laid out; without it, it is built.
# bindings/test.sh declared: what needs no archive alone, with a stub in its place, which is what the gate runs.
set -uo pipefail
here=$(cd "$(dirname "$0")" && pwd)
tests=$here/c/tests room=$(mktemp -d)
trap 'rm -rf "$room"' EXIT
export LC_ALL=C.UTF-8 PYTHONDONTWRITEBYTECODE=1
passed=0 failed=0

# shellcheck source=c/tests/installs.sh
. "$tests/installs.sh"

# Counts a part, and shows what it said where it failed.
part() {
    local name=$1
    shift
    if "$@" > "$room/said" 2>&1; then
        passed=$((passed + 1))
        echo "$name: passed$(sed -n 's/^\(.*\), 0 wrong$/, \1/p' "$room/said" | sed 's/, [a-z]*:/,/')"
    else
        failed=$((failed + 1))
        echo "$name: FAILED"
        head -n 30 "$room/said"
    fi
}

left_out() {
    echo "left out: $1, since there is no $2"
}

is_there() {
    command -v "$1" > /dev/null
}

end() {
    echo "$passed passed, $failed failed"
    [[ $failed -eq 0 ]]
    exit
}

# The header and what includes it, in each language that a compiler knows. A status that is dropped is told of.
strict=(-Wall -Wextra -Wpedantic -Wconversion -Wsign-conversion -Wshadow -Werror) include=$here/c/include
each_language() {
    local compiler language standard standards
    for compiler in cc clang c++ clang++; do
        language=c standards=(c99 c11 c17 c2x)
        [[ $compiler != *++ ]] || language=c++ standards=(c++98 c++11 c++14 c++17 c++20 c++2b)
        if is_there $compiler; then
            for standard in "${standards[@]}"; do
                if echo | "$compiler" -x $language -std=$standard -c - -o "$room/none" 2> "$room/said"; then
                    part "the header in $standard by $compiler" is_served "$1" $compiler $language $standard
                else
                    left_out "the header in $standard by $compiler" "$standard"
                fi
            done
        else
            left_out "the header by $compiler" "$compiler"
        fi
    done
}
is_served() {
    "$@" || return 1
    ! "$2" -x "$3" "-std=$4" "${strict[@]}" "-I$include" -c - -o "$room/none" > "$room/told" 2>&1 << 'END' || return 1
#include <typed_path.h>
void drop(bool *answer);
void drop(bool *answer) {
    typed_path_is_valid(TYPED_PATH_UNIX, "a", 1, answer);
}
END
    grep unused-result "$room/told"
}
# The header of C++, and what includes it, in each standard that a compiler knows.
each_standard() {
    local compiler standard
    for compiler in c++ clang++; do
        if is_there $compiler; then
            for standard in c++17 c++20 c++2b; do
                if echo | "$compiler" -x c++ -std=$standard -c - -o "$room/none" 2> "$room/said"; then
                    part "$1 in $standard by $compiler" "$2" $compiler $standard
                else
                    left_out "$1 in $standard by $compiler" "$standard"
                fi
            done
        else
            left_out "$1 by $compiler" "$compiler"
        fi
    done
}
# It has each call but these, which serve C alone, each status and each kind.
has_all_calls() {
    local name
    for name in $(declares) $(sed -n 's/^#define \(TYPED_PATH_\(STATUS\|KIND\)_[A-Z_]*\) .*/\1/p' "$include/typed_path.h"); do
        case $name in
            typed_path_version | typed_path_components | typed_path_hash) ;;
            *) grep -qw "$name" "$include/typed_path.hpp" || { echo "typed_path.hpp does not have $name" && return 1; } ;;
        esac
    done
}
declares() {
    sed -n 's/^\(TYPED_PATH_MUST_USE \)\?\(uint32_t\|bool\) \(typed_path_[a-z_]*\)(.*/\3/p' "$include/typed_path.h" | sort
}
# What stands in several places: the header, the crate, the list of what a built program relies on, and the manual.
agree() {
    local header=$include/typed_path.h list=$here/c/abi.txt words=$here/../crates/typath/src/words.rt page
    if is_there python3; then
        part "header and crate agree" "$tests/exports.py" "$header" "$here/../crates/typed_path_c/src"
        part "the ABI is the one that is listed" "$tests/abi.py" check "$header" "$list"
        part "a change of the ABI takes another number" is_told_of_changes
        part "header, crate, package and pages have one number" "$tests/abi.py" one "$header" "$here/.."
        if earlier_of abi.txt > "$room/earlier.txt" 2> "$room/said"; then
            part "the list has the number that its last change takes" "$tests/abi.py" since "$room/earlier.txt" "$list"
            if is_there abidiff; then
                part "no call is gone, by abidiff" none_is_gone
            else
                left_out "whether a call is gone" abidiff
            fi
        else
            left_out "whether the number was raised with the list" "earlier state of the list in git"
        fi
        part "the header of C++ has all calls" has_all_calls
        part "the manual says what header and program say" "$tests/manual.py" \
            "$header" "$here/c/man/typed_path.3" "$here/../refusals/help" "$words" "$here/c/man/typath.1"
    else
        left_out "whether header, crate, list and manual agree" python3
    fi
    part "the words of typath are completed" "$tests/completes.sh" "$here/c/typath.bash" "$words"
    for page in typed_path.3 typath.1; do
        if is_there_man; then
            part "$page is set by man" is_set "$here/c/man/$page"
        else
            left_out "whether man sets $page" "man-db with groff"
        fi
        if is_there mandoc; then
            part "$page is set by mandoc" mandoc -T lint -W warning "$here/c/man/$page"
        else
            left_out "whether mandoc sets $page" mandoc
        fi
    done
}
# Without a warning.
is_set() {
    if ! MANROFFOPT=-ww man --warnings -l "$1" > "$room/page" 2> "$room/warnings" || [[ ! -s $room/page || -s $room/warnings ]]; then
        cat "$room/warnings"
        return 1
    fi
}
is_there_man() {
    man --version 2> "$room/said" | grep -q '^man [0-9]' && is_there groff
}
# A file as it stood with the last list that was another one.
earlier_of() {
    local commit
    for commit in $(git -C "$here" log --format=%H -- c/abi.txt); do
        git -C "$here" show "$commit:./c/abi.txt" | cmp -s - "$here/c/abi.txt" ||
            { git -C "$here" show "$commit:./c/$1" && return; }
    done
    return 1
}
# By abidiff no call is gone while the shared object keeps its name; one that is left out is told of.
none_is_gone() {
    local state
    mkdir -p "$room"/{was,is,lacks} || return 1
    earlier_of include/typed_path.h > "$room/was/typed_path.h" && cp "$include/typed_path.h" "$room/is" &&
        sed '/typed_path_version(void);/d' "$room/is/typed_path.h" > "$room/lacks/typed_path.h" || return 1
    for state in was is lacks; do
        "$tests/stubbed.sh" "$room/$state/typed_path.h" > "$room/$state/stub.c" &&
            cc -g -shared -fPIC "-I$room/$state" "$room/$state/stub.c" -o "$room/$state/stub.so" || return 1
    done
    ! goes_on is lacks && { ! earlier_of abi.txt | grep -qxF "$(grep '^shared object ' "$here/c/abi.txt")" || goes_on was is; }
}
# Whether a program that was built with one state goes on with another: else abidiff's status has the bit of 8.
goes_on() {
    local status=0
    abidiff "$room/$1/stub.so" "$room/$2/stub.so" || status=$?
    ((!(status & 8)))
}
# Each edit of a header that has a number is refused, and the least number that it takes is told and then taken.
is_told_of_changes() {
    local edit number least noted=
    while IFS=$'\t' read -r number least edit; do
        numbered "$number" "$here/c/include/typed_path.h" > "$room/was.h"
        if [[ $number != "$noted" ]]; then
            rm -f "$room/list"
            "$tests/abi.py" note "$room/was.h" "$room/list" || return 1
            noted=$number
        fi
        sed -e "$edit" "$room/was.h" > "$room/is.h"
        numbered "$least" "$room/is.h" > "$room/raised.h"
        cp "$room/list" "$room/raised"
        if cmp -s "$room/was.h" "$room/is.h" || "$tests/abi.py" check "$room/is.h" "$room/list" > "$room/told" ||
            ! grep -qF "the number is $number, and it has to be $least or more" "$room/told" ||
            ! "$tests/abi.py" note "$room/raised.h" "$room/raised" || ! "$tests/abi.py" since "$room/list" "$room/raised"; then
            echo "$number: $edit" && cat "$room/told" && return 1
        fi
    done << 'END'
0.1.0	0.2.0	s/\(_NONE UINT32_C\)(8)/\1(18)/
0.1.0	0.2.0	s/\(_NONE\) UINT32_C(8)/\1 ((size_t)8)/
0.1.0	0.2.0	s/size_t length;/uint32_t length;/
0.1.0	0.2.0	s/    uint32_t kind;/    uint32_t kind, more;/; s/kind, more;/kind;\n    uint32_t more;/
0.1.0	0.2.0	s/(path_len) + 2)$/(path_len) + 3)/
0.1.0	0.2.0	s/\(typed_path_derive(const char \*path\), size_t path_len/\1/
0.1.0	0.2.0	/typed_path_version(void);/d
0.1.0	0.1.1	s/^uint32_t typed_path_version(void);/&\nuint32_t typed_path_newer(void);/
0.1.7	0.1.8	s/^#define TYPED_PATH_STATUS_BAD_ENDS .*/&\n#define TYPED_PATH_STATUS_NEWER UINT32_C(18)/
1.4.2	2.0.0	s/uint64_t key0, uint64_t key1/uint64_t key/
1.4.2	1.5.0	s/^uint32_t typed_path_version(void);/&\nuint32_t typed_path_newer(void);/
END
}
# A header with another number.
numbered() {
    local major minor patch
    IFS=. read -r major minor patch <<< "$1"
    sed "s/\(_VERSION_MAJOR\) [0-9]*$/\1 $major/; s/\(_VERSION_MINOR\) [0-9]*$/\1 $minor/; s/\(_VERSION_PATCH\) [0-9]*$/\1 $patch/" "$2"
}

# The archive under another library of C.
under_musl() {
    if is_there musl-gcc; then
        part "the archive is linked with musl" runs_under_musl "$@"
    else
        left_out "the archive with musl" musl-gcc
    fi
}
runs_under_musl() {
    musl-gcc -static "${strict[@]}" "-I$include" "$2" "$1" -o "$room/with_musl" && "$room/with_musl"
}
# A program that asks whether it can run is told so on a processor of x86-64-v2, and not on one of the baseline.
each_processor() {
    if is_there qemu-x86_64; then
        part "an older processor is told of" is_told_of_processors "$@"
    else
        left_out "whether an older processor is told of" qemu-x86_64
    fi
}
is_told_of_processors() {
    cc "-I$include" "$2" "$1" -o "$room/here" && qemu-x86_64 -cpu Nehalem "$room/here" || return 1
    qemu-x86_64 -cpu qemu64 "$room/here"
    [[ $? -eq 1 ]]
}

has_libarchive() {
    echo '#include <archive.h>' | cc -x c -fsyntax-only - 2> "$room/said"
}

if [[ "$*" == declared ]]; then
    is_there cc || { echo "test.sh: there is no cc" && failed=1 && end; }
    reads() {
        "$1" -x "$2" "-std=$3" "${strict[@]}" "-I$include" -c "$tests/header.c" -o "$room/none"
    }
    compiles() {
        (cd "$room" && cc -std=c11 -D_GNU_SOURCE "${strict[@]}" "-I$include" -c "$@")
    }
    reads_plus() {
        "$1" "-std=$2" "${strict[@]}" -Wold-style-cast "-I$include" -c "$tests/header.cpp" -o "$room/none"
    }
    each_language reads
    each_standard "the header of C++" reads_plus
    agree
    part "the crate of Rust is laid out, and declares the calls" "$here/rust/test.sh" declared
    part "the tests and an example of C are read" compiles "$tests"/{boundary,rows}.c "$here/c/examples/check_names.c"
    if has_libarchive; then
        part "the example over libarchive is read" compiles "$here/c/examples/extract.c"
    else
        left_out "the example over libarchive" libarchive
    fi
    for needed in ld objcopy ar readelf; do
        is_there $needed || { left_out "how the library is installed" $needed && end; }
    done
    is_laid_out_again() {
        (umask 077 && "$tests/stub.sh" "$room/else where/again") && diff -r "$room/a stub" "$room/else where/again"
    }
    part "a stub is laid out" "$tests/stub.sh" "$room/a stub"
    part "it is the same bytes elsewhere" is_laid_out_again
    printf '#include <typed_path.h>\nint main(void) { return typed_path_version() != TYPED_PATH_VERSION || !typed_path_runs_here(); }\n' > "$room/asked.c"
    installs "$room/a stub" "$room/asked.c"
    each_processor "$room/a stub/lib/libtyped_path.a" "$room/asked.c"
    under_musl "$room/a stub/lib/libtyped_path.a" "$room/asked.c"
    for needed in rt python3 dpkg-deb git strip; do
        is_there $needed || { left_out "how a release is made" $needed && end; }
    done
    part "what is linked in is listed" "$here/../release/linked.py" check
    cc "-I$include" "$room/asked.c" "$room/a stub/lib/libtyped_path.a" -o "$room/a program"
    part "a release is made, twice the same" "$here/../release/same.sh" --from "$room/a stub" --program "$room/a program"
    end
fi

for needed in cc nm; do
    is_there $needed || { echo "test.sh: there is no $needed" && failed=1 && end; }
done
if [[ $# -gt 0 ]]; then
    dir=$(cd "$1" && pwd) || exit 2
else
    dir=$room/dir
    part "the crate is proved and laid out" "$here/c/build.sh" "$dir"
    [[ $failed -eq 0 ]] || end
fi
include=$dir/include archive=$dir/lib/libtyped_path.a shared=$dir/lib/libtyped_path.so
export LD_LIBRARY_PATH=$dir/lib TYPED_PATH_LIBRARY=$shared PYTHONPATH=$here/python/src
strict+=("-I$include")
in_language() {
    "$1" -x "$2" "-std=$3" "${strict[@]}" "$tests/header.c" -x none "$archive" -o "$room/header" && "$room/header"
}
each_language in_language
in_standard() {
    "$1" "-std=$2" "${strict[@]}" -Wold-style-cast "$tests/header.cpp" "$archive" -o "$room/header" && "$room/header" &&
        "$1" "-std=$2" "${strict[@]}" -Wold-style-cast "$tests/rows.cpp" "$archive" -o "$room/rows" &&
        "$room/rows" "$here/rows.tsv"
}
each_standard "rows by the header of C++" in_standard

# Names: what the header declares, the crate exports and the library shows.
shows_declared() {
    diff <(declares) <(nm -D --defined-only "$shared" | sed 's/.* //' | sort)
}
needs_four() {
    nm -u "$archive" | sed -n 's/^ *U //p' | grep -v '^_GLOBAL_OFFSET_TABLE_$' | sort -u > "$room/needed"
    diff <(printf '%s\n' free malloc memmove realloc) "$room/needed"
}
part "the shared object shows what the header declares" shows_declared
part "the archive needs free, malloc, memmove, realloc" needs_four
agree
installs "$dir" "$tests/header.c"
each_processor "$archive" "$tests/header.c"
under_musl "$archive" "$tests/header.c"

# The boundary.
compiled() {
    cc -std=c11 -D_GNU_SOURCE -g "${strict[@]}" "${@:2}" "$tests"/{boundary,rows}.c "$archive" -o "$1" -lpthread
}
looked() {
    "$room/$1" "$here/rows.tsv" "$2"
}
part "compiled" compiled "$room/plain" -O1
for each in rows random steps batch hashes texts long threads; do
    part "boundary, $each" looked plain $each
done
wrap=-Wl,--wrap=malloc,--wrap=realloc,--wrap=free
part "compiled, with requests refused" compiled "$room/refusing" -O1 -DREFUSES $wrap
part "boundary, each request for memory refused" looked refusing refused
sanitize=(-fsanitize=address,undefined -fno-sanitize-recover=all) sanitizes=
if echo 'int main(void) { return 0; }' | cc -x c "${sanitize[@]}" - -o "$room/none" 2> "$room/said" && "$room/none"; then
    sanitizes=yes
    part "compiled, sanitized" compiled "$room/sanitized" -O1 "${sanitize[@]}"
    if is_there c++; then
        rows_sanitized() {
            c++ -std=c++20 -g "${strict[@]}" "${sanitize[@]}" "$tests/rows.cpp" "$archive" -o "$room/rows" &&
                "$room/rows" "$here/rows.tsv"
        }
        part "rows by the header of C++, sanitized" rows_sanitized
    fi
    for each in rows random steps batch hashes texts long threads; do
        part "boundary, sanitized, $each" looked sanitized $each
    done
else
    left_out "the boundary under sanitizers" "address and undefined-behaviour sanitizer"
fi
if is_there valgrind; then
    in_valgrind() {
        valgrind -q --error-exitcode=9 --leak-check=full --errors-for-leak-kinds=definite \
            "$room/plain" "$here/rows.tsv" "$1"
    }
    part "boundary, in valgrind, rows" in_valgrind rows
    part "boundary, in valgrind, batch" in_valgrind batch
else
    left_out "the boundary in valgrind" valgrind
fi

# The program.
if ! is_there python3; then
    left_out "what typath.1 shows" python3
elif [[ -x $dir/bin/typath ]]; then
    part "what typath.1 shows is printed" "$tests/shown.py" "$here/c/man/typath.1" "$dir/bin"
else
    left_out "what typath.1 shows" "$dir/bin/typath"
fi

# The examples.
names_are_checked() {
    cc -std=c99 "${strict[@]}" "$here/c/examples/check_names.c" "$archive" -o "$room/check_names"
    printf 'a/b\n..\n/x\ncon.txt\nC:y\n' | "$room/check_names" windows 'C:\out' > "$room/out"
    [[ $? -eq 1 ]] && diff - "$room/out" << 'END' && ! "$room/check_names" windows '\\s' < /dev/null
ok	C:\out\a/b
PathTraversalAttack	..
UnexpectedRoot	/x
InvalidFilename	con.txt
UnexpectedPrefix	C:y
END
}
is_normalized() {
    c++ "${strict[@]}" "$here/c/examples/normalize.cpp" "$archive" -o "$room/normalize" &&
        diff <(printf '%s\n' 'C:\b' '' '\\s\h\x') <(printf '%s\n' 'C:/a/../b' '' '\\s\h\..\x' | "$room/normalize" windows)
}
is_extracted() {
    cc -std=c11 -g "${strict[@]}" "${extra[@]}" "$here/c/examples/extract.c" "$archive" -larchive -o "$room/extract" &&
        "$tests/extracts.py" "$room/extract"
}
is_served_to() {
    c++ -std=c++17 "${strict[@]}" "$here/c/examples/serve.cpp" "$archive" -o "$room/serve" && "$room/serve" > "$room/out" << 'END' &&
PUT /a/b.txt one
GET /a//./b.txt
PUT /a/c%2F../b.txt two
GET /a/b.txt
GET /%2e%2e/etc/passwd
GET //etc/passwd
PUT /CON three
GET /c%00
GET /%ff
GET /%4
GET /none
POST /a
END
        diff - "$room/out" << 'END'
201 /srv/a/b.txt
200 one
201 /srv/a/b.txt
200 two
400 path attempts to escape original path
400 path contains unexpected root
400 path contains a name that may be a device
400 path contains a forbidden byte
400 path contains a name that is not UTF-8
400 there is none
404
405
END
}
part "example, names checked in C" names_are_checked
if has_libarchive && is_there python3; then
    extra=()
    part "example, hostile archives extracted in C" is_extracted
    if [[ $sanitizes ]]; then
        extra=("${sanitize[@]}")
        part "example, hostile archives extracted in C, sanitized" is_extracted
    fi
else
    left_out "the example over libarchive" "libarchive or python3"
fi
if is_there c++; then
    part "example, normal paths in C++" is_normalized
    part "example, a server's files in C++" is_served_to
else
    left_out "the examples in C++" c++
fi

# Python, over the module of C and over ctypes.
in_python() {
    (cd "$here/python/tests" && TYPED_PATH_BACKEND=$1 "$2" -m unittest "${@:3}")
}
laid_out() {
    TYPED_PATH_DIR=$dir TYPED_PATH_BACKEND=$1 python3 "$here/python/wheel_of.py" "$room/python"
}
# By one command, over what is laid out: the wheel of each backend, whose tag is true.
is_installed() {
    local quiet=(--quiet --no-index --no-deps --no-cache-dir --disable-pip-version-check)
    TYPED_PATH_DIR=$dir TYPED_PATH_BACKEND=$1 python3 -m pip install "${quiet[@]}" --target "$room/$1" "$here/python" &&
        (cd "$room" && env -u TYPED_PATH_LIBRARY -u LD_LIBRARY_PATH -u TYPED_PATH_BACKEND PYTHONPATH="$room/$1" python3 -c '
import typed_path
assert typed_path.__file__.startswith("'"$room/$1"'/") and typed_path.backend == "'"$1"'"
assert str(typed_path.UnixPath("a") / "b") == "a/b"
') && grep -qx 'Build: 1_x86_64_v2' "$room/$1"/typed_path-*.dist-info/WHEEL &&
        grep -qx "Tag: $2" "$room/$1"/typed_path-*.dist-info/WHEEL
}
# Every other Python that is there takes the module as it is.
each_version() {
    local python
    for python in python3.{8..14}; do
        ! "$python" -c '' > "$room/said" 2>&1 || LD_BIND_NOW=1 TYPED_PATH_BACKEND=native "$python" -c '
import sys, typed_path
assert typed_path.UnixPath("/srv").join_checked_batch(["a", ".."])[0] == ["/srv/a", None]
print("wrong" if typed_path.WindowsPath("C:/a").parts != ("C:\\", "a") else sys.version)
' || return 1
    done
}
if is_there python3; then
    export PYTHONPATH=$room/python
    backends=(ctypes)
    if python3 -c 'import sysconfig, os; exit(not os.path.exists(sysconfig.get_paths()["include"] + "/Python.h"))'; then
        backends=(native ctypes)
        part "Python, the module of C is compiled" laid_out native
        part "Python, the module in other versions" each_version
    else
        left_out "the module of C for Python" "Python.h"
    fi
    part "Python, laid out over ctypes" laid_out ctypes
    for backend in "${backends[@]}"; do
        for each in rows documented beside archives backends; do
            part "Python, $each, $backend" in_python $backend python3 "test_$each"
        done
    done
    if python3 -m pip --version > "$room/said" 2>&1; then
        [[ ${#backends[@]} -eq 1 ]] ||
            part "Python, the wheel of the module is built and installed" is_installed native cp38-abi3-linux_x86_64
        part "Python, the wheel over ctypes is built and installed" is_installed ctypes py3-none-linux_x86_64
    else
        left_out "the wheel" "pip"
    fi
    part "Python, types" in_python "${backends[0]}" python3 test_typed
    part "Python, names of files in one process" in_python "${backends[0]}" python3 test_names_on_dask.Here
    # What takes a package that Python has or not, by a Python that has it.
    while read -r package test name; do
        for python in python3 /usr/bin/python3 ""; do
            ! "$python" -c "import $package" > "$room/said" 2>&1 || break
        done
        if [[ $python ]]; then
            part "Python, $name" in_python "${backends[0]}" "$python" "$test"
        else
            left_out "$name" "python3 with the package $package"
        fi
    done << 'END'
distributed test_names_on_dask.There names over Dask, a worker killed
flask test_serve_flask names that a server by Flask is sent
hypothesis test_hypothesis random paths by Hypothesis
test.test_pathlib test_pathlib_of_cpython the tests of CPython
END
else
    left_out "Python" python3
fi

# Rust.
if is_there cargo; then
    part "the crate of Rust" "$here/rust/test.sh" "$dir"
else
    left_out "the crate of Rust" cargo
fi
end
