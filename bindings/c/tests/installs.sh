# shellcheck shell=bash
# shellcheck disable=SC2154
# How the library is installed, found and taken away. test.sh sources it, and what is not set here is its own.
#
# installs DIR SOURCE: DIR has what was laid out, and SOURCE is a program of C over it, which ends with 0.
installs() {
    laid=$room/laid source=$2 of_c=$here/c
    cp -a "$1" "$laid"
    # Where the program was not built, another one stands for it.
    [[ -f $laid/bin/typath ]] || install -D -m 755 "$here/test.sh" "$laid/bin/typath"
    number=$(sed -n 's/^number //p' "$of_c/abi.txt") shared=$(sed -n 's/^shared object //p' "$of_c/abi.txt")
    part "the shared object has the name that its number gives it" has_its_name
    part "scripts refuse bad words" words_are_refused
    part "installed below DESTDIR, and taken away" is_put_and_taken
    part "installed over nothing that is not its own" keeps_what_is_not_its_own
    part "installed over an older number" is_put_over_another
    (cd "$room" && DESTDIR="a stage" "$of_c/install.sh" --from "$laid" --libdir lib/x86_64-linux-gnu /usr &&
        "$of_c/install.sh" --from "$laid" "a prefix" && mkdir -p "linked/deep/er" && ln -s deep/er linked/lib &&
        "$of_c/install.sh" --from "$laid" linked) > "$room/said" 2>&1
    staged="$room/a stage/usr" own="$room/a prefix" linked=$room/linked
    if is_there pkg-config; then
        part "found by pkg-config" by_each_pc
        if echo 'int main(void) { return 0; }' | cc -x c -static - -o "$room/none" 2> "$room/none.said"; then
            part "found by pkg-config --static" by_each_pc -static
        else
            left_out "pkg-config --static" "static library of C"
        fi
        part "the installed examples are built" examples_are_built
    else
        left_out "pkg-config" pkg-config
    fi
    if is_there cmake; then
        plus=
        ! is_there c++ || plus=$tests/header.cpp
        part "found by cmake" by_cmake "-DCMAKE_PREFIX_PATH=$own" "-DPLUS=$plus"
        part "found by cmake below DESTDIR" by_cmake "-Dtyped_path_DIR=$staged/lib/x86_64-linux-gnu/cmake/typed_path"
        part "found by cmake behind a link" by_cmake "-DCMAKE_PREFIX_PATH=$linked"
    else
        left_out "cmake" cmake
    fi
    if is_there_man; then
        part "found by man" by_man
    else
        left_out "whether man finds the pages" "man-db with groff"
    fi
}

has_its_name() {
    readelf -d "$laid/lib/libtyped_path.so" | grep -F "soname: [$shared]" && [[ -f $laid/lib/$shared ]] &&
        [[ $(readlink "$laid/lib/libtyped_path.so") == "$shared" ]]
}

# A command ends with a status, a line on standard error, and nothing on standard output.
ends() {
    local wanted=$1 status=0
    shift
    "$@" > "$room/out" 2> "$room/err" || status=$?
    [[ $status -eq $wanted && -s $room/err && ! -s $room/out ]] && return
    echo "$*: status $status, and not $wanted, or a line is missing"
    cat "$room/out" "$room/err"
    return 1
}
words_are_refused() {
    local script none=$room/none.of.it
    for script in install uninstall layout; do
        ends 2 "$of_c/$script.sh" && ends 2 "$of_c/$script.sh" "" || return 1
    done
    ends 2 "$of_c/build.sh" "$none" "$none" && ends 2 "$of_c/build.sh" "" && ends 2 "$of_c/layout.sh" "$none" "$none.a" &&
        ends 2 "$of_c/install.sh" --from "$laid" "$none" "$none" && ends 2 "$of_c/install.sh" --other "$none" &&
        ends 2 "$of_c/install.sh" --libdir && ends 2 "$of_c/install.sh" --libdir= "$none" &&
        ends 2 "$of_c/install.sh" --from "$laid" --libdir "a"$'\t'"b" "$none" &&
        ends 2 "$of_c/install.sh" --from "$none" "$none" && ends 2 "$of_c/install.sh" --from "$room" "$none" &&
        ends 2 env DESTDIR="$none" "$of_c/install.sh" --from "$laid" relative &&
        ends 2 "$of_c/uninstall.sh" "$none" "$none" && ends 2 "$of_c/uninstall.sh" --other &&
        ends 1 "$of_c/uninstall.sh" "$none" && [[ ! -e $none/include ]]
}

is_put_and_taken() {
    (
        cd "$room" || exit
        export DESTDIR="the stage"
        mkdir -p "$DESTDIR/usr/share/man"
        umask 077
        for _ in once again; do
            "$of_c/install.sh" --from "$laid" --libdir=lib/x86_64-linux-gnu /usr || exit 1
        done
        find "$DESTDIR/usr" -printf '%m %y %P %l\n' | sort -k3 | diff - <(what_is_put) || exit 1
        ! grep -rlF "$DESTDIR" "$DESTDIR" || exit 1
        "$of_c/uninstall.sh" /usr && diff <(find "the stage" | sort) <(printf '%s\n' "the stage"{,/usr{,/share{,/man}}})
    )
}
# With the modes. The folders of the manual were there before.
what_is_put() {
    sed "s/SHARED/$shared/" << 'END'
755 d  
755 d bin 
755 f bin/typath 
755 d include 
644 f include/typed_path.h 
644 f include/typed_path.hpp 
755 d lib 
755 d lib/x86_64-linux-gnu 
755 d lib/x86_64-linux-gnu/cmake 
755 d lib/x86_64-linux-gnu/cmake/typed_path 
644 f lib/x86_64-linux-gnu/cmake/typed_path/typed_path-config-version.cmake 
644 f lib/x86_64-linux-gnu/cmake/typed_path/typed_path-config.cmake 
644 f lib/x86_64-linux-gnu/libtyped_path.a 
777 l lib/x86_64-linux-gnu/libtyped_path.so SHARED
644 f lib/x86_64-linux-gnu/SHARED 
755 d lib/x86_64-linux-gnu/pkgconfig 
644 f lib/x86_64-linux-gnu/pkgconfig/typed_path.pc 
755 d share 
755 d share/bash-completion 
755 d share/bash-completion/completions 
644 f share/bash-completion/completions/typath 
755 d share/doc 
755 d share/doc/typed_path 
644 f share/doc/typed_path/LICENSE-APACHE 
644 f share/doc/typed_path/LICENSE-MIT 
755 d share/doc/typed_path/examples 
644 f share/doc/typed_path/examples/check_names.c 
644 f share/doc/typed_path/examples/extract.c 
644 f share/doc/typed_path/examples/normalize.cpp 
644 f share/doc/typed_path/examples/serve.cpp 
755 d share/man 
755 d share/man/man1 
644 f share/man/man1/typath.1 
755 d share/man/man3 
644 f share/man/man3/typed_path.3 
755 d share/typed_path 
644 f share/typed_path/installed 
END
}

keeps_what_is_not_its_own() {
    local place="$room/with others" page="$room/with others/share/man/man3/typed_path.3"
    mkdir -p "$place/include" "$place/bin" && echo mine > "$place/include/typed_path.h" && echo mine > "$place/bin/mine"
    ends 1 "$of_c/install.sh" --from "$laid" "$place" && grep -qF "$place/include/typed_path.h" "$room/err" &&
        [[ $(< "$place/include/typed_path.h") == mine && ! -e $place/lib ]] || return 1
    rm "$place/include/typed_path.h"
    "$of_c/install.sh" --from "$laid" "$place" && echo mine > "$page" || return 1
    ends 1 "$of_c/install.sh" --from "$laid" "$place" && ends 1 "$of_c/uninstall.sh" "$place" &&
        grep -qF "$page" "$room/err" && [[ $(< "$page") == mine && ! -e $place/include/typed_path.h ]] || return 1
    rm "$page"
    "$of_c/uninstall.sh" "$place" && diff <(cd "$place" && find . | sort) <(printf '%s\n' . ./bin ./bin/mine ./include)
}

# The shared object of the older number stays for the programs that were built with it, and goes with all.
is_put_over_another() {
    local older=$room/older place=$room/over
    cp -a "$laid" "$older" && mv "$older/lib/$shared" "$older/lib/libtyped_path.so.0.0" &&
        ln -sf libtyped_path.so.0.0 "$older/lib/libtyped_path.so" && echo older >> "$older/lib/libtyped_path.a" &&
        sed -i 's/^\(#define TYPED_PATH_VERSION_[A-Z]*\) .*/\1 0/' "$older/include/typed_path.h" || return 1
    "$of_c/install.sh" --from "$older" "$place" && "$of_c/install.sh" --from "$laid" "$place" &&
        [[ -f $place/lib/libtyped_path.so.0.0 && -f $place/lib/$shared ]] &&
        cmp "$laid/include/typed_path.h" "$place/include/typed_path.h" &&
        "$of_c/uninstall.sh" "$place" && [[ ! -e $place ]]
}

# A program is built by each file of pkg-config that there is, and runs; by -static, without the shared object.
by_each_pc() {
    local folder said
    for folder in "$laid/lib" "$own/lib" "$staged/lib/x86_64-linux-gnu" "$linked/lib"; do
        (
            export PKG_CONFIG_PATH=$folder/pkgconfig
            said=$(pkg-config ${1:+--static} --cflags --libs typed_path) &&
                [[ $(pkg-config --modversion typed_path) == "$number" ]] &&
                eval "cc \"\$source\" $said ${1-} -o \"\$room/found\"" || exit 1
            if [[ ${1-} ]]; then
                ! readelf -d "$room/found" | grep -F typed_path && env -u LD_LIBRARY_PATH "$room/found"
            else
                readelf -d "$room/found" | grep -qF "[$shared]" && LD_LIBRARY_PATH=$folder "$room/found"
            fi
        ) || { echo "by $folder" && return 1; }
    done
}
examples_are_built() {
    local said file
    said=$(PKG_CONFIG_PATH=$own/lib/pkgconfig pkg-config --cflags --libs typed_path) || return 1
    (
        cd "$own/share/doc/typed_path/examples" && eval "cc check_names.c $said -o \"\$room/found\"" || exit 1
        ! pkg-config --exists libarchive ||
            eval "cc extract.c $said $(pkg-config --cflags --libs libarchive) -o \"\$room/found\"" || exit 1
        ! is_there c++ || for file in normalize serve; do
            eval "c++ -std=c++17 $file.cpp $said -o \"\$room/found\"" || exit 1
        done
    )
}
by_cmake() {
    local build=$room/by_cmake
    rm -rf "$build"
    cmake -S "$of_c/tests/app" -B "$build" "-DSOURCE=$source" "$@" && cmake --build "$build" || return 1
    env -u LD_LIBRARY_PATH "$build/app" && env -u LD_LIBRARY_PATH "$build/app_static" &&
        readelf -d "$build/app" | grep -qF "[$shared]" && ! readelf -d "$build/app_static" | grep -F typed_path
}
by_man() {
    local page
    for page in typed_path.3 typath.1; do
        [[ $(man -M "$own/share/man" -w "${page#*.}" "${page%.*}") -ef $own/share/man/man${page#*.}/$page ]] || return 1
    done
}
