#!/usr/bin/env bash
# shellcheck disable=SC2030,SC2031
# Runs in the clean root of try.sh, where /try has the release, the folder app, and the lines of the README: lines.1
# installs, and lines.2 asks the program. It says what it leaves out, and ends in `N passed, M failed`.
set -uo pipefail
cd /try || exit 2
passed=0 failed=0 room=$(mktemp -d)
echo 'APT::Get::Assume-Yes "true";' > /etc/apt/apt.conf.d/99try
export DEBIAN_FRONTEND=noninteractive MANPAGER=cat

part() {
    local name=$1
    shift
    if "$@" > "$room/said" 2>&1; then
        passed=$((passed + 1))
        echo "$name: passed"
    else
        failed=$((failed + 1))
        echo "$name: FAILED"
        tail -n 30 "$room/said"
    fi
}
left_out() {
    echo "left out: $1, since there is no $2"
}

# All files, but for what the installing itself writes.
all_files() {
    find / -xdev \( -path /proc -o -path /dev -o -path /try -o -path /tmp -o -path /root -o -path /opt/rust \
        -o -path /etc/apt -o -path /var/cache -o -path /var/lib/apt -o -path /var/lib/dpkg -o -path /var/log \) \
        -prune -o -print | sort
}
is_as_before() {
    all_files > "$room/after"
    diff "$room/before" "$room/after"
}
is_without_kit() {
    ! command -v rt && ! (exec 3<> /dev/tcp/deb.debian.org/80)
}

# The line of the README that has this, as its reader types it, who is root here.
sudo() {
    "$@"
}
line() {
    local typed
    typed=$(grep -m 1 -F -- "$1" /try/lines.1) || { echo "the README has no line with: $1" && return 1; }
    eval "$typed"
}
# The replies stand in the comments of the README, between backticks, where ⇥ is a tab.
asks_program() {
    diff <(bash -o pipefail /try/lines.2) <(sed -n '/^#/p' /try/lines.2 | tr '`' '\n' | sed -n 's/⇥/\t/gp')
}
has_number() {
    local number
    number=$(dpkg-query -W -f '${Version}' typath) && typath --version | grep -F "typath ${number%-*},"
}
has_origin() {
    typath --version | grep -E '^commit: +[0-9a-f]{40}' && typath --version | grep -E '^kit: +rattle-kit-'
}
reads_page() {
    man "$@" 2> "$room/warned" | grep -E '^(TYPATH|TYPED_PATH)\('
}
completes() {
    bash -ic '. /usr/share/bash-completion/bash_completion; _completion_loader typath; complete -p typath' \
        2> "$room/warned" | grep -x 'complete -F _typath typath'
}

# Each program of the folder app says where names go below /srv.
answers() {
    diff <("$@" a/b ../x) <(printf '%s\n' /srv/a/b refused)
}
# Builds a program by what pkg-config says, which is quoted for a shell.
built() {
    eval "$* $(pkg-config --cflags --libs typed_path) -o \"\$room/app\"" && answers "$room/app"
}
in_c() {
    built cc /try/app/app.c
}
in_c_static() {
    built cc -static /try/app/app.c
}
in_cpp() {
    built c++ -std=c++17 /try/app/app.cpp
}
by_cmake() {
    rm -rf "$room/built"
    cmake -S /try/cmake -B "$room/built" -DSOURCE=/try/app/app.c "$@" && cmake --build "$room/built" &&
        answers "$room/built/app" && answers "$room/built/app_static"
}
in_python() {
    answers "$1" /try/app/app.py
}

part "there is no kit, and no network" is_without_kit
all_files > "$room/before"

# The packages of Debian.
part "typath is installed" line ./typath_
part "the program answers as the README says" asks_program
part "the program has the number of its package" has_number
part "the program names its commit and its kit" has_origin
part "man typath" reads_page typath
part "bash completes typath" completes
part "the library is installed" line ./libtyped-path-dev_
part "man typed_path" reads_page 3 typed_path
part "a program of C, by pkg-config" in_c
part "a program of C, with the archive" in_c_static
part "a program of C, by cmake" by_cmake
part "a program of C++" in_cpp
part "the package of Python is installed" line ./python3-typed-path_
part "a program of Python" in_python python3
part "the packages are purged" apt-get purge python3-typed-path libtyped-path-dev 'libtyped-path0*' typath
part "nothing of them is left" is_as_before

# The tarball, where it lies, and copied to where a system keeps what is its own.
tree=$room/tree
in_its_folder() {
    (
        mkdir "$tree" && cd "$tree" && cp /try/typed-path-*.tar.gz . && line '-x86_64-linux.tar.gz' && rm ./*.tar.gz &&
            mv typed-path-*/* . && rmdir typed-path-* || exit 1
        export PKG_CONFIG_PATH=$tree/lib/pkgconfig LD_LIBRARY_PATH=$tree/lib PATH=$tree/bin:$PATH
        asks_program && in_c && in_c_static && in_cpp && by_cmake "-DCMAKE_PREFIX_PATH=$tree" &&
            reads_page -l "$tree/share/man/man1/typath.1"
    )
}
in_local() {
    cp -a "$tree"/{bin,include,lib,share} /usr/local/ && ldconfig && asks_program && in_c && in_cpp && by_cmake &&
        reads_page typath
}
is_taken_away() {
    (cd "$tree" && find bin include lib share ! -type d -printf '/usr/local/%p\n') | xargs -d '\n' rm &&
        (cd "$tree" && find bin include lib share -mindepth 1 -depth -type d -printf '/usr/local/%p\n') |
        grep -vxFf "$room/before" | xargs -d '\n' rmdir && ldconfig && rm -r "$tree" && is_as_before
}
part "the tarball, in its folder" in_its_folder
part "the tarball, in /usr/local" in_local
part "it is taken away" is_taken_away

# The wheel, in an environment of its own.
python=$room/python
in_environment() {
    python3 -m venv "$python" && (PATH=$python/bin:$PATH && line 'pip install') && in_python "$python/bin/python"
}
is_uninstalled() {
    "$python/bin/pip" uninstall -y typed-path && ! "$python/bin/python" -c 'import typed_path'
}
part "the wheel, in an environment" in_environment
part "it is uninstalled" is_uninstalled

# The crate, unpacked beside a program. What it may take of a registry, cargo looks for among Debian's crates.
registry=(--config 'source.crates-io.replace-with="debian"')
registry+=(--config 'source.debian.directory="/usr/share/cargo/registry"')
in_rust() {
    local crate
    crate=$(basename /try/*.crate .crate)
    cp "/try/$crate.crate" "$room" && (cd "$room" && line '.crate') && mkdir -p "$room/rust/src" &&
        cp /try/app/app.rs "$room/rust/src/main.rs" &&
        printf '[package]\nname = "app"\nversion = "0.1.0"\nedition = "2021"\n[dependencies]\n%s = { path = "../%s" }\n' \
            "${crate%-[0-9]*}" "$crate" > "$room/rust/Cargo.toml" &&
        (cd "$room/rust" && cargo build --quiet --offline "${registry[@]}") && answers "$room/rust/target/debug/app"
}
if ! ls /try/*.crate > "$room/said" 2>&1; then
    left_out "a program of Rust" "crate in the release"
elif ! command -v cargo > "$room/said"; then
    left_out "a program of Rust" cargo
else
    part "a program of Rust, over the crate" in_rust
fi
part "all is as it was" is_as_before
echo "$passed passed, $failed failed"
[[ $failed -eq 0 ]]
