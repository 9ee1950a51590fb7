#!/usr/bin/env bash
# Times the program over one million lines, beside `cat` over the same bytes: lines per second, the
# ratio of the processor times, and the peak of memory where /usr/bin/time is there.
# Build the program first: (cd crates/typath && rt run < stdin)
#
# bench/lines.sh [LINES]. Where TYPED_PATH_CRATE names a folder with the source of the Rust crate, as
# many lines of all commands are answered beside bench/lines_peer.rs, which asks that crate: as fast as
# it can be asked, and as most programs would ask it.
set -euo pipefail
top=$(cd "$(dirname "$0")/.." && pwd)
program=$top/crates/typath/out/typath
lines=${1:-1000000}
folder=$(mktemp -d)
trap 'rm -rf "$folder"' EXIT

python3 - "$lines" "$folder" <<'PY'
import sys
lines, folder = int(sys.argv[1]), sys.argv[2]
paths = ["foo/bar//baz/./asdf/quux/..", "/usr/share/doc/../lib/./python3//dist-packages", "../a/b/../../c", "src/main.rs"]
for command in ("normalize", "components"):
    with open(f"{folder}/{command}", "w") as out:
        for i in range(lines):
            out.write(f"{command}\tunix\t{paths[i % len(paths)]}\n")
with open(folder + "/empty", "w") as out:
    out.write("\n" * lines)
with open(folder + "/bad", "w") as out:
    out.write("no command\tof/any/kind\nwhat\n" * (lines // 2))
with open(folder + "/long", "w") as out:
    out.write("normalize\tunix\t" + "name/" * 1_000_000 + "\n")
PY

# The least processor time of five runs, in seconds.
seconds() {
  python3 - "$folder/$1" "${@:2}" <<'PY'
import os, resource, subprocess, sys
best = None
for _ in range(5):
    before = resource.getrusage(resource.RUSAGE_CHILDREN)
    with open(sys.argv[1], "rb") as data, open(os.devnull, "wb") as out:
        subprocess.run(sys.argv[2:], stdin=data, stdout=out, check=True)
    after = resource.getrusage(resource.RUSAGE_CHILDREN)
    spent = after.ru_utime + after.ru_stime - before.ru_utime - before.ru_stime
    best = spent if best is None else min(best, spent)
print(f"{best:.3f}")
PY
}

for command in normalize components empty bad; do
  mine=$(seconds "$command" "$program")
  cat=$(seconds "$command" cat)
  python3 -c "print(f'$command: $lines lines in $mine s of processor time, {$lines / $mine / 1e6:.1f} million a second; cat $cat s')"
done
if [ -x /usr/bin/time ]; then
  for input in normalize long; do
    /usr/bin/time -f "peak memory over '$input': %M KiB" "$program" < "$folder/$input" > /dev/null
  done
fi

[ -n "${TYPED_PATH_CRATE:-}" ] || exit 0
flags=(-C opt-level=3 -C target-cpu=x86-64-v2)
# By the edition that its Cargo.toml names, or else 2021.
edition=$(sed -n 's/^edition *= *"\(.*\)"/\1/p' "$TYPED_PATH_CRATE/Cargo.toml" 2> "$folder/refused" || true)
rustc --crate-name typed_path --crate-type rlib --edition "${edition:-2021}" --cfg 'feature="std"' \
    "${flags[@]}" --cap-lints allow --out-dir "$folder" "$TYPED_PATH_CRATE/src/lib.rs"
rustc --edition 2024 "${flags[@]}" --extern "typed_path=$folder/libtyped_path.rlib" -o "$folder/peer" "$top/bench/lines_peer.rs"

# Lines of all commands in equal shares, over paths of mixed kinds, from a fixed seed: with one to nine
# names, with one or two, with six to eight, and, fewer lines, with a hundred to four hundred.
sorts=(mixed short usual deep)
python3 - "$lines" "$folder" <<'PY'
import random, sys
lines, folder = int(sys.argv[1]), sys.argv[2]
draw = random.Random(1)
usual = ["usr", "lib", "share", "bin", "home", "src", "main.rs", "mod.rs", "tests", "target", "release", "docs", "a",
         "README.md", ".git", ".config", "index.html", "node_modules", "package.json", "python3.12", "dist-packages",
         "libcrypto.so.3", "Users", "Public", "Documents", "Program Files", "System32", "drivers", "report.final.pdf",
         "backup-2024-05-01.tar.gz", "IMG_20240501_101500.jpg", "3f2504e0-4f89-11d3-9a0c-0305e82c3301"]
rare = ["été", "日本語.txt", "...", "what is it?", "a:b", "x|y", ".."]
starts = {"unix": ["/"] * 10 + [""] * 4 + ["./", "../", "../../", "//"],
          "windows": ["C:\\"] * 6 + ["d:/", "C:", "\\", "/", ".\\", "..\\", "", "", "", "\\\\server\\share\\",
                      "//server/share/", "\\\\?\\C:\\", "\\\\?\\UNC\\server\\share\\", "\\\\.\\device\\"]}
between = {"unix": ["/"] * 40 + ["//", "/./", "/../"],
           "windows": ["\\"] * 34 + ["/"] * 6 + ["\\\\", "\\.\\", "\\..\\", "/../"]}
ends = {"unix": [""] * 8 + ["/"], "windows": [""] * 8 + ["\\", "/"]}

def path(dialect, names, start=None):
    text = draw.choice(starts[dialect]) if start is None else start
    for at in range(draw.randint(*names)):
        text += (draw.choice(between[dialect]) if at else "") + draw.choice(rare if draw.random() < 0.02 else usual)
    return text + draw.choice(ends[dialect])

def fields(command, names):
    dialect, other = draw.choice(["unix", "windows"]), draw.choice(["unix", "windows"])
    if command == "derive":
        return [path(dialect, names)]
    if command.startswith("join"):
        return [dialect, path(dialect, names), path(dialect, names, None if draw.random() < 0.1 else "")]
    return [dialect, other, path(dialect, names)] if command.startswith("convert") else [dialect, path(dialect, names)]

commands = ["components", "normalize", "join", "join_checked", "convert", "convert_checked", "derive"]
sorts = [("mixed", lines, (1, 9)), ("short", lines, (1, 2)), ("usual", lines, (6, 8)), ("deep", lines // 20, (100, 400))]
for sort, count, names in sorts:
    with open(f"{folder}/{sort}", "w", encoding="utf-8") as out:
        for _ in range(count):
            command = draw.choice(commands)
            out.write("\t".join([command] + fields(command, names)) + "\n")
PY

for sort in "${sorts[@]}"; do
  mine=$(seconds "$sort" "$program")
  theirs=$(seconds "$sort" "$folder/peer")
  plain=$(seconds "$sort" "$folder/peer" plain)
  "$program" < "$folder/$sort" > "$folder/replies"
  "$folder/peer" < "$folder/$sort" > "$folder/peer_replies"
  python3 - "$folder" "$sort" "$mine" "$theirs" "$plain" <<'PY'
import sys
folder, sort, mine, theirs, plain = sys.argv[1:]
with open(folder + "/replies", "rb") as ours, open(folder + "/peer_replies", "rb") as peers:
    alike = [one == other for one, other in zip(ours, peers, strict=True)]
print(f"{sort}: {len(alike)} lines of all commands in {mine} s of processor time, by the Rust crate in {theirs} s"
      f" ({float(mine) / float(theirs):.2f}), by a plain program over it in {plain} s"
      f" ({float(mine) / float(plain):.2f}); {alike.count(False)} of the replies differ")
PY
done
