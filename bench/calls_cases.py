"""The cases of bench/calls: single calls on inputs of which each takes another way through the library, usual and awkward.

A case is a dialect, a call, and one text or two, as the program of crates/typed_path_calls reads them.
"""

UUID = b"12345678-1234-1234-1234-123456789012"
HEX = b"0123456789abcdef" * 8

CASES = []


def case(dialects, calls, *texts):
    CASES.extend((dialect, call, texts) for call in calls.split() for dialect in dialects.split())


def cases(dialects, calls, *rows):
    """One case for each row: a text, or a tuple of two."""
    for row in rows:
        case(dialects, calls, *(row if isinstance(row, tuple) else (row,)))


def filled(unit, size, front=b"", end=b""):
    """Units between a front and an end, of some `size` bytes in all."""
    return front + unit * max(1, (size - len(front) - len(end)) // len(unit)) + end


def joined(separator, name, count):
    return separator.join([name] * count)


# Two paths compared, and one as the base of the other.
PAIR = "cmp eq starts_with strip_prefix"
cases(
    "unix", PAIR,
    # they part in a name
    (b"/usr/lib/python3/a.py", b"/usr/lib/python3/b.py"), (b"/home/u/.bashrc", b"/home/u/.profile"), (b".bashrc", b".profile"), (b".a", b".git"),
    (b"a/.editorconfig", b"a/.gitattributes"), (b"a/.x/b", b"a/.x/c"), (b"a/.git", b"a/src"), (b"a/..b", b"a/.c"),
    (b"/home/user/.config/app/settings.json", b"/home/user/.local/share/app/state.json"), (b"/home/user/.bashrc", b"/home/user/.config"),
    (b"proj/.cargo/config.toml", b"proj/.github/workflows/ci.yml"),
    # one has a root, or lies below the other
    (b"a", b"/home"), (b"a/b", b"a"), (b"usr/lib//", b"usr/lib/what?"),
    # they begin with dots
    (b"./a", b"../a"), (b"./src/main.rs", b"../src/main.rs"), (b"../../a", b"../a"), (b"./a/b", b"./a/c"),
    # one is written with a detour
    (b"src/main.rs", b"src/../main.rs"), (b"src//main.rs", b"src/../main.rs"), (b"src/./a", b"src/../a"), (b"a//b", b"a/../b"),
    (b"usr//lib//python3", b"usr/lib/python3"), (b"usr/./lib/./python3", b"usr/lib/python3"), (b"a//b//c//d", b"a/b/c/d"),
    # long ones
    *((filled(b"abcdefg/", size, end=b"x"), filled(b"abcdefg/", size)) for size in (201, 401, 1025)),
    (filled(b"abcd//", 900), filled(b"abcd/", 750)), (filled(b"a/", 61, end=b"b"), filled(b"a//", 91, end=b"c")),
    (filled(b"a/./", 10_001, end=b"b"), filled(b"a/", 5_001, end=b"c")),
)
cases(
    "windows", PAIR,
    # behind a drive, or none
    (rb"C:\Users\u\.cargo", rb"C:\Users\u\.rustup"), (rb"C:\a", rb"D:\a"), (rb"C:\Users\u\x", rb"c:\Users\u\x"), (rb"C:\Users\u\x", rb"C:/Users/u/x"),
    (rb".\a", rb"..\a"), (rb"a\b", rb"a:"), (rb"a", rb"a:b"), (rb"src\\lib\main.rs", rb"src\lib\main.rs"),
    # one alone has a drive
    (rb"Cargo.toml", rb"C:\work"), (rb"C:\work", rb"Cargo"), (rb"D:\data\x", rb"Documents"), (rb"C:\Users", rb"COM1"), (rb"con", b"c:\\"),
    (rb"C:\Users\me", rb"src\main.rs"),
    # behind marked prefixes
    (rb"\\srv\share\a", rb"\\srv\share\b"), (rb"\\srv\share", rb"\\srv\share\b"), (rb"\\?\C:\a\b", rb"\\?\C:\a"), (rb"\\?\C:\Users\a", rb"//?/C:/Users/b"),
    (rb"\\?\UNC\srv\share\a", rb"//?/UNC/srv/share/b"), (rb"\\?\UNC\src", rb"\\?/UNC\src"),
    # long ones
    *((filled(b"abcdefg\\", size, b"C:\\", b"x"), filled(b"abcdefg\\", size, b"C:\\")) for size in (401, 1025)),
)

# Paths judged, before they are put below a base.
BASES = {"unix": b"/srv/files", "windows": rb"C:\b"}


def judged(*paths):
    for path in paths:
        case("windows", "is_valid", path)
        for dialect, base in BASES.items():
            case(dialect, "join_checked", base, path)


judged(
    b"con", b"..", b"a", b"src/main.rs", b"usr/share/doc/python3/examples/con", b"usr/share/doc/python3/examples/x:y",
    *(filled(unit, 95) for unit in (b"core/", b"com.a/", b"c/o/n/p/r/", b"a/../b/")),
    *(filled(unit, 95, b"q/") for unit in (b"./", b"a/", b"b/", b"a.txt/")),
    filled(b"./a/", 60), filled(b"./", 60, b"q/"), filled(b"./", 1000, b"q/"),
    # parents, at the front, within and at the end
    b"q" + b"/..a" * 10 + b"/..", b"a/b/c/d/e/f/g/h/i/j/k/l/m/n/o/p/..", b"foo" + b"/.." * 7 + b"/etc/passwd", b"a/../../etc/passwd_and_some_more_bytes",
    b"docs/./a/../b/readme.md and some more text", b"x" * 60 + b"/..", b"x" * 200 + b"/..",
    # long ones, which offend at the end or nowhere
    filled(b"name.rs/", 1000, end=b"con"), filled(b"name.rs/", 1000, end=b".."), filled(b"name.rs/", 4000),
)
# Long ones that offend at the front.
for size in (95, 1000, 4000, 100_000):
    for front in (b"a?b/", b"../", b"con/", b"a/con/", b"a/../../"):
        case("windows", "join_checked", BASES["windows"], filled(b"abcdefg/", size, front))
    for front in (b"../", b"a\0b/", b"a/../../"):
        case("unix", "join_checked", BASES["unix"], filled(b"abcdefg/", size, front))
    for front in (b"con/", b"a/con/", b"./con/", b"../aux/", b"/a/b/aux/", b"a:b/", b"a/b:c/", b"a?b/", b"a/b?c/", b"C:/"):
        case("unix", "convert_checked", filled(b"abcdefg/", size, front))
    for front in (b"a\0\\", b"a\\b\0\\", b"C:\\a\0\\", b"..\\a\0\\", b"\\\\?\\C:\\a/b\\"):
        case("windows", "convert_checked", filled(b"abcdefg\\", size, front))

# Normal and clean paths.
MADE = "normalize clean"
cases(
    "unix", MADE,
    b"usr/share/doc", b"./README.md", b"./a", b"a/../b", b"../lib/a", b".git/config", b"a/.git/config", filled(b".a/.b/", 90),
    # parents
    *(joined(b"/", b"..", count) for count in range(1, 6)), *(b"../" * count + b"a" for count in (1, 2, 3, 9)), b"../" * 4 + b"src/a.rs", b"../" * 30, filled(b"a/../", 100),
    filled(b"..a/", 40), b"..a/..b/..c/..d/..e", filled(b"..a/", 95, b"q/"), filled(b"..a/", 1000, b"q/"),
    # doubled separators and dots
    filled(b"usr//lib//", 60), filled(b"usr//lib//", 900), filled(b"usr/./lib/./", 60), filled(b"usr/./lib/./", 900), filled(b"usr////lib/", 60), filled(b"./", 61, end=b"a"),
    # long names
    UUID, *(HEX[:count] for count in (20, 32, 33, 40, 64)), HEX[:40] + b"/..", joined(b"/", HEX[:40], 3), joined(b"//", HEX[:40], 2),
    b"objects/ab/" + HEX[:38], b"/var/lib/docker/overlay2/" + HEX[:64] + b"/diff", b"n" * 1000,
    # long paths
    filled(b"../", 10_000), filled(b"..a/", 10_000), filled(b"a//", 10_000), filled(b"a/./", 10_000), filled(b"../", 1_000_000), filled(b"a/./", 1_000_000),
)
cases(
    "windows", MADE,
    rb"C:\Users\me\AppData\Local\Temp", rb"C:\Program Files (x86)\Microsoft Visual Studio\2019\Community\VC\Tools",
    rb"C:\ProgramData\Package Cache\{12345678-1234-1234-1234-123456789012}v14.29.30133\packages",
    rb"node_modules\.pnpm\@babel+plugin-transform-modules-commonjs@7.20.11_@babel+core@7.20.12\node_modules",
    # doubled separators and dots
    rb"Program Files (x86)\\Microsoft Visual Studio 14.0\\Common7\\IDE", rb"Documents and Settings\\Administrator Files\\Application Data Stuff\\x.txt",
    rb"C:\Program Files (x86)\\Microsoft Visual Studio\\Community Edition Tools\\x.exe", joined(b"\\\\", b"n" * 16, 3), joined(b"\\\\", b"n" * 24, 3),
    joined(b"\\.\\", b"n" * 16, 3), joined(b"\\\\", b"abcdefghijklmnop", 4), b"c:/abcdefghijklmno/./abcdefghijklmno", HEX[:64] + b"//" + HEX[:64],
    filled(b"abcdefghijklmnopq//", 95, b"q/"), filled(b"abcdefghijklmnopq//", 1000, b"q/"),
    # parents
    rb"..\..\..\a", filled(b"..\\", 61, end=b"a"), filled(b"a\\..\\", 100),
    # long names
    UUID, HEX[:40], HEX[:64], b"C:\\cache\\" + HEX[:64], b"IMG_20240131_123456789_HDR_edited_final.jpeg.x", *(joined(b"\\", b"n" * count, 3) for count in (36, 60, 120, 250)), b"n" * 1000,
    # long paths
    filled(b"n" * 36 + b"\\\\", 100_000), filled(b"../", 100_000), filled(b"a//", 100_000), filled(b"./", 100_000),
)

# Paths in the other encoding.
CROSSED = "convert convert_checked"
cases(
    "windows", CROSSED,
    rb"a", rb"a\b", rb"a\\b", rb"..\..\a\b\c", b"n" * 1000, filled(b"abcdefg/", 1000, end=b"\\\\x"), rb"usr\\share\\doc\\python3\\examples", rb"usr\.\share\.\doc\.\python3\.\examples",
    # behind a drive
    b"C:", b"D:", rb"C:x", rb"C:name.txt", rb"C:..\x", rb"C:\a", rb"C:\Users", b"C:\\Users\\", rb"D:\Data1", rb"C:\Users\u\file.txt",
    # behind other prefixes
    rb"\\srv\share\a\b\c\d\e\f\g", rb"\\fileserver01.corp.example.com\home", rb"\\fileserver01.corp.example.com\home\me", rb"\\?\UNC\fileserver01\departments\x",
    b"\\\\?\\Volume{" + UUID + b"}\\", b"\\\\?\\Volume{" + UUID + b"}\\Users", rb"\\?\C:\a/b\c\d\e\f\g\h\i\j\k\l\m\n\o\p\q\r\s\t\u\v\w",
    rb"\\?\UNC\slonger_name_of_some_bytes\bc\.\x\bc\\some.txt\\a\bc\name" + b"\\", rb"\\?\UNC\slonger_name_of_some_bytes/bc/./x/bc//some.txt//a/bc/name/",
    rb"\\?\some.txt///longer_name_of_some_bytes/name" + b"\\", rb"\\?\UNC\sabcdefghijklmno/longer_name_of_some_bytes\." + b"\\",
)
cases(
    "unix", CROSSED,
    b"a", b"a/b", b"usr/share/doc", b"../../a/b/c", b"usr//share//doc//python3//examples", b"usr/./share/./doc/./python3/./examples",
    b"C:/a", b"a:b/c", b"a\\b/c/d/e/f/g/h", b"n" * 1000, *(filled(b"abcdefg/", 1000, end=end) for end in (b"/x", b"con", b"x:y")),
)

# Readings.
READ = "first last step_front step_back steps walk walk_back peekable collect ancestors hash key_hash map_hash map_key_hash put_key parent file_name file_stem extension"
cases("unix", READ, b"/usr/share/doc/python3/examples/a.py", b"a", filled(b"a/", 60), filled(b"usr//lib//", 60), filled(b"../", 60), b"n" * 1000)
cases(
    "windows", READ,
    rb"C:\Users\u\AppData\Local\Programs\x.exe", rb"\\srv\share\a\b", rb"\\?\C:\Users\u\AppData", b"a", filled(b"a\\", 60), filled(b"usr\\\\lib\\\\", 60),
)

# A path beside another: within it, from it, and what both begin with.
BESIDE = "is_within relative_to common_ancestor ends_with"
cases(
    "unix", BESIDE,
    (b"/srv/www/data/a/b.txt", b"/srv/www/data"), (b"/srv/www/data", b"/srv/www/data"), (b"/srv/www/data/a", b"/srv/www/other/b"), (b"/a", b"/"), (b"a/b", b"a"), (b"ab", b"a"),
    (b"/srv/www/data/../x", b"/srv/www/data"), (b"/srv/./www//data/a", b"/srv/www/data"), (b"../a", b".."), (b"a", b".."), (b"..", b"a"), (b"../../a/b", b"../c"), (b"a/../b", b"a"),
    (filled(b"a/", 200, b"/"), filled(b"a/", 100, b"/")), (filled(b"a//", 200), filled(b"a/", 100)), (filled(b"../", 90), filled(b"../", 60)),
    (filled(b"abcdefg/", 1000, end=b"x"), filled(b"abcdefg/", 1000, end=b"y")),
)
cases(
    "windows", BESIDE,
    (rb"C:\srv\www\data\a\b.txt", rb"C:\srv\www\data"), (rb"c:\srv\www\data\a", rb"C:\srv\www\data"), (rb"C:\srv\www\data\..\x", rb"C:\srv\www\data"), (rb"C:\a", rb"D:\a"), (rb"C:a", b"C:\\"),
    (rb"a\b", rb"a"), (rb"..\a", rb".."), (rb"C:/srv/www/data/a", rb"C:\srv\www\data"), (rb"\\srv\share\a\b", rb"\\srv\share\a"), (rb"\\?\C:\a\b", rb"\\?\C:\a"), (rb"\\?\C:\a\b", rb"C:\a"),
    (filled(b"a\\", 200, b"C:\\"), filled(b"a\\", 100, b"C:\\")), (filled(b"..\\", 90), filled(b"..\\", 60)),
)
cases("unix windows", "absolutize", (b"a/b", b"/home/u"), (b"../a//b", b"/home/u"), (b"/a/./b", b"/home/u"), (filled(b"../", 60), b"/home/u/src"))
cases("unix windows", "absolutize_from", (b"a/b", b"/home/u"), (b"/a/./b", b"/home/u"))
cases("windows", "absolutize_from", (br"a\..\b", br"C:\work"), (br"\a", br"C:\work"), (b"D:a", br"C:\work"), (br"..\a", b"\\\\?\\C:\\work"))
cases("unix", "join", (b"/srv/files", b"a/b"), (b"/srv/files/", b"a"), (b"a", b"/b"), (b"", b"a"))
cases("windows", "join", (rb"C:\srv\files", rb"a\b"), (rb"C:\a", rb"\b"), (rb"\\?\C:\srv\files", rb"a\..\b"), (rb"\\srv\share", b"a/b"), (b"", rb"C:a"))

cases("unix", "push_place", (b"/srv/files", b"a/b"), (b"/srv/files/", b"a"), (b"a", b"/b"), (b"", b"a"))
cases("windows", "push_place", (rb"C:\srv\files", rb"a\b"), (rb"C:\a", rb"\b"), (rb"\\?\C:\srv\files", rb"a\..\b"), (rb"\\srv\share", b"a/b"), (b"", rb"C:a"))
cases("windows", "prefix_names", b"a", rb"C:\a", rb"\\srv\share\a", rb"\\?\C:\a", rb"\\?\UNC\srv\share\a", rb"\\.\COM1")

# Names that every system takes, and names that some do not.
cases(
    "unix windows", "is_valid is_portable check_portable may_be_device",
    b"b", b"usr/share/doc/python3/examples/a.py", b"src/lib.rs", b"a/../b", b"nul .txt", b"a/com1.log/b", b"notes.", b"a?b", b"a/b/c/d/e/f/g/h/i/j/k/l", "\u65e5/\u672c".encode(),
    filled(b"name.rs/", 1000), filled(b"con-/", 1000), filled(b"abcdefg/", 1000, end=b"x "), UUID, b"n" * 200, b"n" * 300,
)
cases("unix", "join_portable", *((b"/srv/files", path) for path in (b"a/b", b"a/con/b", b"../a", filled(b"abcdefg/", 1000, end=b"x"))))
cases("windows", "join_portable", *((rb"C:\b", path) for path in (b"a/b", b"a/con/b", b"../a", filled(b"abcdefg/", 1000, end=b"x"))))

# Letters in either case.
CASE = "eq_ignore_case starts_with_ignore_case"
cases(
    "unix", CASE,
    (b"/usr/lib/python3/a.py", b"/usr/lib/Python3/A.py"), (b"/usr/lib/python3/a.py", b"/usr/lib/python3/a.py"), (b"a", b"A"), (b"README.md", b"readme.txt"),
    (b"usr//lib/./python3", b"USR/lib/python3"), (filled(b"abcdefg/", 1025, end=b"x"), filled(b"abcdeFg/", 1025, end=b"x")), (HEX, HEX.upper()),
)
cases(
    "windows", CASE,
    (rb"C:\Users\u\.cargo", rb"c:\users\U\.cargo"), (rb"C:\Users\u\x", rb"C:/Users/u/X"), (rb"\\srv\share\a", rb"\\SRV\share\A"), (rb"\\?\UNC\srv\share\a", rb"\\?\UNC\Srv\Share\A"), (rb"C:\a", rb"D:\a"),
)
cases("unix windows", "to_lowercase", b"a", b"/Usr/Share/Doc/README", filled(b"Abcdefg/", 1000), rb"\\?\UNC\Srv\Share\A")

# Which bases keep their prefix, and which marks go.
cases("windows", "keeps_prefix simplified", b"a", rb"C:\a", rb"\\srv", rb"\\srv\share", rb"\\?\C:\Users\u\AppData\Local", rb"\\?\UNC\srv\share\a", rb"\\?\C:\a\con .txt", rb"\\?\UNC", b"/")
cases("unix", "keeps_prefix", b"/srv/www")
