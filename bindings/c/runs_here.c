/* Whether this processor has what the library was built for, x86-64-v2. layout.sh builds this for any x86-64, and no
   other call is asked: it is the one call of the archive that is not proved. */
#include <cpuid.h>
#include <typed_path.h>

/* By their names in <cpuid.h>, which is the same for gcc and clang but for that of LAHF. */
#define WANTED (bit_SSE3 | bit_SSSE3 | bit_SSE4_1 | bit_SSE4_2 | bit_POPCNT | bit_CMPXCHG16B)
#define LAHF 1u

bool typed_path_runs_here(void) {
    unsigned a, b, c, d;
    if (!__get_cpuid(1, &a, &b, &c, &d) || (c & WANTED) != WANTED)
        return false;
    return __get_cpuid(0x80000001u, &a, &b, &c, &d) && (c & LAHF) != 0;
}
