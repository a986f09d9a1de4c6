#!/usr/bin/env bash
# Measures our codes beside ISA-L's at the same level of the processor, slice by slice, and prints GB/s of data and the ratio.
#
#   bench/compare_isal.sh [v2|v3] [ROUNDS]
#
# v2 compares with ISA-L's SSSE3 code, v3 with its AVX2 code. Each figure is the best slice of all rounds. A row of `encode`
# or `build` compares with ISA-L's kernel alone, which writes into memory that is there, by tables made before. The row `whole`
# below it compares with the same work: ISA-L's result comes from malloc, its tables are made in the call, and for `build` the
# data are copied in front. Its matrix is still made before. The row `near` compares with ISA-L's kernel writing 16 bytes behind
# the data, where malloc puts the next piece of the heap: a store and a later load whose addresses agree in their low twelve bits
# wait for each other. The rounds have real-time priority where that is allowed.
# ISA-L and a C compiler are needed (Debian: libisal-dev, gcc).
set -u
level=${1:-v2}
rounds=${2:-5}
top=$(cd "$(dirname "$0")/.." && pwd)

case $level in
    v2) isa=sse ;;
    v3) isa=avx2 ;;
    *) echo "usage: bench/compare_isal.sh [v2|v3] [ROUNDS]" >&2; exit 2 ;;
esac
if ! command -v gcc >/dev/null || [ ! -e /usr/include/isa-l/erasure_code.h ]; then
    echo "ISA-L is not installed: no comparison (Debian: apt-get install libisal-dev gcc)"
    exit 0
fi

work=$(mktemp -d)
trap 'rm -rf "$work"' EXIT
cat >"$work/isal.c" <<'C'
#include <isa-l/erasure_code.h>
#include <stdio.h>
#include <stdlib.h>
#include <string.h>
#include <time.h>

#define JOIN(a, b) a##b
#define CALL(name, isa) JOIN(name, isa)

static double now(void) {
    struct timespec t;
    clock_gettime(CLOCK_MONOTONIC, &t);
    return t.tv_sec * 1e9 + t.tv_nsec;
}

static unsigned char *sample(size_t n) {
    unsigned char *bytes = malloc(n);
    unsigned long state = 1;
    for (size_t i = 0; i < n; i++) {
        state = state * 6364136223846793005UL + 1442695040888963407UL;
        bytes[i] = state >> 56;
    }
    return bytes;
}

// The best rate of a statement over 200 slices of about a millisecond.
#define BEST(rate, bytes, statement)                                 \
    do {                                                             \
        long calls = 4000000 / (long)(bytes) + 1;                    \
        rate = 0;                                                    \
        for (int slice = 0; slice < 200; slice++) {                  \
            double start = now();                                    \
            for (long call = 0; call < calls; call++) statement;     \
            double got = (double)(bytes) * calls / (now() - start);  \
            if (got > rate) rate = got;                              \
        }                                                            \
    } while (0)

// Codes into memory that is there: a piece of its own, or `gap` bytes behind the data.
static double code(int n, int m, int len, int gap) {
    unsigned char *in = sample((size_t)(n + m) * len + gap);
    unsigned char *out = gap ? in + (size_t)n * len + gap : sample((size_t)m * len);
    unsigned char *from[16], *to[7], matrix[23 * 16], tables[32 * 16 * 7];
    double rate;
    for (int i = 0; i < n; i++) from[i] = in + (size_t)i * len;
    for (int i = 0; i < m; i++) to[i] = out + (size_t)i * len;
    gf_gen_cauchy1_matrix(matrix, n + m, n);
    ec_init_tables(n, m, matrix + n * n, tables);
    BEST(rate, (size_t)n * len, CALL(ec_encode_data_, ISA)(len, n, m, tables, from, to));
    free(in);
    if (!gap) free(out);
    return rate;
}

// The same with a result from malloc and tables made in each call. The result starts with a copy of `copied` units of data.
static void whole_call(int n, int m, int len, int copied, unsigned char *matrix, unsigned char **from) {
    unsigned char *result = malloc((size_t)(copied + m) * len), *to[7], tables[32 * 16 * 7];
    if (!result) abort();
    for (int i = 0; i < copied; i++) memcpy(result + (size_t)i * len, from[i], len);
    for (int i = 0; i < m; i++) to[i] = result + (size_t)(copied + i) * len;
    ec_init_tables(n, m, matrix + n * n, tables);
    CALL(ec_encode_data_, ISA)(len, n, m, tables, from, to);
    free(result);
}

static double whole(int n, int m, int len, int copied) {
    unsigned char *in = sample((size_t)n * len), *from[16], matrix[23 * 16];
    double rate;
    for (int i = 0; i < n; i++) from[i] = in + (size_t)i * len;
    gf_gen_cauchy1_matrix(matrix, n + m, n);
    BEST(rate, (size_t)n * len, whole_call(n, m, len, copied, matrix, from));
    free(in);
    return rate;
}

static double multiple(int len) {
    unsigned char *in = sample(len), *out = sample(len), factor = 7, tables[32];
    double rate;
    ec_init_tables(1, 1, &factor, tables);
    BEST(rate, len, CALL(gf_vect_mad_, ISA)(len, 1, 0, tables, in, out));
    free(in);
    free(out);
    return rate;
}

int main(void) {
    for (int len = 8192; len <= 131072; len *= 16) {
        int kib = len / 1024;
        printf("mul_add %d KiB %.2f\n", kib, multiple(len));
        printf("encode (4,2) %d KiB %.2f\n", kib, code(4, 2, len, 0));
        printf("encode (8,2) %d KiB %.2f\n", kib, code(8, 2, len, 0));
        printf("encode (16,4) %d KiB %.2f\n", kib, code(16, 4, len, 0));
        printf("near encode (4,2) %d KiB %.2f\n", kib, code(4, 2, len, 16));
        printf("near encode (8,2) %d KiB %.2f\n", kib, code(8, 2, len, 16));
        printf("near encode (16,4) %d KiB %.2f\n", kib, code(16, 4, len, 16));
        printf("whole encode (4,2) %d KiB %.2f\n", kib, whole(4, 2, len, 0));
        printf("whole encode (8,2) %d KiB %.2f\n", kib, whole(8, 2, len, 0));
        printf("whole encode (16,4) %d KiB %.2f\n", kib, whole(16, 4, len, 0));
        printf("whole build (4,2) %d KiB %.2f\n", kib, whole(4, 2, len, 4));
        printf("whole build (8,2) %d KiB %.2f\n", kib, whole(8, 2, len, 8));
        printf("whole build (16,4) %d KiB %.2f\n", kib, whole(16, 4, len, 16));
        printf("rebuild n=4 %d KiB %.2f\n", kib, code(4, 1, len, 0));
        printf("rebuild n=8 %d KiB %.2f\n", kib, code(8, 1, len, 0));
        printf("rebuild n=16 %d KiB %.2f\n", kib, code(16, 1, len, 0));
    }
    return 0;
}
C
gcc -O2 -DISA=$isa "$work/isal.c" -o "$work/isal" -lisal || exit 1

# `rt run` proves and builds the program once; the rounds then run what it built.
(cd "$top/crates/bench_encode" && rt run --cpu="x86-64-$level") >"$work/build.log" 2>&1 || { cat "$work/build.log" >&2; exit 1; }
cp "$top/crates/bench_encode/out/bench_encode" "$work/ours"

first=()
if chrt -f 50 true 2>/dev/null; then first=(chrt -f 50); fi
for _ in $(seq "$rounds"); do
    "${first[@]}" "$work/ours" time >>"$work/ours.txt"
    "${first[@]}" "$work/isal" >>"$work/isal.txt"
done

awk -v isa="$isa" -v level="$level" '
    function name(  i, text) { text = $1; for (i = 2; i < NF; i++) text = text " " $i; return text }
    function print_row(label, mine, other) { printf "%-28s %10.2f %12.2f %7.2f\n", label, mine, other, mine / other }
    FNR == NR { key = name(); if ($NF > theirs[key]) theirs[key] = $NF; next }
    { key = name(); if (!(key in ours)) order[++count] = key; if ($NF > ours[key]) ours[key] = $NF }
    END {
        printf "%-28s %10s %12s %7s\n", "GB/s of data", "ours " level, "ISA-L " isa, "ratio"
        for (i = 1; i <= count; i++) {
            key = order[i]; other = key; sub(/^(kernel|build)/, "encode", other)
            print_row(key, ours[key], theirs[other])
            if (("near " key) in theirs) print_row("near " key, ours[key], theirs["near " key])
            if (("whole " key) in theirs) print_row("whole " key, ours[key], theirs["whole " key])
        }
    }' "$work/isal.txt" "$work/ours.txt"
