# Proves and builds crates/bench_lines where it isn't, for the scripts beside this file, which set top; sets filter to the
# program. Without input it writes nothing.
filter=$top/crates/bench_lines/out/bench_lines
if ! said=$(cd -- "$top/crates/bench_lines" && "${RT:-rt}" run < /dev/null 2>&1) || [ ! -x "$filter" ]; then
    printf '%s\n' "$said" | tail -n 40 >&2
    echo "crates/bench_lines could not be proved and built" >&2
    exit 2
fi

# the octets of input as hexadecimal digits
digits() {
    od -An -v -tx1 | tr -d ' \n'
}
