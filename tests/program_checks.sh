# What the tests of the kit's programs share. Such a test reads this file into its own shell, names its program by
# find_program, makes its checks by check and ends by end_checks. One line is printed for each check, and below one that
# failed what was wanted beside what came. root is the kit's folder.

# find_program name [program]: the program to be tested, which is target/bin/name if none is named.
find_program() {
    tested=$1
    program=${2:-$root/target/bin/$tested}
    if [ ! -x "$program" ]; then
        echo "${tested}_test: no $tested at $program" >&2
        exit 2
    fi
    program=$(cd "$(dirname "$program")" && pwd)/$(basename "$program")
    work=$(mktemp -d) || exit 2
    trap 'rm -rf "$work"' EXIT
    folder=$work/folder
    out=$work/out
    err=$work/err
    want=$work/want
    passed=0
    failed=0
}

# check name command...: counts whether the command, which may be a function, succeeds. The folder is new, and nothing
# of an earlier check is left.
check() {
    name=$1
    shift
    rm -rf "$folder"
    mkdir "$folder" || exit 2
    : >"$want"
    : >"$out"
    : >"$err"
    status=
    if "$@"; then
        echo "passed: $name"
        passed=$((passed + 1))
    else
        echo "FAILED: $name"
        show_failure | LC_ALL=C tr -c '\n -~' '?' | sed 's/^/    /'
        failed=$((failed + 1))
    fi
}

show_failure() {
    if [ -z "$status" ]; then
        echo "the program was not run"
        return
    fi
    [ "$status" -eq 0 ] || echo "exit status: wanted 0, came $status"
    cmp -s "$out" "$want" || show_lines
    [ ! -s "$err" ] || sed 's/^/on stderr: wanted nothing, came: /' "$err" | head -n 10
}

# Each line of $want beside the line of $out, where they differ: the first ten.
show_lines() {
    awk -v want="$want" -v out="$out" -v bytes="$(wc -c <"$want")" -v there="$(wc -c <"$out")" '
        BEGIN {
            for (n = 1; ; n++) {
                is_wanted = (getline wanted <want) > 0
                is_there = (getline came <out) > 0
                if (!is_wanted && !is_there) break
                if (is_wanted && is_there && wanted "" == came "") continue
                if (++differ > 10) continue
                printf "line %d: wanted %s, came %s\n", n,
                    is_wanted ? "\"" wanted "\"" : "none", is_there ? "\"" came "\"" : "none"
            }
            if (differ > 10) printf "and %d lines more that differ\n", differ - 10
            if (differ == 0) printf "the lines are those wanted, the bytes are not: wanted %d, came %d\n", bytes, there
        }
    '
}

# bytes hex...: the bytes that are given in hexadecimal.
bytes() {
    for byte in "$@"; do
        printf "\\$(printf %03o "0x$byte")"
    done
}

# zeros number: as many bytes.
zeros() {
    dd if=/dev/zero bs=1 count="$1" 2>/dev/null
}

# prints line...: the program prints just these lines, and ends well.
prints() {
    printf '%s\n' "$@" >"$want"
    prints_wanted
}

prints_wanted() {
    (cd "$folder" && "$program") >"$out" 2>"$err"
    status=$?
    [ "$status" -eq 0 ] && [ ! -s "$err" ] && cmp -s "$out" "$want"
}

# The counts, and whether every check passed.
end_checks() {
    echo "${tested}_test: $passed passed, $failed failed"
    [ "$failed" -eq 0 ]
}
