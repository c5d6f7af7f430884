# What the tests of a built program share: fresh folders, what it writes there, and sheets. Sourced with `root` and `program` set, in the
# repository's root.

folder=$(mktemp -d)
trap 'rm -rf "$folder"' EXIT
passed=0

fail() { echo "program: $case: $1" >&2; exit 1; }

# An empty folder for the case of that name.
fresh() {
    case=$1
    rm -rf "$folder/run"
    mkdir "$folder/run"
    cd "$folder/run"
}

# run [STDOUT]: the program's status, with what it wrote in ../out and ../err
run() {
    status=0
    "$program" > "${1:-$folder/out}" 2> "$folder/err" < /dev/null || status=$?
}

# expect_file FILE: exactly what the file has on standard output, nothing on standard error, status 0
expect_file() {
    run
    cmp -s "$1" "$folder/out" || fail "printed '$(head -c 300 "$folder/out")' and not '$(head -c 300 "$1")'"
    [[ ! -s $folder/err ]] || fail "wrote to standard error: $(cat "$folder/err")"
    [[ $status == 0 ]] || fail "status $status"
    passed=$((passed + 1))
}

# expect LINE..: exactly these lines
expect() {
    printf '%s\n' "$@" > "$folder/expected"
    expect_file "$folder/expected"
}

# expect_error MESSAGE: this line on standard error and nothing on standard output. The status is not compared, since
# nothing is said by it: it is always 0.
expect_error() {
    run
    [[ ! -s $folder/out ]] || fail "printed $(cat "$folder/out")"
    printf '%s\n' "$1" | cmp -s - "$folder/err" || fail "standard error had '$(cat "$folder/err")' and not '$1'"
    passed=$((passed + 1))
}

# ---- sheets

sheets='rules question union facts'

# card NAME: the four files of a case of tests/vectors
card() { local sheet; for sheet in $sheets; do sheet_bytes "$1" "$sheet" > "$sheet.bin"; done; }

k1() { card K1; }

# member0: K1's union cut to its first member
member0() { sheet_bytes K8 union > union.bin; }

# over SHEET: the file filled up with zeros to one byte over its limit
over() {
    local limit
    case $1 in rules) limit=2048 ;; question) limit=61 ;; union) limit=33282 ;; facts) limit=60000 ;; esac
    truncate -s $((limit + 1)) "$1.bin"
}

# widest: four files that are as long as they may be
mkdir "$folder/widest"
for sheet in $sheets; do tests/program/widest "$sheet" | hex_bytes > "$folder/widest/$sheet.bin"; done
widest() { cp "$folder/widest"/*.bin .; }
widest_lines=('accepted 2' '7 7 7 7' '9 9 9 9')
