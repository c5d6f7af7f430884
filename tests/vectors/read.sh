# The cases of this folder, for tests in bash: `. tests/vectors/read.sh`. README.md says what a case's files hold.
vectors=$(cd "$(dirname "${BASH_SOURCE[0]}")" && pwd)

# hex_bytes < HEX: the bytes of hexadecimal text
hex_bytes() {
    local escapes
    escapes=$(awk '
        {
            sub(/#.*/, "")
            times = 1; from = 1
            if ($2 == "*") { times = $1; from = 3 }
            record = ""
            for (i = from; i <= NF; i++) {
                if ($i !~ /^[0-9a-f][0-9a-f]$/) { print "no byte: " $i > "/dev/stderr"; exit 1 }
                record = record "\\x" $i
            }
            while (times-- > 0) printf "%s", record
        }') || return 1
    printf "$escapes"
}

# bytes 'HEX HEX ..': these bytes
bytes() { hex_bytes <<< "$1"; }

# sheet_bytes CASE SHEET: the bytes of a case's rules, question, union or facts
sheet_bytes() {
    local case=$1
    until [[ -f $vectors/$case/$2.hex ]]; do case=$(< "$vectors/$case/like") || return 1; done
    hex_bytes < "$vectors/$case/$2.hex"
}

# case_names: every case
case_names() { (cd "$vectors" && for output in */output; do echo "${output%/output}"; done); }
