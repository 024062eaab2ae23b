# What all parts of end_to_end use: a command ends so, two files have the same bytes, a database has these rows.

fail() {
    echo "end_to_end: $1" >&2
    exit 1
}

# same WHAT FILE FILE: the two files have the same bytes.
same() {
    cmp -s "$2" "$3" || {
        diff "$2" "$3" >&2 || true
        fail "$1"
    }
    checks=$((checks + 1))
}

# ends STATUS OUT ERR COMMAND..: the command ends so, and writes these texts, byte for byte, but for how long an opening took. The lines
# 'release: NAME: REASON' are compared where the case names one. A fault of a file, a database or the network has one, or a warning.
ends() {
    local status=$1 out=$2 err=$3 ended=0
    shift 3
    printf '%b' "$out" >"$folder/out.wanted"
    printf '%b' "$err" >"$folder/err.wanted"
    "$@" >"$folder/out" 2>"$folder/err" || ended=$?
    sed -i -E '/: signatures checked: [0-9]+, opened in [0-9]+ ms$/d' "$folder/err"
    [ "$ended" = "$status" ] || fail "status $ended in place of $status: $*"
    if ! grep -q '^release: ' "$folder/err.wanted"; then
        if tail -n 1 "$folder/err" | grep -qxE 'fault (database|damaged|file|network)'; then
            grep -qE '^(release|warning): ' "$folder/err" || fail "no line says what the fault is about: $*"
        fi
        sed -i '/^release: /d' "$folder/err"
    fi
    same "standard output: $*" "$folder/out.wanted" "$folder/out"
    same "standard error: $*" "$folder/err.wanted" "$folder/err"
}

# wants STATUS OUT ERR WORD..: the program ends so with these words.
wants() {
    local status=$1 out=$2 err=$3
    shift 3
    ends "$status" "$out" "$err" "$release" "$@"
}

# says TEXT WORD..: the words are a fault of the command line, whose own text matches this.
says() {
    local text=$1 ended=0
    shift
    "$release" "$@" >"$folder/out" 2>"$folder/err" || ended=$?
    [ "$ended" = 2 ] || fail "status $ended in place of 2: $*"
    [ ! -s "$folder/out" ] || fail "output of a usage fault: $*"
    [ "$(head -c 7 "$folder/err")" = 'error: ' ] || fail "no text of a usage fault: $*"
    grep -q -E -e "$text" "$folder/err" || fail "no '$text' in the text of a usage fault: $*"
    checks=$((checks + 1))
}

# usage WORD..: the words are a fault of the command line, with a text of its own.
usage() {
    says '^error: ' "$@"
}

# helps TEXT WORD..: the words are answered help on standard output, which says this.
helps() {
    local text=$1
    shift
    "$release" "$@" >"$folder/out" 2>"$folder/err" || fail "status $? of the help: $*"
    grep -q -e "$text" "$folder/out" || fail "no '$text' in the help: $*"
    [ ! -s "$folder/err" ] || fail "the help on standard error: $*"
    checks=$((checks + 1))
}

# has_mode MODE FILE: so may the file be read, written and run.
has_mode() {
    [ "$(stat -c %a "$2")" = "$1" ] || fail "mode $(stat -c %a "$2") in place of $1: $2"
    checks=$((checks + 1))
}

# dump DB FILE: the tables as SQLite's own program reads them, from a copy.
dump() {
    local part
    rm -f "$folder"/copy*
    for part in "" -wal -shm; do
        if [ -e "$1$part" ]; then cp "$1$part" "$folder/copy$part"; fi
    done
    sqlite3 "$folder/copy" .dump >"$2"
}

# rows DB QUERY TEXT: what SQLite's own program answers.
rows() {
    dump "$1" "$folder/dump"
    rm -f "$folder/rows"
    sqlite3 "$folder/rows" <"$folder/dump"
    printf '%b' "$3" >"$folder/rows.wanted"
    sqlite3 "$folder/rows" "$2" >"$folder/rows.found"
    same "rows: $2" "$folder/rows.wanted" "$folder/rows.found"
}

# hex FILE: its bytes as SQLite prints them.
hex() {
    od -An -v -tx1 "$1" | tr -d ' \n' | tr a-f A-F
}

# The program, over an output that takes nothing.
with_no_output() {
    "$release" "$@" >/dev/full
}

# The program, with no more than so many KiB of memory; the one that is compiled without proof takes its checks more than that, and is not held to it.
with_memory() (
    case $release in */unproved/*) ;; *) ulimit -v "$1" ;; esac
    shift
    exec "$release" "$@"
)
