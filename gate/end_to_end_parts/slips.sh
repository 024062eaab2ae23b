# Slips of the hand: each is told with the file or the argument that it is about and with what to do, without --verbose; the last line and the
# status are as they are documented. And several hands at one folder.

# slip STATUS LINE LAST WORD..: the words end so, the line stands on standard error, and the last line is this.
slip() {
    local status=$1 line=$2 last=$3 ended=0
    shift 3
    "$release" "$@" >"$folder/out" 2>"$folder/err" </dev/null || ended=$?
    [ "$ended" = "$status" ] || fail "status $ended in place of $status: $*: $(cat "$folder/err")"
    grep -qxF -- "$line" "$folder/err" || fail "not told '$line': $*: $(cat "$folder/err")"
    [ "$(tail -n 1 "$folder/err")" = "$last" ] || fail "the last line: $*: $(cat "$folder/err")"
    checks=$((checks + 1))
}

# serves DB WORD..: a server runs over the database until 'serves_no_more'.
serves() {
    served=$1
    serve "${@:2}"
}

serves_no_more() {
    { kill "$server" && wait "$server"; } 2>/dev/null || true
    server=
    served=$folder/db
}

slips_of_the_hand() {
    local here=$PWD now=$at
    mkdir -p "$folder/slips" && cd "$folder/slips"
    local name
    for name in root online; do makes_key $name; done
    draft_alone root root=root.key targets=online.key snapshot=online.key timestamp=online.key
    signs root
    wants 0 'begun\n' '' init --at $now --db repository.db d/root.json
    "$release" publish --at $now --db repository.db --in d >/dev/null
    files_that_are_not_there
    what_is_not_sealed
    a_server_that_holds_the_database
    a_book_that_is_in_use
    folders_that_are_held_by_a_root
    several_hands_at_one_folder
    a_key_that_is_ended_while_it_is_made
    digests_that_begin_alike
    a_term_that_no_option_says
    cd "$here"
}

files_that_are_not_there() {
    mkdir -p elsewhere
    slip 3 'release: nobody.key: No such file or directory (os error 2)' 'fault file' sign --at $now --key nobody --in d --yes
    slip 3 'release: no.json: No such file or directory (os error 2)' 'fault file' init --at $now --db new.db no.json
    slip 3 'release: nowhere/new.db: No such file or directory (os error 2)' 'fault database' init --at $now --db nowhere/new.db d/held/root.json
    slip 3 'release: nowhere: No such file or directory (os error 2)' 'fault file' show --at $now --in nowhere
    slip 3 'release: nowhere: No such file or directory (os error 2)' 'fault file' sign --at $now --key online --in nowhere --yes
    slip 3 'release: nowhere: No such file or directory (os error 2)' 'fault file' publish --at $now --db repository.db --in nowhere
    slip 3 'release: online.key: no folder' 'fault file' show --at $now --in online.key
    echo no seed >ill.seed
    slip 3 'release: ill.seed: no seed: 96 hex digits of lower case and a line feed' 'fault file' key --at $now --seed ill.seed --ots 4 --height 5
    echo no key >ill.key
    slip 3 "release: ill.key: no key object: 'release key --new NAME' makes NAME.key" 'fault file' draft --at $now --in d root root=ill.key
    slip 3 'release: port 1: Connection refused (os error 111)' 'fault network' prune --port 1
    slip 1 'release: root.json: no role stands before a colon: write ROLE:FILE, as root:root.json' 'denied 3 WrongShape at 0' publish --at $now --db repository.db root.json
    slip 1 "release: Root:d/held/root.json: denied; 'release help 3' says what to do" 'denied 3 WrongShape at 0' publish --at $now --db repository.db Root:d/held/root.json
}

# A batch of targets metadata without a snapshot: what is to be done is told before the denial.
what_is_not_sealed() {
    echo one >a
    draft targets --add a
    signs online
    slip 1 "release: d: it has no draft of a timestamp: seal first, by 'release draft --in DIR seal', and sign what that drafts" 'denied 16 NoTimestamp at 0' \
        publish --at $now --db repository.db --in d
    slip 1 "release: targets:d/targets.json: denied; 'release help 16' says what to do" 'denied 16 NoTimestamp at 0' publish --at $now --db repository.db --in d
    draft seal
    signs online
    wants 0 '{"accepted":3,"same":0}\n' '' publish --at $now --db repository.db --in d
}

# While a server runs, what it holds is reached by its port.
a_server_that_holds_the_database() {
    serves repository.db
    slip 3 'release: repository.db: in use by another process; where a server runs over it, use --port' 'fault database' publish --at $now --db repository.db root:d/held/root.json
    serves_no_more
    serves repository.db --read-only
    slip 3 'release: batch: status 404: a server that only reads has no writing route' 'fault network' publish --port "$port" root:d/held/root.json
    serves_no_more
}

# A book that another process has is let be.
a_book_that_is_in_use() {
    local holder
    python3 -c 'import fcntl, sys, time
book = open(sys.argv[1], "r+b")
fcntl.lockf(book, fcntl.LOCK_EX)
print("held", flush=True)
time.sleep(600)' online.book >"$folder/holding" &
    holder=$!
    until [ -s "$folder/holding" ]; do sleep 0.1; done
    slip 3 'release: online.book: in use by another process, which signs; try again' 'fault database' sign --at $now --key online --in d --yes
    { kill "$holder" && wait "$holder"; } 2>/dev/null || true
}

# What a folder holds is judged by a root of the signer's own: a folder of good documents, one whose held targets metadata somebody wrote, and one
# of another repository.
folders_that_are_held_by_a_root() {
    draft targets --expires 80d
    cp -r d good
    signs online --anchor good/held/root.json --strict
    [ ! -s "$folder/err" ] || fail "what is held is warned of: $(cat "$folder/err")"
    cp -r good forged
    python3 - forged/held/targets.json <<'PYTHON'
import json, sys
it = json.load(open(sys.argv[1]))
it["signed"]["targets"]["a"]["length"] = 5
open(sys.argv[1], "w").write(json.dumps(it, sort_keys=True, separators=(",", ":")))
PYTHON
    slip 1 'warning: forged/held/targets.json: it is not signed by its rules from the root that is given' 'refused held' \
        sign --at $now --key online --in forged --db repository.db --strict --yes
    mkdir other
    (
        cd other
        makes_key root
        "$release" draft --at $now --in d root root=root.key targets=root.key snapshot=root.key timestamp=root.key >/dev/null
        "$release" sign --at $now --key root --in d --yes >/dev/null
    )
    slip 1 'warning: good/held/root.json: it is not signed by its rules from the root that is given' 'refused held' \
        sign --at $now --key online --in good --anchor other/d/root.json --strict --yes
    slip 3 'release: nothing.db: No such file or directory (os error 2)' 'fault database' sign --at $now --key online --in good --db nothing.db --yes
    [ ! -e nothing.db ] || fail 'a database was made to be asked'
    slip 1 "release: a: denied; 'release help 2' says what to do" 'denied 2 NotCanonical' sign --at $now --key online --in good --anchor a --yes
    serves repository.db
    slip 1 'warning: forged/held/targets.json: it is not signed by its rules from the root that is given' 'refused held' \
        sign --at $now --key online --in forged --port "$port" --strict --yes
    serves_no_more
    says "'--strict' wants '--db <FILE>', '--port <P>' or '--anchor <ROOT>'" sign --key online --in good --strict
    says "'db' cannot be used with '--anchor <ROOT>'" sign --key online --in good --anchor a --db b
    says "'anchor' cannot be used with '--book <B>'" sign --book b --seed s --ots 4 --height 5 --anchor a c
}

# Ended while its leaves are hashed, 'key --new' leaves no file, and the next call makes the key.
a_key_that_is_ended_while_it_is_made() {
    timeout -s INT 0.2 "$release" key --at $now --new ended --ots 8 >"$folder/out" 2>"$folder/err" || true
    [ -z "$(ls | grep '^ended' || true)" ] || fail "a key that was ended left $(ls)"
    "$release" key --at $now --new ended --height 5 >"$folder/out"
    checks=$((checks + 2))
}

# Two people sign in one folder at once, and neither signature is lost; and a command that writes waits for another one, and goes where it does not end.
several_hands_at_one_folder() {
    local name
    mkdir several
    for name in alice bob carol; do makes_key $name; done
    "$release" draft --at $now --in several root root=2@alice.key,bob.key,carol.key targets=alice.key snapshot=alice.key timestamp=alice.key >/dev/null
    local first second
    "$release" sign --at $now --key alice --in several --yes >/dev/null &
    first=$!
    "$release" sign --at $now --key bob --in several --yes >/dev/null &
    second=$!
    "$release" sign --at $now --key carol --in several --yes >/dev/null
    wait $first
    wait $second
    [ "$(grep -o '"keyid":"[0-9a-f]*","sig"' several/root.json | sort -u | wc -l)" = 3 ] || fail 'a signature is lost where three sign at once'
    checks=$((checks + 1))
    flock several sleep 15 &
    local holder=$!
    until ! flock --nonblock several true; do sleep 0.1; done
    slip 1 'release: several: another command is writing in it; try again' 'refused busy' draft --at $now --in several root --anew
    kill $holder && wait $holder || true
}

# Two digests with the same first digits are told by all of them.
digests_that_begin_alike() {
    local is
    is=$(python3 -c 'import json; print(json.load(open("d/held/targets.json"))["signed"]["targets"]["a"]["hashes"]["sha256"])')
    by_hand d/targets.json "it['targets']['a']['hashes']['sha256'] = '${is:0:8}' + 'f' * 56"
    "$release" show --at $now --in d >"$folder/out"
    grep -qF "$is" "$folder/out" || fail "digests that begin alike are told by their first digits: $(cat "$folder/out")"
    grep -qF "${is:0:8}ffffffff" "$folder/out" || fail 'the other digest is not told as a whole'
    checks=$((checks + 1))
}

# A term in a document that somebody wrote, and that no moment is as far off as, is none.
a_term_that_no_option_says() {
    cp -r d ill
    by_hand ill/held/targets.json 'it["term"] = 2 ** 40'
    rm ill/targets.json
    "$release" draft --at $now --in ill targets >"$folder/out" 2>"$folder/err" || fail "a long term: $(cat "$folder/err")"
    grep -q '^targets .* expires in 90 days' "$folder/out" || fail "a long term is taken: $(cat "$folder/out")"
    checks=$((checks + 1))
}
