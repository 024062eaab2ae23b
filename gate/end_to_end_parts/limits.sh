# What is told before a limit is hit, and where one was: over databases, in folders of drafts, and where a clock began anew.

limits_are_told() {
    local said here=$PWD now=$at
    said=$(python3 "$repository/gate/near_limits.py" "$release") || fail "near limits: $said"
    checks=$((checks + said))
    mkdir -p "$folder/measured" && cd "$folder/measured"
    drafts_are_measured
    drafts_that_are_too_long
    what_is_too_long_is_named
    cd "$here"
    clocks_that_began_anew
}

# size FILE: its bytes.
size() {
    wc -c <"$1"
}

# pads N: the draft of the targets metadata, without signatures, has just so many bytes.
pads() {
    by_hand d/targets.json 'it["x"] = ""'
    by_hand d/targets.json "it[\"x\"] = \"x\" * $(($1 - $(size d/targets.json)))"
    [ "$(size d/targets.json)" = "$1" ] || fail "the draft has not $1 bytes"
}

# drafts_again: the next draft goes on from what is there, and has as many bytes.
drafts_again() {
    "$release" draft --at $now --in d targets --expires 90d >"$folder/out" 2>"$folder/err" || fail "draft targets: $(cat "$folder/err")"
    checks=$((checks + 1))
}

# What a draft will have is what it has once it is signed, to the byte: by one key, by two of three, and over one signature that stands there.
drafts_are_measured() {
    local grown name
    for name in root wide narrow third; do ots=1 makes_key $name; done
    ots=2 makes_key tiny
    draft_alone root root=root.key targets=wide.key snapshot=root.key timestamp=root.key
    draft_alone targets --expires 90d
    cp d/targets.json unsigned.json
    signs wide targets.json
    grown=$(($(size d/targets.json) - $(size unsigned.json)))
    draft_alone --anew targets --expires 90d
    pads $((196607 - grown)) && drafts_again
    [ ! -s "$folder/err" ] || fail "warned of under three quarters: $(cat "$folder/err")"
    ! grep -q ' of 262144 bytes' "$folder/out" || fail "told of under three quarters: $(cat "$folder/out")"
    "$release" show --at $now --in d --json >"$folder/out"
    it_is_data
    it_holds '{d["role"]: d["bytes"] for d in it["drafts"]}["targets"] == {"most": 262144, "near": False, "used": 196607}'
    pads $((196608 - grown)) && drafts_again
    is_told '  targets 196608 of 262144 bytes !'
    same "the warning" <(echo 'warning: targets: 196608 of 262144 bytes with the signatures that it wants: delegate a part of it: --delegate or --bins') "$folder/err"
    "$release" show --at $now --in d --json --html page.html >"$folder/out"
    it_is_data
    it_holds '{d["role"]: d["bytes"] for d in it["drafts"]}["targets"] == {"most": 262144, "near": True, "used": 196608}'
    grep -q '<div class="denied">196608 of 262144 bytes</div>' page.html || fail "the page does not say how long a draft is"
    on_a_terminal show --at $now --in d
    grep -q '^<ESC>31m  targets 196608 of 262144 bytes !$' "$folder/out" || fail "a terminal is not told how long a draft is: $(cat "$folder/out")"
    pads $((262144 - grown)) && drafts_again
    is_told '  targets 262144 of 262144 bytes !'
    signs wide --again targets.json
    [ "$(size d/targets.json)" = 262144 ] || fail "a signed draft has not the bytes that it was to have: $(size d/targets.json)"
    "$release" show --at $now --in d >"$folder/out"
    is_told '  targets 262144 of 262144 bytes !'
    drafts_of_two_signatures
    checks=$((checks + 4))
}

# Of three keys two sign. The shortest signatures are counted: that of the key of width 2, and one of width 1.
drafts_of_two_signatures() {
    local first both
    draft_alone root targets=2@wide.key,narrow.key,tiny.key
    rm d/targets.json
    draft_alone targets --expires 90d
    pads 100000
    cp d/targets.json begun.json
    signs tiny targets.json
    first=$(size d/targets.json)
    signs narrow targets.json
    both=$(($(size d/targets.json) - 100000))
    cp begun.json d/targets.json
    pads $((200000 - both)) && drafts_again
    is_told '  targets 200000 of 262144 bytes !'
    cp d/targets.json begun.json
    "$release" sign --at $now --key tiny --in d --yes --again targets.json >"$folder/out" 2>"$folder/err" || fail "sign --again: $(cat "$folder/err")"
    [ "$(size d/targets.json)" = $((200000 - both + first - 100000)) ] || fail "one signature adds otherwise than before"
    "$release" show --at $now --in d >"$folder/out"
    is_told '  targets 200000 of 262144 bytes !'
    "$release" sign --at $now --key wide --in d --yes --again targets.json >"$folder/out" 2>"$folder/err" || fail "sign --again: $(cat "$folder/err")"
    [ "$(size d/targets.json)" = 200000 ] || fail "two signatures add otherwise than was told"
    checks=$((checks + 2))
}

# One byte more than may be, with the signatures that are wanted, and without any. The folder stays as it was.
drafts_that_are_too_long() {
    local grown
    draft_alone root targets=third.key
    draft_alone --anew targets --expires 90d
    pads 100000
    cp d/targets.json begun.json
    signs third targets.json
    grown=$(($(size d/targets.json) - 100000))
    cp begun.json d/targets.json
    pads $((262145 - grown))
    cp d/targets.json begun.json
    ends_with 1 'refused long' draft --at $now --in d targets --expires 80d
    same "the warning" <(printf '%s\n' 'warning: targets: 262145 of 262144 bytes with the signatures that it wants: delegate a part of it: --delegate or --bins' 'refused long') "$folder/err"
    same "the draft that stood there" begun.json d/targets.json
    pads 262144
    cp d/targets.json begun.json
    echo more >more.txt
    ends_with 1 'refused long' draft --at $now --in d targets --expires 90d --add more.txt
    same "the warning" <(printf '%s\n' 'warning: targets: over 262144 bytes: delegate a part of it: --delegate or --bins' 'refused long') "$folder/err"
    same "the draft that stood there" begun.json d/targets.json
}

# Each command over a folder with a document that is too long, and a batch with one, name it before the denial.
what_is_too_long_is_named() {
    local told='release: d/targets.json: 262150 bytes, of at most 262144: delegate a part of it, by '"'release draft targets'"' with --delegate or --bins'
    signs root root.json
    pads 262150
    is_named show --at $now --in d
    is_named draft --at $now --in d targets --expires 90d
    is_named draft --at $now --in d seal
    is_named sign --at $now --key third --in d --yes
    wants 0 'begun\n' '' init --at $now --db long.db d/root.json
    is_named publish --at $now --db long.db --in d
    mv d/targets.json long.json
    told=${told/d\/targets.json:/targets:long.json:}
    draft_alone targets --expires 90d
    ends_with 1 'denied 1 TooLong at 1' publish --at $now --db long.db root:d/root.json targets:long.json
    grep -qxF -- "$told" "$folder/err" || fail "not named: $(cat "$folder/err")"
    told=${told/targets:long.json:/long.json:} told=${told%: delegate*}
    mkdir sent && mv long.json sent/targets.json
    told=${told/long.json/"sent/targets.json"}
    is_named draft --at $now --in d take sent/targets.json
    checks=$((checks + 1))
}

# is_named WORD ..: the program is denied for a document that is too long, and names it.
is_named() {
    ends_with 1 'denied 1 TooLong' "$@"
    grep -qxF -- "$told" "$folder/err" || fail "$*: not named: $(cat "$folder/err")"
    checks=$((checks + 1))
}

# A client whose clock began anew is warned, by its year. What it does is as ever.
clocks_that_began_anew() {
    local db=$folder/anew.db out=$folder/anew.out moment said='set it first: before that what has expired is taken for live'
    wants 0 'begun\n' '' init --at=0 --db "$db" "$example/root.json"
    for moment in 0:1970 31535999:1970 31536000:1971 94694400:1973 1577836799:2019; do
        wants 3 '' "warning: the clock says ${moment#*:}: $said\nfault network\n" update --at="${moment%:*}" --db "$db" --port 1
        wants 1 '' "warning: the clock says ${moment#*:}: $said\ndenied 16 NoTimestamp\n" get --at="${moment%:*}" --db "$db" --port 1 --out "$out" hello.txt
    done
    wants 3 '' 'fault network\n' update --at=1577836800 --db "$db" --port 1
    wants 1 '' 'denied 16 NoTimestamp\n' get --at=1577836800 --db "$db" --port 1 --out "$out" hello.txt
}
