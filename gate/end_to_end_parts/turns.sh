# Several keys of one role: each document is signed by one of them, in the order of a list, and what they have left is counted together.

several_keys_in_turn() {
    local here=$PWD now=$at name
    mkdir -p "$folder/turns" && cd "$folder/turns"
    for name in root first second third fourth fifth other; do makes_key $name; done
    "$release" key --at $at --new deep --ots 1 --height 5 --levels 2 >"$folder/id" || fail 'no key of two levels'
    name=first.key,second.key,third.key,deep.key,fourth.key,fifth.key
    draft_alone root root=root.key targets=root.key snapshot=$name timestamp=$name
    signs root
    wants 0 'begun\n' '' init --at $now --db repository.db d/root.json
    : >hello && draft targets --add hello && signs root
    draft seal
    the_first_key_signs
    its_last_leaf_is_signed_by_again
    the_second_key_signs
    one_runs_out_in_between
    leaves_are_counted_together
    none_has_a_leaf
    one_of_two_levels_in_turn
    another_document_of_a_version
    slips_of_several_keys
    cd "$here"
}

# signs_any LIST TEXT [WORD ..]: `sign --any` of the folder of drafts prints this.
signs_any() {
    "$release" sign --at $now --any "$1" --in d --yes "${@:3}" >"$folder/out" 2>"$folder/err" || fail "sign --any $1: $(cat "$folder/err")"
    printf "$2" >"$folder/out.wanted"
    same "what 'sign --any $1' prints" "$folder/out.wanted" "$folder/out"
}

# is_published N: the folder is published, N documents of it new.
is_published() {
    wants 0 '{"accepted":'"$1"',"same":0}\n' '' publish --at $now --db repository.db --in d
}

# signs_again LIST TEXT: the timestamp, whose signature a killed run did not write, gets the same one again, and no other.
signs_again() {
    cp d/timestamp.json signed
    sed -i 's/"signatures":\[[^]]*\]/"signatures":[]/' d/timestamp.json
    signs_any "$1" "$2"
    same "what is signed again by one of $1" signed d/timestamp.json
}

# A list with a key that no rule has spends no leaf. The first key signs as long as it has leaves, and what it signed is signed.
the_first_key_signs() {
    spares 'refused stranger' sign --at $now --any first,other --in d --yes
    names 'warning: other: no rule has this key for snapshot'
    spares 'refused stranger' sign --at $now --any first,root --in d --yes timestamp
    names 'warning: root: no rule has this key for timestamp'
    signs_any first,second,third 'signed snapshot with leaf 0 of 32\nsigned timestamp with leaf 1 of 32\n'
    spares 'refused nothing' sign --at $now --any second,first --in d --yes
    signs_again first,second,third 'signed timestamp with leaf 1 of 32\n'
    signs_any second,first 'signed timestamp with leaf 1 of 32\n' timestamp
    is_published 3
}

# The last leaf of the first key: a second run gets it again, and takes no other key.
its_last_leaf_is_signed_by_again() {
    keeps_leaves first 2 30
    now=$((now + 60)) && draft seal
    signs_any first,second,third 'signed timestamp with leaf 31 of 32\n'
    signs_again first,second,third 'signed timestamp with leaf 31 of 32\n'
    signs_any second,third,first 'signed timestamp with leaf 31 of 32\n' timestamp
    is_published 1
}

the_second_key_signs() {
    now=$((now + 60)) && draft seal
    signs_any first,second,third 'signed timestamp with leaf 0 of 32\n'
    signs_again third,first,second 'signed timestamp with leaf 0 of 32\n'
    [ "$(grep -o '"keyid"' d/timestamp.json | wc -l)" = 1 ] || fail 'two of several keys signed one timestamp'
    is_published 1
}

# The last leaf of a key signs the snapshot, and the next key the timestamp.
one_runs_out_in_between() {
    keeps_leaves second 1 30
    now=$((now + 60)) && : >more && draft targets --add more && signs root
    draft seal
    signs_any first,second,third 'signed snapshot with leaf 31 of 32\nsigned timestamp with leaf 0 of 32\n'
    is_published 3
}

# shows_leaves WORD ..: what is due by the leaves that are left.
shows_leaves() {
    "$release" show --at $now --db repository.db --due 0 "$@" >"$folder/out" 2>"$folder/err"
}

# One of the keys is enough, so what they have left is counted together, once two of them are named; what one has is told as it always was.
leaves_are_counted_together() {
    local all=(--key first --key second --key third)
    shows_leaves "${all[@]}" || fail "due with 31 leaves of 96: $(cat "$folder/out")"
    [ "$(grep -c '^\(snapshot\|timestamp\) .* 1 of 6  .*  together 31 of 96$' "$folder/out")" = 2 ] || fail "the leaves of three keys: $(cat "$folder/out")"
    ! grep -q '!' "$folder/out" || fail "a key is marked that signs together with others: $(cat "$folder/out")"
    shows_leaves "${all[@]}" --json || fail "due as JSON: $(cat "$folder/out")"
    it_is_data
    python3 - "$folder/out" <<'PYTHON' || fail "the leaves of three keys as JSON: $(cat "$folder/out")"
import json, sys
rows = {row["role"]: row for row in json.load(open(sys.argv[1]))["rows"]}
assert rows["timestamp"]["together"] == {"left": 31, "most": 96}, rows
assert sorted(key.get("left", -1) for key in rows["timestamp"]["keys"]) == [-1, -1, -1, 0, 0, 31], rows
assert "together" not in rows["targets"], rows
PYTHON
    shows_leaves --key third || fail "due with 31 leaves of 32: $(cat "$folder/out")"
    ! grep -q together "$folder/out" || fail 'one key is counted together'
    ends_with 1 due show --at $now --db repository.db --due 0 --key first
    grep -q '^timestamp .*  first 0 !' "$folder/out" || fail "the leaves of a spent key: $(cat "$folder/out")"
    keeps_leaves third 1 8
    ends_with 1 due show --at $now --db repository.db --due 0 "${all[@]}" --html page.html
    [ "$(grep -c '  together 23 of 96 !$' "$folder/out")" = 2 ] || fail "few leaves of three keys: $(cat "$folder/out")"
    grep -q '23 together</div>' page.html || fail 'the page lacks the leaves of three keys'
    checks=$((checks + 7))
}

none_has_a_leaf() {
    local before
    keeps_leaves third 9 31
    now=$((now + 60)) && draft seal
    before=$(books)
    wants 1 '' "release: first: all its 32 leaves are spent\nrelease: second: all its 32 leaves are spent\nrelease: third: all its 32 leaves are spent\nrelease: timestamp: no key of the list has a leaf left: make one by 'release key --new NAME', and put it into the rule by 'release draft'\nleaves spent\n" \
        sign --at $now --any first,second,third --in d --yes
    [ "$(books)" = "$before" ] || fail 'a book changed, all of whose leaves are spent'
}

one_of_two_levels_in_turn() {
    signs_any first,second,deep,third 'signed timestamp with leaf 0 of 1024\n'
    signs_again third,deep 'signed timestamp with leaf 0 of 1024\n'
    is_published 1
    now=$((now + 60)) && draft seal
    signs_any deep,first 'signed timestamp with leaf 1 of 1024\n'
    is_published 1
}

# Another key of the list has signed another timestamp of this version: none signs this one, if that is not asked for.
another_document_of_a_version() {
    now=$((now + 60)) && draft seal
    signs_any fourth 'signed timestamp with leaf 0 of 32\n'
    now=$((now + 60)) && draft seal --anew
    spares 'refused other' sign --at $now --any fifth,fourth --in d --yes
    names 'warning: fourth: the key has signed another document of this kind and version; --again goes on'
    signs_any fifth,fourth 'signed timestamp with leaf 0 of 32\n' --again
    is_published 1
}

slips_of_several_keys() {
    says "'key' cannot be used with '--any <NAME" sign --any first --key second --in d --yes
    says "'book' cannot be used with '--any <NAME" sign --any first --book b --in d --yes
    says '--in' sign --any first --yes
    wants 3 '' 'fault file\n' sign --at $now --any first, --in d --yes
    slip 1 'warning: none.book: no such book' 'refused book' sign --at $now --any "$(no_book)" --in d --yes
}

# The name of a key whose book is gone.
no_book() {
    cp other.key none.key && cp other.seed none.seed
    echo first,none
}
