# Keys of two levels that the tool makes: an index whose timestamp's key goes through three trees, the guards of its book, and that no one-time
# key signs twice.

keys_of_two_levels() {
    local here=$PWD now=$at count
    mkdir -p "$folder/levels" && cd "$folder/levels"
    for name in root online; do makes_key $name; done
    ots=4 of_two_levels_is_made
    draft_alone root root=root.key targets=online.key snapshot=online.key timestamp=often.key
    signs root
    wants 0 'begun\n' '' init --at $now --db repository.db d/root.json
    : >hello && draft targets --add hello && signs online
    draft seal && signs online snapshot
    signs often
    grep -qx 'signed timestamp with leaf 0 of 1024' "$folder/out" || fail "the first leaf of two levels: $(cat "$folder/out")"
    the_same_document_again
    another_document_of_the_version
    wants 0 '{"accepted":3,"same":0}\n' '' publish --at $now --db repository.db --in d
    for count in $(seq 1 66); do
        now=$((now + 60))
        draft seal && signs often
        cp d/timestamp.json "seen.$count"
        grep -qx "signed timestamp with leaf $count of 1024" "$folder/out" || fail "leaf $count of two levels: $(cat "$folder/out")"
        wants 0 '{"accepted":1,"same":0}\n' '' publish --at $now --db repository.db --in d
    done
    leaves_of_two_levels
    no_one_time_key_twice
    an_older_book_of_two_levels
    slips_of_two_levels
    cd "$here"
}

of_two_levels_is_made() {
    "$release" key --at $at --new often --ots 1 --height 5 --levels 2 >"$folder/id" || fail 'no key of two levels'
    [ "$(sha256sum <(head -c -1 often.key) | cut -c1-64)" = "$(head -c 64 "$folder/id")" ] || fail "the ID of two levels is not its key's"
    grep -q '"scheme":"hss-sha256"' often.key || fail 'no key of the scheme hss-sha256'
    [ "$(stat -c %a often.seed)$(stat -c %a often.book)" = 600600 ] || fail 'the files of a key of two levels are readable by others'
    checks=$((checks + 1))
}

# The same document gets the same bytes, and no leaf.
the_same_document_again() {
    cp d/timestamp.json first
    slip 1 "warning: d: no document that the key may sign and has not signed" 'refused nothing' sign --at $now --key often --in d --yes
    same 'the document of two levels' first d/timestamp.json
}

# Another timestamp of this version is refused in whatever tree, and costs no leaf.
another_document_of_the_version() {
    cp -r d other
    python3 - other/timestamp.json <<'PYTHON'
import json, sys
file = json.load(open(sys.argv[1]))
file["signatures"] = []
file["signed"]["expires"] = "2099-01-01T00:00:00Z"
open(sys.argv[1], "w").write(json.dumps(file, sort_keys=True, separators=(",", ":")))
PYTHON
    rm -rf other/held/timestamp.json
    slip 1 'warning: timestamp: the key has signed another document of this kind and version; --again goes on' 'refused other' \
        sign --at $now --key often --in other --yes
    rm -rf other
}

# 67 leaves of 1,024 are used: 32 of two trees and 3 of the third.
leaves_of_two_levels() {
    "$release" show --at $now --db repository.db --key often >"$folder/out" 2>"$folder/err" || fail "show --key of two levels: $(cat "$folder/err")"
    grep -q '^timestamp .* 1 of 1  often 957$' "$folder/out" || fail "the leaves left of two levels: $(cat "$folder/out")"
    checks=$((checks + 1))
}

# By (I, q), of the top tree and of those below, each message once, in all signatures that were made.
no_one_time_key_twice() {
    python3 - first seen.* <<'PYTHON' || fail 'a one-time key signs twice'
import hashlib, json, sys

CHAINS = {1: 265, 2: 133, 3: 67, 4: 34}
signed = {}
for name in sys.argv[1:]:
    text = open(name, "rb").read()
    file = json.loads(text)
    (entry,) = file["signatures"]
    sig = bytes.fromhex(entry["sig"])
    part = text[text.index(b'"signed":') + 9:-1]
    top = json.load(open("often.key"))["keyval"]["public"]
    public = bytes.fromhex(top)[4:]
    assert sig[:4] == b"\0\0\0\1"
    rest = sig[4:]
    length = 12 + 32 * (CHAINS[int.from_bytes(public[4:8], "big")] + 1) + 32 * 5 * (int.from_bytes(public[:4], "big") - 4)
    first, lower, last = rest[:length], rest[length:length + 56], rest[length + 56:]
    for key, q, message in ((public[8:24], first[:4], lower), (lower[8:24], last[:4], part)):
        digest = hashlib.sha256(message).hexdigest()
        if signed.setdefault((key, q), digest) != digest:
            sys.exit(1)
assert len(signed) == 3 + len(sys.argv) - 1, len(signed)
PYTHON
    checks=$((checks + 1))
}

# A book that was copied back knows less than the folder, and is refused before it spends a leaf.
an_older_book_of_two_levels() {
    cp often.book kept.book
    now=$((now + 60))
    draft seal && signs often
    wants 0 '{"accepted":1,"same":0}\n' '' publish --at $now --db repository.db --in d
    cp kept.book often.book && rm -f often.book-wal
    now=$((now + 60))
    draft seal
    slip 1 'warning: often: leaf 67 of another book in held/timestamp.json: sign with the book that has this leaf, or replace the key by a new root' 'refused book' \
        sign --at $now --key often --in d --yes
}

slips_of_two_levels() {
    usage key --at $at --new other --levels 3
    usage key --at $at --new other --lower-height 5
    usage key --at $at --seed often.seed --ots 1 --height 5 --levels 2
    wants 2 '' "error: '--lower-ots' is 1, 2, 4 or 8\n" key --at $at --new other --levels 2 --lower-ots 3
    [ ! -e other.seed ] || fail 'a slip made a seed'
}
