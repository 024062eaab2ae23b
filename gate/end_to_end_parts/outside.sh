# Keys and signatures of another tool. What 'sign' makes in a folder of its own is taken apart into raw bytes, and stands for what a hardware
# module or another program would give.

# raw_key NAME: the bytes of the public key in NAME.key.
raw_key() {
    python3 -c 'import json, sys; sys.stdout.buffer.write(bytes.fromhex(json.load(open(sys.argv[1]))["keyval"]["public"]))' "$1.key"
}

# raw_signature NAME FILE: the bytes of the key's signature in a document.
raw_signature() {
    python3 - "$(sha256sum <(head -c -1 "$1.key") | cut -c1-64)" "$2" <<'PYTHON'
import json, sys
keyid, file = sys.argv[1:]
(entry,) = [entry for entry in json.load(open(file))["signatures"] if entry["keyid"] == keyid]
sys.stdout.buffer.write(bytes.fromhex(entry["sig"]))
PYTHON
}

# raw HEX: these bytes.
raw() {
    python3 -c 'import sys; sys.stdout.buffer.write(bytes.fromhex(sys.argv[1]))' "$1"
}

# digits FILE: its bytes in hex.
digits() {
    python3 -c 'import sys; print(open(sys.argv[1], "rb").read().hex())' "$1"
}

# elsewhere NAME ROLE: the signature of the key over the draft, made in a folder that is then thrown away.
elsewhere() {
    rm -rf there && cp -r d there
    "$release" sign --at $now --key "$1" --in there --yes "$2" >"$folder/out" 2>"$folder/err" || fail "sign elsewhere: $(cat "$folder/err")"
    raw_signature "$1" "there/$2.json"
}

# attach_fails STATUS LINE LAST WORD ..: 'draft attach' ends so, and the folder is as it was.
attach_fails() {
    local before
    before=$(find d -type f -exec sha256sum {} + | sort)
    slip "$1" "$2" "$3" draft --at $now --in d attach "${@:4}"
    [ "$before" = "$(find d -type f -exec sha256sum {} + | sort)" ] || fail "a refused signature changed the folder: ${*:4}"
}

keys_and_signatures_of_another_tool() {
    local here=$PWD now=$at name
    mkdir -p "$folder/outside" && cd "$folder/outside"
    for name in device second online; do makes_key $name; done
    public_keys_of_another_tool
    draft_alone root root=2@device.key,second.key targets=online.key snapshot=online.key timestamp=online.key
    what_is_signed_is_printed
    signatures_that_are_refused
    signatures_are_attached
    a_key_of_two_levels
    cd "$here"
}

public_keys_of_another_tool() {
    local length='neither the 56 bytes of an LMS key nor the 60 of an HSS key; raw bytes are wanted, no digits'
    local types='its types are unknown: LMS with SHA-256 and 32 bytes is known (RFC 8554)' levels='its number of levels is not 1 to 8' key count
    raw_key device >device.public
    wants 0 "$(cat device.key)\n" '' key --at $at --public device.public
    key=$(digits device.public)
    for count in 1 2 8; do
        raw "0000000$count$key" >levels.public
        wants 0 "{\"keytype\":\"lms\",\"keyval\":{\"public\":\"0000000$count$key\"},\"scheme\":\"hss-sha256\"}\n" '' key --at $at --public levels.public
    done
    for count in 00000000 00000009 80000001; do
        raw "$count$key" >levels.public
        slip 1 "warning: levels.public: $levels" 'refused key' key --at $at --public levels.public
    done
    for count in 0000000400000003 0000000a00000003 0000000500000000 0000000500000005; do
        raw "$count${key:16}" >types.public
        slip 1 "warning: types.public: $types" 'refused key' key --at $at --public types.public
        raw "00000002$count${key:16}" >types.public
        slip 1 "warning: types.public: $types" 'refused key' key --at $at --public types.public
    done
    echo "$key" >digits.public
    head -c 55 device.public >short.public
    head -c 300 /dev/zero >long.public
    for name in digits short long; do
        slip 1 "warning: $name.public: $length" 'refused key' key --at $at --public $name.public
    done
    slip 1 "warning: device.key: $length" 'refused key' key --at $at --public device.key
    slip 3 'release: no.public: No such file or directory (os error 2)' 'fault file' key --at $at --public no.public
}

# The bytes between "signed": and the last brace, and no file changes.
what_is_signed_is_printed() {
    local before
    before=$(find d -type f -exec sha256sum {} + | sort)
    "$release" draft --at $now --in d message root >message || fail 'no message'
    python3 -c 'import sys; text = open("d/root.json", "rb").read(); sys.stdout.buffer.write(text[text.index(b"\"signed\":") + 9:-1])' >wanted
    same 'what is signed' wanted message
    [ "$before" = "$(find d -type f -exec sha256sum {} + | sort)" ] || fail 'a printed message changed the folder'
    slip 1 'warning: targets: no draft of it' 'refused nothing' draft --at $now --in d message targets
    slip 1 'warning: ../d/root: no name of a role' 'refused nothing' draft --at $now --in d message ../d/root
    slip 3 'release: nowhere: No such file or directory (os error 2)' 'fault file' draft --at $now --in nowhere message root
    [ ! -e nowhere ] || fail 'a folder was made'
    cp d/root.json d/targets.json
    slip 1 "release: d/targets.json: denied; 'release help 4' says what to do" 'denied 4 WrongType' draft --at $now --in d message targets
    rm d/targets.json
}

signatures_that_are_refused() {
    local other='no signature of the draft by this key: '"'draft message' prints what is signed, and the file has the signature's raw bytes"
    elsewhere device root >signature
    attach_fails 1 'warning: root: no rule has this key for it' 'refused stranger' root --key online.key signature
    attach_fails 3 "release: signature: no key object: 'release key --new NAME' makes NAME.key" 'fault file' root --key signature signature
    attach_fails 3 "release: device.public: no key object: 'release key --new NAME' makes NAME.key" 'fault file' root --key device.public signature
    attach_fails 3 'release: no.key: No such file or directory (os error 2)' 'fault file' root --key no.key signature
    attach_fails 3 'release: no: No such file or directory (os error 2)' 'fault file' root --key device.key no
    attach_fails 1 'warning: targets: no draft of it' 'refused nothing' targets --key device.key signature
    # another key of the rule; the whole file in place of its signed part; a bit that is another; lengths
    attach_fails 1 "warning: signature: $other" 'refused different' root --key second.key signature
    python3 -c 'import sys; it = bytearray(open("signature", "rb").read()); it[1000] ^= 4; sys.stdout.buffer.write(it)' >ill
    attach_fails 1 "warning: ill: $other" 'refused different' root --key device.key ill
    head -c -1 signature >ill
    attach_fails 1 "warning: ill: $other" 'refused different' root --key device.key ill
    { cat signature && printf '\0'; } >ill
    attach_fails 1 "warning: ill: $other" 'refused different' root --key device.key ill
    digits signature >ill
    attach_fails 1 "warning: ill: $other" 'refused different' root --key device.key ill
    head -c 400000 /dev/zero >ill
    attach_fails 1 "warning: ill: $other" 'refused different' root --key device.key ill
    : >ill
    attach_fails 1 "warning: ill: $other" 'refused different' root --key device.key ill
    # over another draft: its version is the same, and its term another
    rm -rf other && cp -r d other
    "$release" draft --at $now --in other --expires 9d root root=2@device.key,second.key targets=online.key snapshot=online.key timestamp=online.key >/dev/null
    mkdir -p late && mv d late/d && mv other d
    attach_fails 1 "warning: signature: $other" 'refused different' root --key device.key signature
    rm -r d && mv late/d d
}

# The file is the one that 'sign' makes. A second signature stands after the first, and a key's own once more in the place of its older one.
signatures_are_attached() {
    local name
    elsewhere device root >signature
    "$release" draft --at $now --in d attach root --key device.key signature >"$folder/out" 2>"$folder/err" || fail "attach: $(cat "$folder/err")"
    same 'a signature of another tool' there/root.json d/root.json
    grep -q '^warning: root: no book keeps what this key has signed: ' "$folder/err" || fail 'that no book sees it is not told'
    is_told '  1 of 2 have signed'
    cp d/root.json once.json
    draft_alone attach root --key device.key signature
    same 'the same signature again' once.json d/root.json
    elsewhere second root >second.signature
    draft_alone attach root --key second.key second.signature
    same 'a second signature' there/root.json d/root.json
    draft_alone attach root --key device.key signature
    python3 - <<'PYTHON' || fail 'the key signed twice, or stands first'
import json
entries = [entry["keyid"] for entry in json.load(open("d/root.json"))["signatures"]]
assert len(entries) == 2 and entries[1] == json.load(open("once.json"))["signatures"][0]["keyid"], entries
PYTHON
    wants 0 'begun\n' '' init --at $now --db repository.db d/root.json
    # a key of two rules, of a delegated role and of a role in the root
    draft_alone targets --delegate 'tools=device.key:tools/*'
    attach_fails 1 'warning: targets: no rule has this key for it' 'refused stranger' targets --key device.key signature
    draft_alone targets --role tools
    elsewhere device tools >tools.signature
    draft_alone attach tools --key device.key tools.signature
    same 'the document of a delegated role' there/tools.json d/tools.json
}

# of_two_levels WHAT FILE: what `gate/straight.py` makes of a seed, the public key or its signature of a file by the second lower tree.
of_two_levels() {
    python3 - "$repository/gate" "$1" "$2" <<'PYTHON'
import sys
sys.dont_write_bytecode = True
gate, what, file = sys.argv[1:]
sys.path.insert(0, gate)
import straight
public, signature = straight.of_two_levels((2, 5), (1, 5), b"I" * 16, b"S" * 32, 33, open(file, "rb").read())
sys.stdout.buffer.write(public if what == "public" else signature)
PYTHON
}

# This program signs by keys of one level; of another tool it takes any.
a_key_of_two_levels() {
    rm -rf d
    of_two_levels public device.key >levels.public
    "$release" key --at $at --public levels.public >levels.key || fail 'no key object of two levels'
    draft_alone root root=levels.key targets=online.key snapshot=online.key timestamp=online.key
    "$release" draft --at $now --in d message root >message || fail 'no message'
    of_two_levels signature message >signature
    of_two_levels signature d/root.json >ill
    attach_fails 1 "warning: ill: no signature of the draft by this key: 'draft message' prints what is signed, and the file has the signature's raw bytes" \
        'refused different' root --key levels.key ill
    draft_alone attach root --key levels.key signature
    wants 0 'begun\n' '' init --at $now --db levels.db d/root.json
}
