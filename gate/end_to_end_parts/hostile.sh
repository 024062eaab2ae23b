# A folder of drafts that somebody else wrote: what is shown of it is what is signed, what it names is printed plainly, and nothing but its own
# regular files is read or sent.

# shows LINE ..: what is shown of the folder has these lines.
shows() {
    "$release" show --at $now --in d >"$folder/out"
    for line in "$@"; do is_told "$line"; done
}

# shows_by_hand ROLE CODE LINE ..: what is shown of a draft that is so changed. It stands there as before after that.
shows_by_hand() {
    cp "d/$1.json" "$folder/as_it_was"
    by_hand "d/$1.json" "$2"
    shows "${@:3}"
    cp "$folder/as_it_was" "d/$1.json"
}

# names_by_hand FILE NAME: each key of the document is called so, whatever the name has in it.
names_by_hand() {
    python3 - "$repository/model" "$@" <<'PYTHON'
import json, sys
sys.dont_write_bytecode = True
model, file, name = sys.argv[1:]
sys.path.insert(0, model)
import canonical_json
it = json.load(open(file))
it["signed"]["names"] = {keyid: name for keyid in it["signed"]["names"]}
open(file, "wb").write(canonical_json.write(it))
PYTHON
}

a_folder_from_somebody_else() {
    local here=$PWD now=$at name
    mkdir -p "$folder/hostile" && cd "$folder/hostile"
    for name in root online dev eve; do makes_key $name; done
    draft_alone root root=root.key targets=online.key snapshot=online.key timestamp=online.key
    signs root
    wants 0 'begun\n' '' init --at $now --db repository.db d/root.json
    echo one >a && echo two >b
    draft targets --add a --add b --delegate 'dev=dev.key:dev/*'
    signs online
    draft seal
    signs online
    wants 0 '{"accepted":3,"same":0}\n' '' publish --at $now --db repository.db --in d
    every_change_is_shown
    rules_stand_above_the_question
    names_are_printed_plainly
    what_is_no_file_is_refused
    nothing_else_is_sent
    false_entries_keep_nothing_out
    cd "$here"
}

# No change of a draft is without a line: members that are known, and members that are not.
every_change_is_shown() {
    local eve online
    eve=$(head -c -1 eve.key)
    online=$(digits_of online)
    draft targets
    shows_by_hand targets 'it["delegations"]["roles"][0]["paths"] = ["*"]' '  ~ delegation to dev paths[0]: "dev/*", now "*"'
    shows_by_hand targets 'it["delegations"]["roles"][0]["terminating"] = True' '  ~ delegation to dev terminating: false, now true'
    shows_by_hand targets 'it["expires"] = "2199-01-01T00:00:00Z"' '  ~ expires: "2030-04-01T00:00:00Z", now "2199-01-01T00:00:00Z"'
    shows_by_hand targets 'it["x"] = {"y": [1, "z"]}' '  + x.y[0]: 1' '  + x.y[1]: "z"'
    shows_by_hand targets 'it["targets"]["a"]["custom"] = {"note": None}' '  + a custom.note: null'
    shows_by_hand targets 'it["targets"]["a"]["length"] = 5' "  ~ a: 4 bytes, $(eight <a), now 5 bytes, $(eight <a)"
    shows_by_hand targets 'del it["targets"]["a"]' "  - a: 4 bytes, $(eight <a)"
    draft root
    shows_by_hand root 'it["roles"]["targets"]["threshold"] = 2; it["roles"]["targets"]["keyids"].append(it["roles"]["root"]["keyids"][0])' \
        '  ~ targets: 1 of 1 keys, now 2 of 2 keys' "  + targets key root $(digits_of root)"
    shows_by_hand root "import hashlib; key = json.loads('$eve'); id = hashlib.sha256('$eve'.encode()).hexdigest(); it['keys'][id] = key; it['names'][id] = 'online'; it['roles']['targets']['keyids'] = [id]" \
        '  ~ targets: 1 of 1 keys, now 1 of 1 keys' "  - targets key online $online" "  + targets key online $(digits_of eve) (named by the draft)"
}

# What is signed, and the rules that it has to meet, stand above the question, both rules of a root. Whoever answers no signs nothing.
rules_stand_above_the_question() {
    local before
    before=$(sha256sum root.book)
    { script -qec "$release sign --at $now --key root --in d root" /dev/null <<<n || true; } | tr -d '\r' >"$folder/out"
    is_told '~ version: 1, now 2'
    is_told "rule of root 1: 1 of root $(digits_of root)"
    is_told "rule of root 2: 1 of root $(digits_of root)"
    is_told 'sign root 2? [y/N]'
    is_told 'warning: d: nothing is signed: no question was answered by y'
    [ "$(sha256sum root.book)" = "$before" ] || fail "a book changes by a no"
    rm d/root.json
    checks=$((checks + 1))
}

# A name of a key may be any text: no line but its own, no order to a terminal, and no word of a shell's line. The digits are a word of '--key'.
names_are_printed_plainly() {
    local id
    id=$(digits_of online)
    names_by_hand d/held/root.json $'x\nready\e[2J\xe2\x80\xae; touch PWNED'
    "$release" show --at $now --in d >"$folder/out"
    is_told "next: release sign --key $id --in d"
    ! grep -qx ready "$folder/out" || fail "a name draws a line"
    on_a_terminal show --at $now --in d
    grep -qF '[ ] x\x0aready\x1b[2J\u{202e}; touch PWNED '"$id" "$folder/out" || fail "a name is not spelled: $(cat "$folder/out")"
    "$release" show --at $now --in d --json >"$folder/out"
    it_is_data
    it_holds '[(key["name"], key["id"][:8]) for key in it["drafts"][0]["rules"][0]["unsigned"]] == [("x\\x0aready\\x1b[2J\\u{202e}; touch PWNED", "'"$id"'")]'
    rm d/targets.json
    draft targets --add b
    slips key sign --at $now --key 00000000 --in d --yes
    signs "$id"
    same "what is printed" <(echo 'signed targets with leaf 3 of 32') "$folder/out"
}

# kinds PLACE: a pipe and a link at this place of the folder are a fault of a file, which is named and not waited for.
kinds() {
    local kind
    for kind in pipe link; do
        rm -rf e && cp -r d e && rm -rf "e/$1"
        if [ $kind = pipe ]; then mkfifo "e/$1"; else ln -s /etc/hostname "e/$1"; fi
        ends 3 '' "release: e/$1: no regular file, and no link is followed\nfault file\n" timeout 20 "$release" show --at $now --in e
        ends 3 '' "release: e/$1: no regular file, and no link is followed\nfault file\n" timeout 20 "$release" sign --at $now --key online --in e --yes targets
    done
}

what_is_no_file_is_refused() {
    local name
    cp -r d kept
    kinds targets.json
    kinds held/targets.json
    rm -rf e && cp -r d e && mv e/held elsewhere && ln -s ../elsewhere e/held
    ends 3 '' 'release: e/held: no folder, and no link is followed\nfault file\n' timeout 20 "$release" show --at $now --in e
    rm -rf elsewhere
    # A name that is no UTF-8 is passed over, and told.
    name=$(printf '\377.json')
    touch "d/$name"
    "$release" show --at $now --in d >"$folder/out" 2>"$folder/err"
    grep -qx 'warning: d: a name in it is no UTF-8, and is passed over' "$folder/err" || fail "not told: $(cat "$folder/err")"
    rm "d/$name"
    # What stands in an added folder is added where it is a file.
    mkdir -p tree && echo three >tree/c && ln -s /etc/hostname tree/l && mkfifo tree/p
    timeout 20 "$release" draft --at $now --in d targets --anew --add t=tree >"$folder/out" 2>"$folder/err" || fail "a folder with a link: $(cat "$folder/err")"
    is_told "  + t/c: 6 bytes, $(eight <tree/c)"
    ! grep -q 't/[lp]' "$folder/out" || fail "a link or a pipe is added"
    grep -qx 'warning: tree/l: a link or no file, which is passed by: name it to add it' "$folder/err" || fail "not told: $(cat "$folder/err")"
    mkfifo take.json
    ends 3 '' 'release: take.json: no regular file, and no link is followed\nfault file\n' timeout 20 "$release" draft --at $now --in d take take.json
    rm -rf d && mv kept d
    checks=$((checks + 3))
}

# What waits to be put is read with its digest in hand: neither another file nor what a link leads to is put, and no document goes.
nothing_else_is_sent() {
    local digits
    echo secret >secret
    echo four >four
    draft targets --anew --add four
    signs online --again
    draft seal
    signs online
    digits=$(sha256sum <four | cut -c1-64)
    rm -rf kept && cp -r d kept
    rm "d/files/$digits" && ln -s ../../secret "d/files/$digits"
    ends_with 3 'fault file' publish --at $now --db repository.db --in d
    rm "d/files/$digits" && cp secret "d/files/$digits"
    ends_with 1 'refused file' publish --at $now --db repository.db --in d
    rows repository.db 'SELECT count(*) FROM blob' '2\n'
    rm -rf d && mv kept d
    wants 0 '{"accepted":3,"same":0}\n' '' publish --at $now --db repository.db --in d
    rows repository.db 'SELECT count(*) FROM blob' '3\n'
}

# An entry that does not verify keeps no signature out, and one that adds nothing is told.
false_entries_keep_nothing_out() {
    draft targets --add b
    rm -rf real && cp -r d real
    "$release" sign --at $now --key online --in real --yes >"$folder/out"
    python3 - d/targets.json real/targets.json false.json <<'PYTHON'
import json, sys
drafted, real, false = sys.argv[1:]
it, other = json.load(open(drafted)), json.load(open(real))
entry = dict(other["signatures"][0])
entry["sig"] = entry["sig"][:8] + "00" * ((len(entry["sig"]) - 8) // 2)
it["signatures"] = [entry]
text = json.dumps(it, sort_keys=True, separators=(",", ":"))
open(drafted, "w").write(text)
open(false, "w").write(text)
PYTHON
    mkdir -p sent && mv false.json sent/targets.json
    draft take sent/targets.json
    grep -qx 'warning: sent/targets.json: it adds no signature of a key that has to sign' "$folder/err" || fail "not told: $(cat "$folder/err")"
    is_told '  0 of 1 have signed'
    draft take real/targets.json
    is_told '  1 of 1 have signed'
    same "the document with the signature" real/targets.json d/targets.json
}
