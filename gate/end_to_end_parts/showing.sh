# What a folder of drafts has, as JSON, as a page and on a terminal; and the layout of a target as its chain. In the folder of an index.

# it_is_data: what 'show --json' printed is of the shapes of docs/show.schema.json.
it_is_data() {
    python3 "$repository/gate/show_schema.py" "$folder/out" || fail "the JSON is of another shape: $(cat "$folder/out")"
    checks=$((checks + 1))
}

# it_holds CODE: so does the value `it` that was printed.
it_holds() {
    python3 -c "import json, sys; it = json.load(open(sys.argv[1])); assert $1, it" "$folder/out" || fail "the JSON has not $1"
    checks=$((checks + 1))
}

# on_a_terminal WORD..: what the program prints there, with a mark in the place of each escape.
on_a_terminal() {
    script -qec "$release $*" /dev/null | tr -d '\r' | sed 's/\x1b\[/<ESC>/g' >"$folder/out"
}

# A layout of two steps that nobody has signed, over a draft that lists another target.
a_folder_is_shown() {
    local builder packer targets owner
    builder="builder $(digits_of builder)" packer="packer $(digits_of packer)" targets="targets $(digits_of targets)" owner=$(digits_of owner)
    "$release" show --at $now --in d --json >"$folder/out"
    it_is_data
    it_holds '[d["role"] for d in it["drafts"]] == ["targets"] and "answer" not in it'
    it_holds 'any(change.startswith("+ tool.tgz") for change in it["drafts"][0]["changes"])'
    it_holds '[(l["target"], [(s["name"], s["links"], s["threshold"], [k["name"] + " " + k["id"][:8] for k in s["keys"]]) for s in l["steps"]]) for l in it["layouts"]] == [("tool.tgz", [("build", 0, 1, ["'"$builder"'"]), ("pack", 0, 1, ["'"$packer"'"])])]'
    it_holds 'it["drafts"][0]["rules"] == [{"met": False, "signed": [], "threshold": 1, "unsigned": [{"id": "'"$(id_of targets)"'", "name": "targets", "new_name": False}]}]'
    it_holds 'it["drafts"][0]["days"] == 90 and it["drafts"][0]["expires"] == it["now"] + 90 * 86400'
    it_holds 'it["next"] == [["release", "sign", "--key", "'"$owner"'", "--in", "d"]]'
    on_a_terminal show --at $now --in d
    grep -q '^<ESC>32m  + tool.tgz' "$folder/out" || fail "a change without its colour: $(cat "$folder/out")"
    grep -q '^<ESC>31m  \[build\]  0 of 1 links  '"$builder"'<ESC>0m$' "$folder/out" || fail "no chain: $(cat "$folder/out")"
    grep -q '^    +-> tool.tgz$' "$folder/out" || fail "the chain has no end: $(cat "$folder/out")"
    grep -q '^  0 of 1 have signed<ESC>31m  \[ \] '"$targets"'<ESC>0m$' "$folder/out" || fail "no gap: $(cat "$folder/out")"
    "$release" show --at $now --in d --html drafts.html >"$folder/out"
    is_told 'layout of tool.tgz'
    ! grep -q -e '<script' -e 'http' drafts.html || fail "the page fetches or runs something"
    grep -q '<table id="drafts">' drafts.html || fail "no drafts in the page"
    grep -q '<p class="chain"><span class="step due"><b>build</b> 0 of 1 links '"$builder"'</span>' drafts.html || fail "no chain in the page"
    checks=$((checks + 7))
}

# The same folder when it is signed and sealed.
a_ready_folder_is_shown() {
    "$release" show --at $now --in d --db repository.db --json --html drafts.html >"$folder/out"
    it_is_data
    it_holds 'it["answer"] == {"at": None, "denied": None, "ready": True} and it["next"] == [["release", "publish", "--db", "repository.db", "--in", "d"]]'
    it_holds '[s["links"] for s in it["layouts"][0]["steps"]] == [1, 1]'
    it_holds 'it["drafts"][0]["rules"] == [{"met": True, "signed": [{"id": "'"$(id_of targets)"'", "name": "targets", "new_name": False}], "threshold": 1, "unsigned": []}]'
    grep -q '<p id="answer" class="granted">ready</p>' drafts.html || fail "the page does not say that it is ready"
    if command -v chromium >/dev/null; then
        chromium --headless --no-sandbox --disable-gpu --dump-dom "file://$PWD/drafts.html" >"$folder/dom" 2>/dev/null || fail "the page is not rendered"
        grep -q '<span class="step"><b>pack</b> 1 of 1 links packer '"$(digits_of packer)"'</span>' "$folder/dom" || fail "no chain in the page that is rendered"
        checks=$((checks + 1))
    fi
    # After the expiry of the root it is denied, and the page and the object say for what.
    ends_with 1 'denied 11 RootExpired at 0' show --at $((now + 400 * 86400)) --in d --db repository.db --json --html drafts.html
    it_is_data
    it_holds 'it["answer"] == {"at": 0, "denied": {"name": "RootExpired", "number": 11}, "ready": False}'
    it_holds '{d["role"]: (d["days"], d["expires"] - it["now"]) for d in it["drafts"]}["timestamp"] == (-393, -393 * 86400)'
    [ "$("$release" show --at $((now + 400 * 86400)) --in d | grep '^timestamp ')" = "$("$release" show --at $now --in d | sed -n 's/^\(timestamp .*, \)expires in 7 days$/\1expired 393 days ago/p')" ] || fail "not told since when a draft has expired"
    grep -q '<p id="answer" class="denied">denied 11 RootExpired at 0</p>' drafts.html || fail "the page does not say what denies it"
    checks=$((checks + 2))
}

# A target with its layout, which is granted.
a_chain_is_shown() {
    "$release" show --at $now --db repository.db tool.tgz >"$folder/out"
    is_told '  step build: 1 of 1 links'
    is_told '  step pack: 1 of 1 links'
    "$release" show --at $now --db repository.db --json tool.tgz >"$folder/out"
    it_is_data
    it_holds '[(s["name"], [k["id"] for k in s["keys"]], s["links"]) for s in it["target"]["steps"]] == [("build", ["'"$(id_of builder)"'"], 1), ("pack", ["'"$(id_of packer)"'"], 1)]'
    it_holds 'it["target"]["granted"] and it["target"]["denied"] is None and it["target"]["visits"] == ["targets"]'
    it_holds 'it["target"]["listed"] == {"length": 8, "role": "targets", "sha256": "'"$(sha256sum <tool.tgz | cut -c1-64)"'"}'
    it_holds 'it["target"]["layout"]["path"] == "tool.tgz.layout.json" and it["target"]["layout"]["step"] == "pack" and len(it["target"]["layout"]["links"]) == 2'
    on_a_terminal show --at $now --db repository.db tool.tgz
    grep -q '^<ESC>32m  \[pack\]  1 of 1 links  packer '"$(digits_of packer)"'<ESC>0m$' "$folder/out" || fail "no chain of the target: $(cat "$folder/out")"
    grep -q '^<ESC>32m\.\{8\}<ESC>0m  target files [1-9][0-9]* of 4096$' "$folder/out" || fail "no bar of a limit: $(cat "$folder/out")"
    "$release" show --at $now --db repository.db --html page.html tool.tgz >"$folder/out"
    is_told 'roles 2 of 128'
    grep -qx '<tr><td>roles</td><td>2 of 128</td></tr>' page.html || fail "no limits in the page"
    grep -q '<span class="step"><b>build</b> 1 of 1 links builder '"$(digits_of builder)"'</span>' page.html || fail "no chain in the page of the target"
    checks=$((checks + 4))
}

# list_line PATH FILE ROLE: the line of a target in a list.
list_line() {
    echo "$1 $(wc -c <"$2") $(sha256sum <"$2" | cut -c1-64) $3"
}

# The targets of the index, with length, digest and role, in the order of their paths; and what denies one.
targets_are_listed() {
    "$release" show --at $now --db repository.db --list >"$folder/out"
    is_told "$(list_line hello.txt hello.txt targets)"
    is_told "$(list_line files/deep/two tree/deep/two targets)"
    is_told "$(list_line tools/fmt.bin fmt.bin tools)"
    is_told "$(list_line tool.tgz tool.tgz targets)"
    [ "$(wc -l <"$folder/out")" = 7 ] || fail "other targets than four, a layout and two links: $(cat "$folder/out")"
    same "the order of the targets" <(LC_ALL=C sort "$folder/out") "$folder/out"
    "$release" show --at $now --db repository.db --list --json >"$folder/out"
    it_is_data
    it_holds '[t["path"] for t in it if t["role"] == "tools"] == ["tools/fmt.bin"] and not any(t["denied"] for t in it)'
    "$release" show --at $((now + 8 * 86400)) --db repository.db --list >"$folder/out"
    is_told 'hello.txt - - - denied 15 TimestampExpired'
    : >none.db
    ends_with 1 'denied 6 NoRoot' show --at $now --db none.db --list
    ends_with 3 'fault database' show --at $now --db typo.db --list
    checks=$((checks + 1))
    a_file_is_missing
}

# Of the example one file of two is put.
a_file_is_missing() {
    local role
    local -a offered
    for role in timestamp snapshot targets; do offered+=("$role:$example/$role.json"); done
    "$release" init --at "$at" --db half.db "$example/root.json" >"$folder/out"
    "$release" publish --at "$at" --db half.db "${offered[@]}" >"$folder/out"
    "$release" put --at "$at" --db half.db "$example/hello.txt" >"$folder/out"
    "$release" show --at "$at" --db half.db --list >"$folder/out"
    same "a list without a file" <(
        echo "$(list_line empty.txt "$example/empty.txt" targets) denied 37 BlobMissing"
        list_line hello.txt "$example/hello.txt" targets
    ) "$folder/out"
    "$release" show --at "$at" --db half.db --list --json >"$folder/out"
    it_is_data
    it_holds '[t["denied"] for t in it] == [{"name": "BlobMissing", "number": 37}, None]'
}

# What has expired, here the timestamp a day ago, is told so wherever days are.
what_has_expired_is_told() {
    local then=$((now + 8 * 86400))
    "$release" show --at $then --db repository.db --html gone.html >"$folder/out"
    grep -q '^timestamp *[0-9]* expired 1 days ago  1 of 1  ' "$folder/out" || fail "not told that the timestamp has expired: $(cat "$folder/out")"
    grep -q '</span>expired 1 days ago</td>' gone.html || fail "the page does not say that the timestamp has expired"
    on_a_terminal show --at $then --db repository.db
    [ "$(grep -c 'expired 1 days ago  <ESC>31m' "$folder/out")" = 2 ] || fail "a terminal is not told that the timestamp has expired: $(cat "$folder/out")"
    "$release" show --at $then --db repository.db --json >"$folder/out"
    it_is_data
    it_holds '{r["role"]: (r["days"], r["due"]) for r in it["rows"]}["timestamp"] == (-1, True)'
    ends_with 1 due show --at $then --db repository.db --due 0
    grep -qx 'release: timestamp: it expired 1 days ago' "$folder/err" || fail "not told why it is due: $(cat "$folder/err")"
    "$release" show --at $((then - 86400 - 1)) --db repository.db --json >"$folder/out"
    it_holds '{r["role"]: r["days"] for r in it["rows"]}["timestamp"] == 0'
    "$release" show --at $((then - 86400)) --db repository.db --json >"$folder/out"
    it_holds '{r["role"]: r["days"] for r in it["rows"]}["timestamp"] == -1'
    checks=$((checks + 4))
}

# A target that a search does not come to, since it makes all of its visits before.
visits_are_those_of_a_search() {
    local said
    said=$(python3 "$repository/gate/shown_visits.py" "$release") || fail "show over all visits: $said"
    checks=$((checks + said))
}
