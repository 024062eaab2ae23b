# An index that is begun, run and changed by drafts alone: no line of JSON is written by hand.

# Keys of height 5, which are made in no time. At the moment of the example.
makes_key() {
    "$release" key --at $at --new "$1" --ots "${ots:-4}" --height 5 >"$folder/id"
    [ "$(wc -c <"$folder/id")" = 65 ] || fail "key --new printed no ID"
    [ "$(sha256sum <(head -c -1 "$1.key") | cut -c1-64)" = "$(head -c 64 "$folder/id")" ] || fail "the ID is not its key's"
    checks=$((checks + 1))
}

# draft WORD ..: drafts into `d` at the moment, over the repository. Without a database: draft_alone.
draft() {
    "$release" draft --at $now --db repository.db --in d "$@" >"$folder/out" 2>"$folder/err" || fail "draft $*: $(cat "$folder/err")"
    checks=$((checks + 1))
}

draft_alone() {
    "$release" draft --at $now --in d "$@" >"$folder/out" 2>"$folder/err" || fail "draft $*: $(cat "$folder/err")"
    checks=$((checks + 1))
}

# signs KEY [WORD ..]
signs() {
    "$release" sign --at $now --key "$1" --in d --yes "${@:2}" >"$folder/out" 2>"$folder/err" || fail "sign $*: $(cat "$folder/err")"
    checks=$((checks + 1))
}

# slips WORD COMMAND ..: the command is refused for this, and no book changes.
slips() {
    local before behind
    before=$(cat ./*.book | sha256sum)
    ends_with 1 "refused $1" "${@:2}"
    behind=$(cat ./*.book | sha256sum)
    [ "$before" = "$behind" ] || fail "a book changed: $*"
}

# ends_with STATUS LINE WORD ..: the program ends so with these words, and this is its last line on standard error.
ends_with() {
    local status=0
    "$release" "${@:3}" >"$folder/out" 2>"$folder/err" || status=$?
    [ "$status" = "$1" ] || fail "${*:3}: status $status in place of $1: $(cat "$folder/err")"
    [ "$(tail -n 1 "$folder/err")" = "$2" ] || fail "${*:3}: $(cat "$folder/err")"
    checks=$((checks + 1))
}

is_told() {
    grep -qxF -- "$1" "$folder/out" || fail "not told: $1 in $(cat "$folder/out")"
    checks=$((checks + 1))
}

# eight: the first 8 digits of the SHA-256 of what comes in.
eight() {
    sha256sum | cut -c1-8
}

an_index_by_drafts() {
    local here=$PWD now=$at life=$folder/life
    mkdir -p "$life" && cd "$life"
    an_index_begins
    an_index_is_published
    an_index_goes_on
    a_team_sends_its_release
    a_layout_is_drafted
    it_is_shown
    what_is_on_its_way_stays
    slips_cost_no_leaf
    cd "$here"
}

an_index_begins() {
    local name
    for name in alice bob carol targets snapshot timestamp tools; do makes_key $name; done
    [ "$(stat -c %a alice.seed alice.book | sort -u)" = 600 ] || fail "a seed or a book is not its owner's alone"
    ends_with 1 'refused exists' key --at $at --new alice --ots 4 --height 5
    draft_alone root root=2@alice.key,bob.key,carol.key targets=targets.key snapshot=snapshot.key timestamp=timestamp.key
    is_told 'root 1 (held: 0), expires in 365 days'
    is_told '  0 of 2 have signed'
    is_told 'next: release sign --key alice --in d'
    cp -r d bobs
    signs alice
    is_told 'signed root with leaf 0 of 32'
    "$release" sign --at $now --key bob --in bobs --yes >/dev/null
    draft_alone take bobs/root.json
    is_told '  2 of 2 have signed'
    is_told 'next: release init --db DB d/root.json'
    is_told 'next: release draft --in d targets --add FILE'
    wants 0 'begun\n' '' init --at $now --db repository.db d/root.json
    slips order draft --at $now --db repository.db --in d seal
    [ ! -e d/snapshot.json ] || fail "a snapshot that lists nothing is drafted"
}

an_index_is_published() {
    echo hello >hello.txt
    mkdir tree && echo one >tree/one && mkdir tree/deep && echo two >tree/deep/two
    draft targets --add hello.txt --add files=tree --delegate tools=tools.key:tools/*
    is_told 'targets 1 (held: 0), expires in 90 days'
    is_told "  + hello.txt: 6 bytes, $(eight <hello.txt)"
    is_told "  + files/deep/two: 4 bytes, $(eight <tree/deep/two)"
    is_told '  + delegation to tools: 1 of 1 keys'
    is_told "  + delegation to tools key tools $(digits_of tools) (named by the draft)"
    is_told '  + delegation to tools paths[0]: "tools/*"'
    is_told '  + delegation to tools terminating: false'
    signs targets
    draft targets --role tools
    is_told 'next: release sign --key tools --in d'
    signs tools
    is_told 'signed tools with leaf 0 of 32'
    draft seal
    signs snapshot
    signs timestamp
    "$release" show --at $now --in d --db repository.db >"$folder/out"
    is_told ready
    wants 0 '{"accepted":4,"same":0}\n' '' publish --at $now --db repository.db --in d
    [ -z "$(ls d/files)" ] || fail "target files stay in the folder of drafts"
    [ "$(ls d)" = "$(printf 'files\nheld')" ] || fail "drafts stay in the folder"
    serves_target hello.txt
    serves_target files/deep/two tree/deep/two
}

# serves_target PATH [FILE]: the repository grants the target, whose file is this.
serves_target() {
    local port pid
    port=$(free_port)
    rm -f "$folder/listening"
    "$release" serve --at $now --db repository.db --port $port --count 1 >"$folder/listening" &
    pid=$!
    until [ -s "$folder/listening" ]; do sleep 0.05; done
    curl -s -o "$folder/served" "http://127.0.0.1:$port/targets/$1"
    wait $pid || true
    same "the target $1" "${2:-$1}" "$folder/served"
}

an_index_goes_on() {
    echo 'hello again' >hello.txt
    draft targets --add hello.txt --remove files/one
    is_told 'targets 2 (held: 1), expires in 90 days'
    is_told "  ~ hello.txt: 6 bytes, $(echo hello | eight), now 12 bytes, $(eight <hello.txt)"
    is_told '  ~ version: 1, now 2'
    is_told "  - files/one: 4 bytes, $(eight <tree/one)"
    signs targets
    draft seal
    is_told '  ~ targets 1, now 2'
    signs snapshot
    signs timestamp
    wants 0 '{"accepted":3,"same":0}\n' '' publish --at $now --db repository.db --in d
    serves_target hello.txt
    now=$((at + 86400))
    draft seal
    is_told 'timestamp 3 (held: 2), expires in 7 days'
    signs timestamp
    wants 0 '{"accepted":1,"same":0}\n' '' publish --at $now --db repository.db --in d
    ends_with 1 due show --at $now --db repository.db --due 7
    grep -qx 'release: timestamp: it expires in 7 days' "$folder/err" || fail "not told what is due: $(cat "$folder/err")"
    "$release" show --at $now --db repository.db --due 6 >"$folder/out"
    grep -q '^timestamp *3 *7 days' "$folder/out" || fail "no row of the timestamp: $(cat "$folder/out")"
    the_timestamps_key_changes
}

# Another key for the timestamp: what the repository forgets by it comes in again.
the_timestamps_key_changes() {
    makes_key timestamp2
    draft root timestamp=timestamp2.key
    is_told '  ~ timestamp: 1 of 1 keys, now 1 of 1 keys'
    is_told "  - timestamp key timestamp $(digits_of timestamp)"
    is_told "  + timestamp key timestamp2 $(digits_of timestamp2) (named by the draft)"
    is_told '  0 of 2 have signed by the rule of root 1'
    is_told '  0 of 2 have signed by the rule of root 2'
    ends_with 1 'refused order' draft --at $now --db repository.db --in d seal
    signs alice
    signs carol
    ends_with 1 'refused bare' publish --at $now --db repository.db --in d
    draft seal
    signs snapshot
    signs timestamp2
    wants 0 '{"accepted":5,"same":0}\n' '' publish --at $now --db repository.db --in d
    serves_target hello.txt
}

# The team of a delegated role works over a client's database, and sends its document and its files.
a_team_sends_its_release() {
    local port pid
    port=$(free_port)
    wants 0 'begun\n' '' init --at $now --db client.db d/held/root.json
    rm -f "$folder/listening"
    "$release" serve --at $now --db repository.db --port $port --count 20 >"$folder/listening" &
    pid=$!
    until [ -s "$folder/listening" ]; do sleep 0.05; done
    wants 0 'updated\n' '' update --at $now --db client.db --port $port
    kill $pid && wait $pid || true
    echo tool >fmt.bin
    "$release" draft --at $now --db repository.db --in t targets --role tools --add tools/fmt.bin=fmt.bin >"$folder/out"
    is_told "  + tools/fmt.bin: 5 bytes, $(eight <fmt.bin)"
    "$release" sign --at $now --key tools --in t --yes >"$folder/out"
    is_told 'signed tools with leaf 1 of 32'
    draft take t/tools.json
    draft seal
    signs snapshot
    signs timestamp2
    wants 0 '{"accepted":3,"same":0}\n' '' publish --at $now --db repository.db --in d
    serves_target tools/fmt.bin fmt.bin
}

# A target with a layout: two functionaries, each on a machine of its own, whose links come in as they are signed.
a_layout_is_drafted() {
    local name
    for name in owner builder packer; do makes_key $name; done
    echo script >tool.sh && echo archive >tool.tgz
    slips path draft --at $now --db repository.db --in d layout --target tool.tgz --owners owner.key build=builder.key:tool.sh
    draft targets --add tool.tgz
    printf 'build products ALLOW \377\n' >ill.rules
    ends_with 3 'fault file' draft --verbose --at $now --db repository.db --in d layout --target tool.tgz --owners owner.key --rules ill.rules build=builder.key:tool.sh
    grep -qx 'release: ill.rules: not UTF-8' "$folder/err" || fail "not told of the rules: $(cat "$folder/err")"
    [ ! -e d/layouts ] || fail "a layout is drafted by rules that are not UTF-8"
    draft layout --target tool.tgz --owners owner.key build=builder.key:tool.sh pack=packer.key:tool.tgz
    is_told 'layout of tool.tgz'
    is_told '  step build: 0 of 1 links'
    is_told '  0 of 1 have signed'
    is_told "next: release sign --key $(digits_of owner) --in d"
    a_folder_is_shown
    slips order draft --at $now --db repository.db --in d seal
    slips stranger sign --at $now --key builder --in d --yes tool.tgz.layout.json
    signs owner
    is_told 'signed layouts/tool.tgz.layout.json with leaf 0 of 32'
    cp d/layouts/tool.tgz.layout.json . && draft take tool.tgz.layout.json && rm tool.tgz.layout.json
    "$release" draft --at $now --in l link --step build --products tool.sh >"$folder/out"
    is_told 'link build.json'
    "$release" sign --at $now --key builder --in l --yes >"$folder/out"
    is_told 'signed links/build.json with leaf 0 of 32'
    ends_with 1 'refused nothing' sign --at $now --key builder --in l --yes
    "$release" draft --at $now --in m link --step pack --materials tool.sh >"$folder/out"
    "$release" draft --at $now --in m link --step pack --products tool.tgz >"$folder/out"
    "$release" sign --at $now --key packer --in m --yes >"$folder/out"
    slips path draft --at $now --db repository.db --in d take --target none l/links/build.json
    draft take l/links/build.json m/links/pack.json
    is_told '  step build: 1 of 1 links'
    is_told '  step pack: 1 of 1 links'
    signs targets
    draft seal
    signs snapshot
    signs timestamp2
    "$release" show --at $now --in d --db repository.db >"$folder/out"
    is_told ready
    a_ready_folder_is_shown
    wants 0 '{"accepted":3,"same":0}\n' '' publish --at $now --db repository.db --in d
    [ -z "$(ls d/layouts)" ] || fail "layouts stay in the folder of drafts"
    serves_target tool.tgz
}

# A root that is published alone takes away nothing that it does not list: neither a layout on its way nor a file that waits for its draft. A
# layout is drafted where drafted targets metadata list its target; these are taken away by hand, since they are not sealed.
what_is_on_its_way_stays() {
    local name digits
    cp -r d way && cp repository.db way.db
    "$release" draft --at $now --db way.db --in way targets --expires 80d >"$folder/out"
    "$release" draft --at $now --db way.db --in way layout --target tool.tgz --owners owner.key build=builder.key:tool.sh pack=packer.key:tool.tgz >"$folder/out"
    rm way/targets.json
    "$release" draft --at $now --db way.db --in way root --expires 300d >"$folder/out"
    for name in alice bob; do "$release" sign --at $now --key $name --in way --yes root >"$folder/out"; done
    digits=$(sha256sum <builder.key | cut -c1-64)
    cp builder.key "way/files/$digits"
    cp way/layouts/tool.tgz.layout.json on-its-way
    wants 0 '{"accepted":1,"same":0}\n' '' publish --at $now --db way.db --in way
    same "a layout on its way" on-its-way way/layouts/tool.tgz.layout.json
    same "a file that waits" builder.key "way/files/$digits"
    [ ! -e way/root.json ] || fail "what was published stands in the folder"
    rm -r way way.db* on-its-way
}

# What is held, as columns, as JSON, as a page, and a target with its search.
it_is_shown() {
    "$release" show --at $now --db repository.db --key timestamp2 >"$folder/out"
    grep -q '^root *2 *365 days  2 of 3  alice  bob  carol' "$folder/out" || fail "no row of the root: $(cat "$folder/out")"
    grep -q '^  tools *[0-9]* *[0-9]* days  1 of 1  tools  tools/\*' "$folder/out" || fail "no row of the delegation: $(cat "$folder/out")"
    grep -q '^timestamp *[0-9]* *[0-9]* days  1 of 1  timestamp2 2[0-9]' "$folder/out" || fail "no leaves: $(cat "$folder/out")"
    ends_with 3 'fault file' show --at $now --db repository.db --key none
    "$release" show --at $now --db repository.db --json >"$folder/out"
    it_is_data
    python3 -c 'import json, sys; it = json.load(open(sys.argv[1])); assert [r["role"] for r in it["rows"]] == ["root", "targets", "tools", "snapshot", "timestamp"], it' "$folder/out"
    "$release" show --at $now --db repository.db tools/fmt.bin >"$folder/out"
    is_told '  visit targets'
    is_told '  visit tools'
    is_told '  granted, 5 bytes'
    "$release" show --at $now --db repository.db tool.tgz >"$folder/out"
    is_told '  its layout: product of step pack'
    is_told '  granted, 8 bytes'
    a_chain_is_shown
    targets_are_listed
    what_has_expired_is_told
    visits_are_those_of_a_search
    ends_with 1 'denied 35 NotFound' show --at $now --db repository.db --html page.html tools/none
    is_told '  denied 35 NotFound'
    what_is_read_is_not_made
    checks=$((checks + 3))
    it_is_a_page
}

# A database whose name is mistyped: a command that only reads makes none.
what_is_read_is_not_made() {
    ends_with 3 'fault database' show --at $now --db typo.db
    ends_with 3 'fault database' show --at $now --in d --db typo.db
    ends_with 3 'fault database' draft --at $now --in d --db typo.db seal
    grep -q '^release: typo.db: ' "$folder/err" || fail "not told of the database: $(cat "$folder/err")"
    [ ! -e typo.db ] || fail "a database was made by reading it"
}

# The page that stands alone, as a browser shows it.
it_is_a_page() {
    ! grep -q -e '<script' -e 'http' page.html || fail "the page fetches or runs something"
    if ! command -v chromium >/dev/null; then return; fi
    chromium --headless --no-sandbox --disable-gpu --dump-dom "file://$PWD/page.html" >"$folder/dom" 2>/dev/null || fail "the page is not rendered"
    grep -q '<table id="tree">' "$folder/dom" || fail "no tree in the page"
    [ "$(grep -c 'class="bar' "$folder/dom")" -ge 5 ] || fail "no bars in the page"
    grep -q '<p class="denied">denied 35 NotFound</p>' "$folder/dom" || fail "no denial in the page"
    chromium --headless --no-sandbox --disable-gpu --screenshot="$folder/page.png" "file://$PWD/page.html" >/dev/null 2>&1 || fail "no picture of the page"
    [ "$(head -c 4 "$folder/page.png" | tail -c 3)" = PNG ] || fail "the picture is none"
    checks=$((checks + 4))
}

slips_cost_no_leaf() {
    draft targets --add hello.txt
    says 'yes' sign --at $now --key targets --in d </dev/null
    slips stranger sign --at $now --key alice --in d targets.json --yes
    slips nothing sign --at $now --key alice --in d --yes
    slips path draft --at $now --db repository.db --in d targets --remove none
    slips key draft --at $now --db repository.db --in d root targets=nobody
    slips past sign --at $((now + 100 * 86400)) --key targets --in d --yes
    mv targets.book away
    slips book sign --at $now --key targets --in d --yes
    cp away targets.book
    signs targets
    slips signed draft --at $now --db repository.db --in d targets --add tree/one
    draft targets --anew --add tree/one
    slips other sign --at $now --key targets --in d --yes
    signs targets --again
    cp targets.book newer
    cp away targets.book
    slips book sign --at $now --key targets --in d --yes targets
    cp newer targets.book
    rm d/files/*
    draft targets --anew --expires 80d
    slips file sign --at $now --key targets --in d --yes --again
    slips different draft --at $now --in d take t/held/targets.json
    ends_with 1 'denied 36 BadPath' draft --at $now --db repository.db --in d targets --add ./tree
    mkdir ill && echo ill >'ill/a+b' && echo ill >'ill/c~d' && echo fine >ill/fine
    ends_with 1 'denied 36 BadPath' draft --at $now --in d targets --add ill
    [ "$(grep -c '^warning: ill/[ac].[bd]: no target path' "$folder/err")" = 2 ] || fail "not all bad names are told: $(cat "$folder/err")"
    slips path draft --at $now --in d targets --anew --remove nothing.txt
    grep -qx 'warning: nothing.txt: not listed, or named twice' "$folder/err" || fail "not told of what is not listed: $(cat "$folder/err")"
    says 'TERM' draft --at $now --db repository.db --in d targets --expires soon --anew
    says 'ROLE=RULE' draft --at $now --db repository.db --in d root targets
    says 'cannot be used' draft --at $now --in d seal --add hello.txt
}
