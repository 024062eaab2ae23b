# The whole life of an index by drafts, each key of its people and machines apart, and then its daily work. What 'show' says is next is what is done.

# machine NAME ..: keys, each made in a folder of its own, of which only the public half is sent.
machine() {
    local name
    for name in "$@"; do
        mkdir "$name"
        makes_key "$name/$name"
        cp "$name/$name.key" .
    done
}

# told_next COMMAND: 'show' says that this is next. It ends with status 1 where 'publish' would be denied at the moment.
told_next() {
    "$release" show --at $now --in d --db repository.db >"$folder/told" 2>"$folder/err" || [ $? = 1 ] || fail "show: $(cat "$folder/err")"
    grep -q "^next: release $1" "$folder/told" || fail "no '$1' is next: $(cat "$folder/told")"
    checks=$((checks + 1))
}

# goes_on KEY ..: these keys sign as 'show' says; 'seal' among them is the seal. Last it is ready, and is published.
goes_on() {
    local step
    for step in "$@"; do
        if [ "$step" = seal ]; then
            told_next 'draft --in d seal'
            draft seal
        else
            told_next "sign --key ${step##*/} --in d"
            signs "$step"
        fi
    done
    told_next 'publish --db repository.db --in d'
    grep -qx ready "$folder/told" || fail "not ready: $(cat "$folder/told")"
    "$release" publish --at $now --db repository.db --in d >"$folder/out" 2>"$folder/err" || fail "publish: $(cat "$folder/err")"
    [ ! -s "$folder/err" ] || fail "publish tells: $(cat "$folder/err")"
    cp "$folder/out" "$folder/published"
    ends_with 1 'refused nothing' publish --at $now --db repository.db --in d
}

# clients_get STATUS FILE PATH ..: a client that follows gets these targets, or is denied them. Of what it gets, the bytes are the file's.
clients_get() {
    local port pid path
    port=$(free_port)
    : >"$folder/listening"
    "$release" serve --at $now --db repository.db --port "$port" >"$folder/listening" 2>"$folder/serve.err" &
    pid=$!
    until [ -s "$folder/listening" ] || ! kill -0 $pid; do sleep 0.05; done
    wants 0 'updated\n' '' update --at $now --db client.db --port "$port"
    for path in "$@"; do
        if [ "${path%-}" != "$path" ]; then
            wants 1 '' 'denied 35 NotFound\n' get --at $now --db client.db --port "$port" --out got "${path%-}"
        else
            wants 0 'written\n' '' get --at $now --db client.db --port "$port" --out got "$path"
            same "the target $path" "files/$path" got
        fi
    done
    kill $pid
    wait $pid || true
}

an_index_lives() {
    a_life_is_typed
    local here=$PWD now=$at
    mkdir -p "$folder/lives" && cd "$folder/lives"
    everything_once
    a_file_has_versions
    the_team_works_over_its_client
    bob_leaves
    cron_renews_the_timestamp
    cd "$here"
}

# From nothing, with two of three root keys, a target with a layout, and a team: all of it is published together.
everything_once() {
    machine alice bob carol targets snapshot timestamp owner builder packer tools
    mkdir -p files/tools
    echo 'echo hello' >files/hello.sh && echo archive >files/tool.tgz && echo format >files/tools/fmt.bin
    cp files/hello.sh files/tool.tgz . && echo script >tool.sh
    draft_alone root root=2@alice.key,bob.key,carol.key targets=targets.key snapshot=snapshot.key timestamp=timestamp.key
    cp -r d from-bob
    signs alice/alice
    "$release" sign --at $now --key bob/bob --in from-bob --yes >"$folder/out"
    draft_alone take from-bob/root.json
    is_told '  2 of 2 have signed'
    wants 0 'begun\n' '' init --at $now --db repository.db d/root.json
    wants 0 'begun\n' '' init --at $now --db client.db d/root.json
    draft targets --add hello.sh --add tool.tgz --delegate 'tools=tools.key:tools/*'
    draft layout --target tool.tgz --owners owner.key build=builder.key:tool.sh pack=packer.key:tool.tgz
    cp -r d team
    signs owner/owner
    links_are_sent
    "$release" draft --at $now --in team targets --role tools --add tools/fmt.bin=files/tools/fmt.bin >"$folder/out"
    "$release" sign --at $now --key tools/tools --in team --yes >"$folder/out"
    draft take l/links/build.json m/links/pack.json team/tools.json
    goes_on targets/targets seal snapshot/snapshot timestamp/timestamp
    same "what 'publish' prints" <(echo '{"accepted":4,"same":0}') "$folder/published"
    clients_get hello.sh tool.tgz tools/fmt.bin
}

# Each functionary's machine has a folder of its own and sends the signed link.
links_are_sent() {
    "$release" draft --at $now --in l link --step build --products tool.sh >"$folder/out"
    "$release" sign --at $now --key builder/builder --in l --yes >"$folder/out"
    "$release" draft --at $now --in m link --step pack --materials tool.sh >"$folder/out"
    "$release" draft --at $now --in m link --step pack --products tool.tgz >"$folder/out"
    "$release" sign --at $now --key packer/packer --in m --yes >"$folder/out"
}

# Version 2 of a file; then the file is taken away.
a_file_has_versions() {
    echo 'echo hello again' >files/hello.sh && cp files/hello.sh .
    draft targets --add hello.sh
    is_told "  ~ hello.sh: 11 bytes, $(echo echo hello | eight), now 17 bytes, $(eight <hello.sh)"
    goes_on targets/targets seal snapshot/snapshot timestamp/timestamp
    clients_get hello.sh tool.tgz
    draft targets --remove hello.sh
    is_told "  - hello.sh: 17 bytes, $(eight <hello.sh)"
    goes_on targets/targets seal snapshot/snapshot timestamp/timestamp
    clients_get hello.sh- tool.tgz
}

# The team drafts over the database of its client, and sends its document with the files.
the_team_works_over_its_client() {
    echo format 2 >files/tools/fmt.bin
    "$release" draft --at $now --db client.db --in t targets --role tools --add tools/fmt.bin=files/tools/fmt.bin >"$folder/out"
    is_told 'tools 2 (held: 1), expires in 90 days'
    is_told "  ~ tools/fmt.bin: 7 bytes, $(echo format | eight), now 9 bytes, $(eight <files/tools/fmt.bin)"
    spares 'refused stranger' sign --at $now --key targets/targets --in t --yes tools
    "$release" sign --at $now --key tools/tools --in t --yes >"$folder/out"
    draft take t/tools.json
    goes_on seal snapshot/snapshot timestamp/timestamp
    clients_get tools/fmt.bin
}

# Another root key: two of the old three and two of the new three sign. After it the key that left signs no root, and the new one does.
bob_leaves() {
    machine dave
    draft root root=2@alice,carol,dave.key
    is_told '  ~ root: 2 of 3 keys, now 2 of 3 keys'
    signs dave/dave
    signs alice/alice
    told_next 'sign --key carol --in d'
    goes_on carol/carol seal timestamp/timestamp
    "$release" show --at $now --db repository.db >"$folder/out"
    grep -q '^root *2 *365 days  2 of 3  alice  carol  dave' "$folder/out" || fail "no row of the root: $(cat "$folder/out")"
    draft root
    spares 'refused stranger' sign --at $now --key bob/bob --in d --yes root
    goes_on alice/alice dave/dave seal timestamp/timestamp
    clients_get tool.tgz
}

# The line for 'cron': without a terminal and without an environment.
by_cron() {
    env -i /bin/sh -c '
        "$1" draft --at "$2" --db repository.db --in d seal &&
        "$1" sign --at "$2" --key timestamp/timestamp --in d --yes &&
        "$1" publish --at "$2" --db repository.db --in d' cron "$release" $now </dev/null >"$folder/out" 2>"$folder/err"
}

# The timestamp is renewed. Where the snapshot expires within a day, the timestamp's key signs nothing before the snapshot's has.
cron_renews_the_timestamp() {
    now=$((at + 6 * 86400))
    ends_with 1 due show --at $now --db repository.db --due 2
    by_cron || fail "by cron: $(cat "$folder/err")"
    is_told '{"accepted":1,"same":0}'
    is_not_due
    now=$((at + 29 * 86400 + 3600))
    ! by_cron || fail "by cron, where the snapshot is due"
    same "what cron is told where the snapshot is due" <(echo 'refused order') <(tail -n 1 "$folder/err")
    goes_on snapshot/snapshot timestamp/timestamp
    is_not_due
}

is_not_due() {
    "$release" show --at $now --db repository.db --due 2 >"$folder/out" || fail "due after its renewal: $(cat "$folder/out")"
    clients_get tool.tgz
}

# A whole life of a small index as somebody types it at a terminal, with names of their own choice: two of three root keys, a target with a layout of two
# steps, a team's delegation, and all of it published. Counted with short names and an answer to each question, it is below the thousand characters of
# five minutes at forty words a minute.
a_life_is_typed() {
    local here=$PWD line typed
    mkdir -p "$folder/typed" && cd "$folder/typed"
    cp "$repository/gate/end_to_end_parts/life.txt" .
    echo 'echo hello' >hello.sh && echo archive >tool.tgz && echo script >tool.sh && echo format >fmt
    while read -r line; do
        eval "\"$release\" ${line#release } $(typed_words "$line")" >"$folder/out" 2>"$folder/err" </dev/null || fail "$line: $(cat "$folder/err")"
        checks=$((checks + 1))
    done <life.txt
    is_told '  granted, 8 bytes'
    typed=$(short_names <life.txt | wc -c)
    typed=$((typed + 2 * $(grep -c '^release sign ' life.txt) + 2 * $(grep -c ' --key [^ ]* --key ' life.txt)))
    [ "$typed" -lt 1000 ] || fail "$typed characters are typed"
    cd "$here"
}

# typed_words LINE: what stands after it here, where nobody is asked and keys are made in no time.
typed_words() {
    case $1 in
        'release sign '*) echo --yes ;;
        'release key '*) echo --ots "${ots:-4}" --height 5 ;;
    esac
}

# The same with the names of keys shortened to one letter or two.
short_names() {
    sed -E 's/\b(alice|bob|carol|owner|builder|packer)\b/x/g; s/ targets snapshot timestamp / x x x /; s/(targets|snapshot|timestamp|tools)\.key/x.key/g
        s/packer tools$/x x/; s/ x tools$/ x x/; s/--key (targets|snapshot|timestamp|tools)/--key x/g'
}
