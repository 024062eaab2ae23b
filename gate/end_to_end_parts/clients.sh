# A client: what it fetches, its faults, and what it tells.

# A client with the first root asks for five names in all, over five connections, and then has the file; the same again asks for nothing.
a_client_fetches() {
    local db=$folder/client.db out=$folder/fetched moment
    wants 1 '' 'denied 6 NoRoot\n' update --at=$at --db "$folder/nothing.db" --port 1
    wants 1 '' 'denied 6 NoRoot\n' get --at=$at --db "$folder/nothing.db" --port 1 --out "$out" hello.txt
    wants 0 'begun\n' '' init --at=$at --db "$db" "$example/root.json"
    serve --count 5
    wants 0 'updated\n' '' update --at=$at --db "$db" --port "$port"
    echo 'what stood there' >"$out"
    wants 0 'written\n' '' get --at=$at --db "$db" --port "$port" --out "$out" hello.txt
    served_one
    same "what get writes" "$example/hello.txt" "$out"
    has_mode 644 "$out"
    dump "$db" "$folder/before"
    wants 0 'written\n' '' get --at=$at --db "$db" --port "$port" --out "$out.again" hello.txt
    same "what get writes again, without a server" "$example/hello.txt" "$out.again"
    has_mode 600 "$out.again"
    chmod 755 "$out.again"
    wants 0 'written\n' '' get --at=$at --db "$db" --port "$port" --out "$out.again" hello.txt
    has_mode 755 "$out.again"
    wants 3 '' 'fault network\n' get --at=$at --db "$db" --port "$port" --out "$out" empty.txt
    wants 3 '' 'fault network\n' update --at=$at --db "$db" --port "$port"
    wants 1 '' 'denied 35 NotFound\n' get --at=$at --db "$db" --port "$port" --out "$out" other.txt
    for moment in 253402300799 +253402300799; do
        wants 1 '' 'denied 11 RootExpired\n' get --at="$moment" --db "$db" --port "$port" --out "$out" hello.txt
    done
    same "what get leaves where it writes nothing" "$example/hello.txt" "$out"
    dump "$db" "$folder/after"
    same "the tables of a client that fetched nothing" "$folder/before" "$folder/after"
}

# Faults are looked for in their order: the clock, the path, the database, the network, and the file that is written.
faults_of_a_client() {
    local db=$folder/client.db out=$folder/fetched words
    words=(get --at=$at --port "$port")
    wants 1 '' 'denied 36 BadPath\n' "${words[@]}" --db "$folder/ill.db" --out "$folder/none/out" a/../hello.txt
    wants 1 '' 'denied 36 BadPath\n' "${words[@]}" --db "$folder/unmade.db" --out "$folder/none/out" /hello.txt
    wants 1 '' "release: /hello.txt: denied; 'release help 36' says what to do\ndenied 36 BadPath\n" "${words[@]}" -v --db "$folder/unmade.db" --out "$out" /hello.txt
    [ ! -e "$folder/unmade.db" ] || fail "a path that is none made a database"
    ends 3 '' 'fault clock\n' faketime '1960-01-01 00:00:00' "$release" get --db "$db" --port "$port" --out "$out" /hello.txt
    wants 3 '' 'fault database\n' "${words[@]}" --db "$folder/ill.db" --out "$folder/none/out" hello.txt
    wants 3 '' 'fault database\n' update --at=$at --port "$port" --db "$folder/ill.db"
    wants 3 '' 'fault network\n' "${words[@]}" --db "$db" --out "$folder/none/out" empty.txt
    wants 3 '' "release: port $port: Connection refused (os error 111)\nrelease: empty.txt: the source failed\nfault network\n" \
        "${words[@]}" --db "$db" --out "$out" empty.txt
    wants 3 '' "release: port 65535: Connection refused (os error 111)\nrelease: empty.txt: the source failed\nfault network\n" \
        get --at=$at -v --out "$out" --db="$db" --port 65535 empty.txt
    wants 3 '' 'fault file\n' "${words[@]}" --db "$db" --out "$folder/none/out" hello.txt
    mkdir -p "$folder/taken"
    ln -sf "$out" "$folder/link"
    wants 3 '' 'fault file\n' "${words[@]}" --db "$db" --out "$folder/taken" hello.txt
    wants 3 '' "release: $folder/link: what stands there is no file\nfault file\n" "${words[@]}" --db "$db" --out "$folder/link" hello.txt
    [ -L "$folder/link" ] || fail "a link was replaced"
    ends 3 '' 'fault file\n' with_no_output "${words[@]}" --db "$db" --out "$folder/taken/out" hello.txt
    same "what get writes where it cannot say so" "$example/hello.txt" "$folder/taken/out"
    [ "$(ls -A "$folder/taken")" = out ] || fail "get left a file beside another"
}

# The client's own database and its log are not written, by whatever name they are called.
outputs_onto_the_database() {
    local db=$folder/client.db name
    mkdir -p "$folder/way"
    ln -sfn "$folder" "$folder/way/back"
    dump "$db" "$folder/before"
    for name in "$db" "$folder/./client.db" "$folder/way/back/client.db" "$db-wal" "$folder/way/../client.db-wal"; do
        wants 3 '' 'fault file\n' get --at=$at --db "$db" --port 1 --out "$name" hello.txt
        wants 3 '' "release: $name: a file of the client's own database\nfault file\n" get --at=$at --db "$db" --port 1 --out "$name" hello.txt
    done
    dump "$db" "$folder/after"
    same "the tables after outputs onto them" "$folder/before" "$folder/after"
    rm -r "$folder/way"
}

# What is told of a client: the names that it asks for, in their order, and what it got.
# The first expiry of the example's root, timestamp and snapshot, in seconds.
first_expiry() {
    grep -oh '"expires":"[^"]*"' "$example"/{root,timestamp,snapshot}.json | cut -d '"' -f 4 | sort | head -n 1 | date -u -f - +%s
}

what_a_client_tells() {
    local db=$folder/told.db
    wants 0 'begun\n' '' init --at=$at --db "$db" "$example/root.json"
    serve --count 5
    wants 0 'updated\n' "metadata/2.root.json: none\nmetadata/timestamp.json: $(wc -c <"$example/timestamp.json") bytes\n$(
        )metadata/1.snapshot.json: $(wc -c <"$example/snapshot.json") bytes\n$(
        )$db: root 1, timestamp 1, snapshot 1; before: root 1, no timestamp, no snapshot\n$db: root 1 is trusted\n$(
        )$db: the first expiry is at $(first_expiry)\n" update -v --at=$at --db "$db" --port "$port"
    wants 0 'written\n' "metadata/1.targets.json: $(wc -c <"$example/targets.json") bytes\n$(
        )targets/$(sha256sum <"$example/hello.txt" | cut -c 1-64).hello.txt: 32 bytes\n" \
        get -v --at=$at --db "$db" --port "$port" --out "$folder/out.txt" hello.txt
    served_one
}

# versions ROOT SNAPSHOT TARGETS TIMESTAMP: the versions as '--json' has them.
versions() {
    printf '{"root":%s,"snapshot":%s,"targets":%s,"timestamp":%s}' "$@"
}

# What a client brought, or why its sources brought nothing, as JSON. Of any other end nothing is printed.
what_a_client_brings_as_json() {
    local db=$folder/json.db digest none held end
    digest=$(sha256sum <"$example/hello.txt" | cut -c 1-64)
    none=$(versions 1 null null null) held=$(versions 1 1 1 1)
    wants 0 'begun\n' '' init --at=$at --db "$db" "$example/root.json"
    serve --count 5
    end="\"now\":$at,\"source\":\"port $port\"}\n"
    wants 0 "{\"after\":$held,\"answer\":\"updated\",\"before\":$none,\"changed\":true,\"first\":{\"expires\":$(first_expiry),\"role\":\"snapshot\"},$(
        )\"mirrors\":[{\"files\":2,\"source\":\"port $port\"}],$end" '' update --json --at=$at --db "$db" --port "$port"
    wants 0 "{\"answer\":\"written\",\"length\":32,\"mirrors\":[{\"files\":2,\"source\":\"port $port\"}],\"now\":$at,\"path\":\"hello.txt\",$(
        )\"sha256\":\"$digest\",\"source\":\"port $port\"}\n" '' \
        get --json --at=$at --db "$db" --port "$port" --out "$folder/out.txt" hello.txt
    served_one
    end="\"now\":$at,\"source\":null}\n"
    wants 3 "{\"after\":$held,\"answer\":\"fault network\",\"before\":$held,\"changed\":false,$(
        )\"first\":{\"expires\":$(first_expiry),\"role\":\"targets\"},\"mirrors\":[{\"fault\":\"no answer that can be read\",\"source\":\"port $port\"}],$end" \
        'fault network\n' update --json --at=$at --db "$db" --port "$port"
    wants 0 "{\"answer\":\"written\",\"length\":32,\"mirrors\":[{\"files\":0,\"source\":\"port $port\"}],\"now\":$at,\"path\":\"hello.txt\",$(
        )\"sha256\":\"$digest\",\"source\":null}\n" '' \
        get --json --at=$at --db "$db" --port "$port" --out "$folder/out.txt" hello.txt
    wants 1 "{\"answer\":\"denied 35 NotFound\",\"length\":null,\"mirrors\":[{\"denied\":{\"name\":\"NotFound\",\"number\":35},\"source\":\"port $port\"}],$(
        )\"now\":$at,\"path\":\"other.txt\",\"sha256\":null,\"source\":null}\n" 'denied 35 NotFound\n' \
        get --json --at=$at --db "$db" --port "$port" --out "$folder/out.txt" other.txt
    wants 1 '' 'denied 36 BadPath\n' get --json --at=$at --db "$db" --port "$port" --out "$folder/out.txt" /hello.txt
    wants 3 '' 'fault database\n' update --json --at=$at --db "$folder/ill.db" --port "$port"
    wants 3 '' 'fault file\n' get --json --at=$at --db "$db" --port "$port" --out "$folder/none/out" hello.txt
}
