# A repository that is exported as files, which nginx serves a client.

# exports COUNT TOLD: the database that is served is exported, so many files of it are new; each file that a new folder gets is what the
# server answers, and stands in the folder of earlier exports, too.
exports() {
    local name names
    wants 0 "exported $1\n" "$2" export -v --at=$at --db "$served" --to "$folder/files"
    rm -rf "$folder/whole"
    "$release" export --at=$at --db "$served" --to "$folder/whole" >"$folder/out"
    names=$(cd "$folder/whole" && find . -type f | cut -c 3- | sort)
    echo "exported $(wc -l <<<"$names")" >"$folder/out.wanted"
    same "a whole export" "$folder/out.wanted" "$folder/out"
    serve --count "$(wc -l <<<"$names")"
    for name in $names; do
        curl -s -S -f -o "$folder/body" "http://127.0.0.1:$port/$name"
        same "an exported file: $name" "$folder/body" "$folder/whole/$name"
        same "an earlier exported file: $name" "$folder/body" "$folder/files/$name"
    done
    served_one
}

# What is exported is what the server answers, each file once; a plain web server then serves a client as well.
a_repository_is_exported() {
    served=$folder/exported.db
    each_file_is_exported_once
    start_nginx
    wants 0 'begun\n' '' init --at=$at --db "$folder/exported.client.db" "$example/root.json"
    mirrored hello.txt
    a_layout_is_mirrored
    printf 'spoilt' >"$folder/files/metadata/timestamp.json"
    wants 0 'exported 1\n' '' export --at=$at --db "$served" --to "$folder/files"
    stop_nginx
    served=$folder/db
    [ -z "$(find "$folder/files" -name '.release-*')" ] || fail "an export left a file beside another"
}

each_file_is_exported_once() {
    local name
    wants 1 '' 'denied 6 NoRoot\n' export --at=$at --db "$folder/unbegun.db" --to "$folder/files"
    wants 3 '' 'fault database\n' export --at=$at --db "$folder/ill.db" --to "$folder/files"
    [ ! -e "$folder/files" ] || fail "nothing was exported into a folder"
    wants 0 'begun\n' '' init --at=$at --db "$served" "$example/root.json"
    exports 1 ''
    wants 0 '{"accepted":3,"same":0}\n' '' publish --at=$at --db "$served" \
        "timestamp:$example/timestamp.json" "snapshot:$example/snapshot.json" "targets:$example/targets.json"
    exports 3 'empty.txt: BlobMissing\nhello.txt: BlobMissing\n'
    for name in hello.txt empty.txt; do
        wants 0 "$(sha256sum "$example/$name" | cut -c1-64)\n" '' put --at=$at --db "$served" "$example/$name"
    done
    exports 2 ''
    exports 0 ''
    wants 3 '' 'fault file\n' export --at=$at --db "$served" --to "$served"
}

# own FILE SIGNED [SEED]: a document with this signed part, signed by the one key of a repository of its own, or by the key of this seed.
own() {
    printf '{"signatures":[],"signed":%s}' "$2" >"$folder/loose"
    "$release" canon "$folder/loose" >"$folder/unsigned"
    "$release" sign --book "$folder/own.book" --seed "${3:-$folder/own.seed}" --ots 4 --height 5 "$folder/unsigned" >"$1" 2>"$folder/told"
}

# listed FILE: what targets metadata say of a file.
listed() {
    printf '{"hashes":{"sha256":"%s"},"length":%s}' "$(sha256sum <"$1" | cut -c1-64)" "$(wc -c <"$1")"
}

# A role may list paths that no folder takes: they are warned of, and all else is exported. What was changed in the folder is written again,
# and what is no file is neither read nor followed.
names_that_no_folder_takes() {
    local key id role long digest common='"expires":"2031-01-01T00:00:00Z","spec_version":"1.0.31","version":1'
    served=$folder/own.db
    rm -rf "$folder/files"
    (umask 077 && seed 9 "$folder/own.seed")
    key=$("$release" key --seed "$folder/own.seed" --ots 4 --height 5)
    id=$(printf %s "$key" | sha256sum | cut -c1-64)
    role='{"keyids":["'$id'"],"threshold":1}'
    long=$(printf 'a%.0s' $(seq 200))
    digest=$(sha256sum <"$example/hello.txt" | cut -c1-64)
    own "$folder/own.root" '{"_type":"root","consistent_snapshot":true,"expires":"2032-01-01T00:00:00Z","keys":{"'$id'":'$key'},"roles":{"root":'$role',"snapshot":'$role',"targets":'$role',"timestamp":'$role'},"spec_version":"1.0.31","version":1}'
    own "$folder/own.targets" '{"_type":"targets","targets":{"'$long'":'$(listed "$example/hello.txt")',"dev/'$digest'.z/w":'$(listed "$example/empty.txt")',"dev/z":'$(listed "$example/hello.txt")',"plain":'$(listed "$example/hello.txt")'},'$common'}'
    own "$folder/own.snapshot" '{"_type":"snapshot","meta":{"targets.json":{"version":1}},'$common'}'
    own "$folder/own.timestamp" '{"_type":"timestamp","meta":{"snapshot.json":{"version":1}},'$common'}'
    wants 0 'begun\n' '' init --at=$at --db "$served" "$folder/own.root"
    wants 0 '{"accepted":3,"same":0}\n' '' publish --at=$at --db "$served" "timestamp:$folder/own.timestamp" "snapshot:$folder/own.snapshot" "targets:$folder/own.targets"
    wants 0 "$digest\n" '' put --at=$at --db "$served" "$example/hello.txt"
    wants 0 "$(sha256sum <"$example/empty.txt" | cut -c1-64)\n" '' put --at=$at --db "$served" "$example/empty.txt"
    local told="warning: $long: not exported: its name is too long for a file\nwarning: dev/z: not exported: what stands in its place is no file\n"
    wants 0 'exported 6\n' "$told" export --at=$at --db "$served" --to "$folder/files"
    same "a file beside names that no folder takes" "$example/hello.txt" "$folder/files/targets/$digest.plain"
    same "the timestamp beside names that no folder takes" "$folder/own.timestamp" "$folder/files/metadata/timestamp.json"
    wants 0 'exported 0\n' "$told" export --at=$at --db "$served" --to "$folder/files"
    tr a-z b-za <"$example/hello.txt" >"$folder/files/targets/$digest.plain"
    wants 0 'exported 1\n' "$told" export --at=$at --db "$served" --to "$folder/files"
    same "a file that was changed at its length" "$example/hello.txt" "$folder/files/targets/$digest.plain"
    rm "$folder/files/targets/$digest.plain"
    mkfifo "$folder/files/targets/$digest.plain"
    wants 0 'exported 0\n' "${told}warning: plain: not exported: what stands in its place is no file\n" export --at=$at --db "$served" --to "$folder/files"
    rm "$folder/files/targets/$digest.plain"
    ln -s "$example/hello.txt" "$folder/files/targets/$digest.plain"
    wants 0 'exported 0\n' "${told}warning: plain: not exported: what stands in its place is no file\n" export --at=$at --db "$served" --to "$folder/files"
    rm "$folder/files/targets/$digest.plain" "$folder/files/metadata/1.root.json"
    mkfifo "$folder/files/metadata/1.root.json"
    wants 3 '' "${told}fault file\n" export --at=$at --db "$served" --to "$folder/files"
    served=$folder/db
}

# A repository without a timestamp, and one whose newest timestamp has expired, look like success to an update: they are warned of.
updates_that_look_like_success() {
    local db=$folder/stale.db late=1924992000
    wants 0 'begun\n' '' init --at=$at --db "$db" "$folder/own.root"
    wants 0 'begun\n' '' init --at=$at --db "$folder/bare.db" "$folder/own.root"
    served=$folder/bare.db
    serve --count 2
    wants 0 'updated\n' "warning: port $port: no timestamp\n" update --at=$at --db "$db" --port "$port"
    served_one
    served=$folder/own.db
    serve --count 3
    wants 0 'updated\n' '' update --at=$at --db "$db" --port "$port"
    served_one
    serve --count 6
    wants 0 'updated\n' '' update --at=$at --fresh --db "$db" --port "$port"
    wants 0 'updated\n' "warning: $db: the timestamp has expired\n" update --at=$late --db "$db" --port "$port"
    wants 1 '' "warning: $db: the timestamp has expired\nnot fresh\n" update --at=$late --fresh --db "$db" --port "$port"
    served_one
    wants 1 '' 'denied 15 TimestampExpired\n' get --at=$late --db "$db" --port "$port" --out "$folder/out.txt" plain
    served=$folder/db
}

# nginx serves a client a target with a layout; one that the layout forbids is denied by the client itself.
a_layout_is_mirrored() {
    local part client=$folder/exported.client.db
    for part in chain exchanged; do
        takes "$served" "$part"
        if [ "$part" = chain ]; then
            exports 7 ''
            mirrored chain/tool.txt
        else
            wants 0 'exported 4\n' '' export --at=$at --db "$served" --to "$folder/files"
        fi
    done
    wants 0 'updated\n' '' update --at=$at --db "$client" --port "$mirrored"
    wants 1 '' 'denied 46 StepThreshold\n' get --at=$at --db "$client" --port "$mirrored" --out "$folder/out.txt" tool.txt
}

# Serves the exported folder by nginx, by the configuration of 'deploy'.
start_nginx() {
    mirrored=$(free_port)
    sed -e "s|listen 80;|listen 127.0.0.1:$mirrored;|" -e "s|/srv/repository|$folder/files|" -e "s|/run/|$folder/|" \
        -e "s|/var/log/nginx|$folder|" deploy/mirror.conf >"$folder/mirror.conf"
    if [ "$(id -u)" = 0 ]; then sed -i '1i user root;' "$folder/mirror.conf"; fi
    nginx -c "$folder/mirror.conf" -g 'daemon off;' 2>"$folder/mirror.err" &
    mirror=$!
    for _ in $(seq 100); do
        if (exec 3<>"/dev/tcp/127.0.0.1/$mirrored") 2>/dev/null; then return; fi
        sleep 0.1
    done
    fail "nginx: $(cat "$folder/mirror.err")"
}

stop_nginx() {
    kill "$mirror"
    wait "$mirror" || true
    mirror=
}

# mirrored FILE: nginx serves the client the target of this name, which is a file of the example.
mirrored() {
    wants 0 'updated\n' '' update --at=$at --db "$folder/exported.client.db" --port "$mirrored"
    wants 0 'written\n' '' get --at=$at --db "$folder/exported.client.db" --port "$mirrored" --out "$folder/out.txt" "${1##*/}"
    same "from nginx: $1" "$example/$1" "$folder/out.txt"
}
