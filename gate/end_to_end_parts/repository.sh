# A repository from its first root on: documents, files, the rows of its tables, a prune, a refused batch and a layout.

a_repository_begins() {
    local db=$folder/db
    wants 3 '' 'fault file\n' init --at=$at --db "$db" "$folder/none.json"
    wants 1 '' 'denied 6 NoRoot\n' put --at=$at --db "$db" "$example/hello.txt"
    printf '{ }' >"$folder/other.json"
    wants 1 '' 'denied 2 NotCanonical\n' init --at=$at --db "$db" "$folder/other.json"
    wants 1 '' 'denied 4 WrongType\n' init --at=$at --db "$db" "$example/targets.json"
    wants 1 '' 'denied 4 WrongType\n' init --at=$at --db "$db" "$example/timestamp.json"
    wants 0 'begun\n' '' init --at=$at --db "$db" "$example/root.json"
    wants 1 '' 'denied 7 RootExists\n' init --at=$at --db "$db" "$example/root.json"
}

# The arguments are judged before any file is read, and the files are read before the database is made.
arguments_are_judged_first() {
    local db=$folder/first.db none=$folder/none
    wants 1 '' 'denied 3 WrongShape at 0\n' publish --at=$at --db "$db" file "targets:$none"
    wants 1 '' 'denied 3 WrongShape at 0\n' publish --at=$at --db "$db" :file "targets:$none"
    wants 1 '' 'denied 3 WrongShape at 1\n' publish --at=$at --db "$db" "targets:$none" "Targets:$none"
    wants 1 '' 'denied 3 WrongShape at 0\n' publish --at=$at --db "$db" "a/b:$none" none
    wants 3 '' 'fault file\n' publish --at=$at --db "$db" "targets:$none:x"
    [ ! -e "$db" ] || fail "an argument that is none made a database"
}

documents_are_published() {
    local db=$folder/db second
    wants 1 '' 'denied 3 WrongShape at 1\n' publish --at=$at --db "$db" "timestamp:$folder/none" none
    wants 1 '' 'denied 3 WrongShape at 0\n' publish --at=$at --db "$db" "Targets:$folder/none"
    wants 3 '' 'fault file\n' publish --at=$at --db "$db" "timestamp:$folder/none"
    wants 1 '' 'denied 16 NoTimestamp at 0\n' publish --at=$at --db "$db" "snapshot:$example/snapshot.json"
    wants 1 '' 'denied 51 Incoherent at 2\n' publish --at=$at --db "$db" \
        "timestamp:$example/timestamp.json" "snapshot:$example/snapshot.json"
    wants 1 '' 'denied 51 Incoherent at 2\n' publish --at=$at --db "$db" \
        "timestamp:$example/timestamp.json" "timestamp:$example/timestamp.json"
    for second in "snapshot:$example/timestamp.json" "root:$example/snapshot.json" "some_role:$example/snapshot.json"; do
        wants 1 '' 'denied 4 WrongType at 1\n' publish --at=$at --db "$db" "timestamp:$example/timestamp.json" "$second"
    done
    for reply in '{"accepted":3,"same":0}\n' '{"accepted":0,"same":3}\n'; do
        wants 0 "$reply" '' publish --at=$at --db "$db" "timestamp:$example/timestamp.json" \
            "snapshot:$example/snapshot.json" "targets:$example/targets.json"
    done
}

# A folder with documents and files and nothing that is held: one opening takes all of it, and what was published is held after that.
a_folder_is_published_at_once() {
    local db=$folder/given.db given=$folder/given name
    mkdir -p "$given/files"
    cp "$example"/{timestamp,snapshot,targets}.json "$given"
    for name in hello.txt empty.txt; do cp "$example/$name" "$given/files/$(sha256sum "$example/$name" | cut -c1-64)"; done
    wants 0 'begun\n' '' init --at=$at --db "$db" "$example/root.json"
    "$release" publish -v --at=$at --db "$db" --in "$given" >"$folder/out" 2>"$folder/err" || fail "a folder without held/: $(cat "$folder/err")"
    [ "$(cat "$folder/out")" = '{"accepted":3,"same":0}' ] || fail "a folder without held/ says $(cat "$folder/out")"
    [ "$(grep -c 'opened in' "$folder/err")" = 1 ] || fail "opened more than once: $(cat "$folder/err")"
    for name in timestamp snapshot targets; do same "what is held of $name" "$given/held/$name.json" "$example/$name.json"; done
    [ -z "$(ls "$given/files")" ] || fail "files stay in the folder"
    dump "$db" "$folder/given.dump"
    [ "$(grep -c 'INSERT INTO blob' "$folder/given.dump")" = 2 ] || fail "the files were not put"
    checks=$((checks + 5))
}

files_are_put() {
    local db=$folder/db name digest
    for name in hello.txt empty.txt; do
        digest=$(sha256sum "$example/$name" | cut -c1-64)
        wants 0 "$digest\n" '' put --at=$at --db "$db" "$example/$name"
        wants 0 "$digest\n" '' put --at=$at --db "$db" "$example/$name"
    done
    head -c 1048577 /dev/zero >"$folder/large"
    wants 1 '' 'denied 38 BlobLength\n' put --at=$at --db "$db" "$folder/large"
    truncate -s 3G "$folder/sparse"
    ends 1 '' 'denied 38 BlobLength\n' with_memory 100000 put --at=$at --db "$db" "$folder/sparse"
    ends 1 '' 'denied 1 TooLong at 0\n' with_memory 100000 publish --at=$at --db "$db" "targets:$folder/sparse"
    ends 1 '' 'denied 1 TooLong\n' with_memory 100000 init --at=$at --db "$folder/sparse.db" "$folder/sparse"
    rm "$folder/sparse"
    wants 3 '' 'fault file\n' put --at=$at --db "$db" "$folder/none"
}

the_tables_hold_the_rows() {
    local db=$folder/db
    rows "$db" 'SELECT version, hex(bytes) FROM root' ''
    rows "$db" 'SELECT version, profile, hex(bytes) FROM root2' "1|1|$(hex "$example/root.json")\n"
    rows "$db" 'SELECT slot, version, hex(bytes) FROM current ORDER BY slot' \
        "snapshot|1|$(hex "$example/snapshot.json")\ntimestamp|1|$(hex "$example/timestamp.json")\n"
    rows "$db" 'SELECT role, version, hex(bytes) FROM shelf' "targets|1|$(hex "$example/targets.json")\n"
    rows "$db" 'SELECT digest, hex(bytes) FROM blob ORDER BY digest' \
        "$(for name in hello.txt empty.txt; do
            echo "$(sha256sum "$example/$name" | cut -c1-64)|$(hex "$example/$name")"
        done | sort)\n"
    rows "$db" 'SELECT version FROM schema' '2\n'
}

# What the snapshot does not list goes, by the command and by a request, and what is served stays.
a_prune_removes() {
    local db=$folder/db digest part
    wants 1 '' 'denied 6 NoRoot\n' prune --at=$at --db "$folder/unbegun.db"
    wants 0 '{"blobs":0,"rows":0}\n' '' prune --at=$at --db "$db"
    dump "$db" "$folder/before"
    for part in one two three; do
        printf '%s' "$part" >"$folder/unlisted"
        digest=$(sha256sum "$folder/unlisted" | cut -c1-64)
        wants 0 "$digest\n" '' put --at=$at --db "$db" "$folder/unlisted"
    done
    wants 0 '{"blobs":3,"rows":0}\n' '' prune --at=0 --db "$db"
    dump "$db" "$folder/after"
    same "the tables after a prune" "$folder/before" "$folder/after"
    wants 0 "$digest\n" '' put --at=$at --db "$db" "$folder/unlisted"
    printf '{"blobs":1,"rows":0}' >"$folder/pruned"
    replies '200 OK' json "$folder/pruned" /prune -X POST -H 'Content-Length: 0'
    printf '{"blobs":0,"rows":0}' >"$folder/pruned"
    replies '200 OK' json "$folder/pruned" /prune -X POST -H 'Content-Length: 0'
    printf '{"fault":"length"}' >"$folder/fault"
    replies '400 Bad Request' json "$folder/fault" /prune -X POST
    printf '{"fault":"size"}' >"$folder/fault"
    replies '413 Content Too Large' json "$folder/fault" /prune --data-binary x
    dump "$db" "$folder/after"
    same "the tables after a prune over HTTP" "$folder/before" "$folder/after"
}

# A root and a timestamp that would be taken, and after them a snapshot that is not: nothing changes, and sent again it has
# the same reply.
a_batch_is_refused() {
    local name
    for name in root timestamp snapshot; do
        printf '%s %s\n' "$name" "$(wc -c <"$example/refused/$name.json")"
        cat "$example/refused/$name.json"
    done >"$folder/batch"
    printf '{"denial":20,"index":2,"rule":"SnapshotVersion"}' >"$folder/denial"
    dump "$folder/db" "$folder/before"
    for _ in 1 2; do
        replies '403 Forbidden' json "$folder/denial" /batch --data-binary "@$folder/batch"
        dump "$folder/db" "$folder/after"
        same "the tables after a refused batch" "$folder/before" "$folder/after"
    done
    wants 1 '' 'denied 20 SnapshotVersion at 2\n' publish --at=$at --db "$folder/db" "root:$example/refused/root.json" \
        "timestamp:$example/refused/timestamp.json" "snapshot:$example/refused/snapshot.json"
}

# takes DB PART: the repository takes the files and the documents of this part of the example, a target with its layout and links.
takes() {
    local name
    for name in layout.json write.json pack.json tool.txt; do
        if [ -e "$example/$2/$name" ]; then
            wants 0 "$(sha256sum "$example/$2/$name" | cut -c1-64)\n" '' put --at=$at --db "$1" "$example/$2/$name"
        fi
    done
    wants 0 '{"accepted":3,"same":0}\n' '' publish --at=$at --db "$1" \
        "timestamp:$example/$2/timestamp.json" "snapshot:$example/$2/snapshot.json" "targets:$example/$2/targets.json"
}

# A target with a layout is served where its links are those of the layout's functionaries, and denied where one is somebody else's.
a_layout_is_enforced() {
    local db=$folder/db part
    for part in chain exchanged; do
        takes "$db" "$part"
        if [ "$part" = chain ]; then
            replies '200 OK' octet-stream "$example/chain/tool.txt" /targets/tool.txt
        fi
    done
    printf '{"denial":46,"rule":"StepThreshold"}' >"$folder/denied"
    replies '403 Forbidden' json "$folder/denied" /targets/tool.txt
    replies '200 OK' octet-stream "$example/hello.txt" /targets/hello.txt
}
