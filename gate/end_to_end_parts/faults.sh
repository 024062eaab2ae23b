# Faults: files that are no database, outputs that take nothing, no memory, no clock; and what is told of them.

# What is no database, or holds the rows of no state. A file to read is read before the database is opened.
databases_that_are_none() {
    printf 'this is no database' >"$folder/ill.db"
    wants 3 '' 'fault file\n' init --at=$at --db "$folder/ill.db" "$folder/none"
    wants 3 '' 'fault file\n' put --at=$at --db "$folder/ill.db" "$folder/none"
    wants 3 '' 'fault database\n' put --db "$folder/ill.db" "$example/hello.txt"
    wants 3 '' 'fault database\n' put --db "$folder/none/db" "$example/hello.txt"
    wants 3 '' 'fault database\n' put --at=$at --db=:memory: "$example/hello.txt"
    [ ! -e :memory: ] || fail "a database in memory made a file"
    dump "$folder/db" "$folder/dump"
    sqlite3 "$folder/damaged.db" <"$folder/dump"
    sqlite3 "$folder/damaged.db" "UPDATE blob SET bytes = x'00' WHERE length(bytes) = 0"
    wants 3 '' 'fault damaged\n' put --db "$folder/damaged.db" "$example/hello.txt"
    sqlite3 "$folder/damaged.db" 'DROP TABLE blob'
    wants 3 '' 'fault database\n' put --db "$folder/damaged.db" "$example/hello.txt"
    wants 0 'begun\n' '' init --at=$at --db "$folder/begun.db" "$example/root.json"
    dump "$folder/begun.db" "$folder/dump"
    sqlite3 "$folder/root.db" <"$folder/dump"
    sqlite3 "$folder/root.db" 'UPDATE root2 SET version = 2'
    wants 3 '' 'fault damaged\n' put --at=$at --db "$folder/root.db" "$example/root.json"
    sqlite3 "$folder/root.db" 'DROP TABLE root'
    wants 3 '' 'fault database\n' put --at=$at --db "$folder/root.db" "$example/root.json"
}

# An empty or absent database or book beside a log with changes is refused, and the log stays, whole. A log without a change is none.
logs_without_their_database() {
    local name way log=$folder/alone.db-wal
    wants 0 'begun\n' '' init --at=$at --db "$folder/alone.db" "$example/root.json"
    cp "$log" "$folder/head"
    printf '%4200s' '' >>"$log"
    cp "$log" "$folder/frames"
    for way in absent empty; do
        rm "$folder/alone.db"
        if [ "$way" = empty ]; then : >"$folder/alone.db"; fi
        wants 3 '' 'fault damaged\n' put --at=$at --db "$folder/alone.db" "$example/hello.txt"
        wants 3 '' "release: $folder/alone.db: empty or absent, next to a log with changes\nfault damaged\n" put -v --at=$at --db "$folder/alone.db" "$example/hello.txt"
        wants 3 '' 'fault damaged\n' sign --book "$folder/alone.db" --seed "$folder/signing.seed" --ots 8 --height 5 "$folder/unsigned"
        same "a log without its database, which is $way" "$folder/frames" "$log"
        : >>"$folder/alone.db"
    done
    cp "$folder/head" "$log"
    wants 1 '' 'denied 6 NoRoot\n' put --at=$at --db "$folder/alone.db" "$example/hello.txt"
    rm "$folder/alone.db"*
}

# Tables, indexes and views after the six are let be. A foreign key onto one of the six is refused.
what_stands_behind_is_let_be() {
    local digest
    digest=$(sha256sum "$example/hello.txt" | cut -c1-64)
    dump "$folder/begun.db" "$folder/dump"
    sqlite3 "$folder/further.db" <"$folder/dump"
    sqlite3 "$folder/further.db" 'CREATE TABLE further(a PRIMARY KEY, b REFERENCES further(a)); INSERT INTO further VALUES (1, 1);
        CREATE INDEX by_bytes ON blob(bytes); CREATE VIEW digests AS SELECT digest FROM blob'
    sqlite3 "$folder/onto.db" <"$folder/dump"
    sqlite3 "$folder/onto.db" 'CREATE TABLE further(a REFERENCES blob(digest))'
    for _ in 1 2; do
        wants 0 "$digest\n" '' put --at=$at --db "$folder/further.db" "$example/hello.txt"
        rows "$folder/further.db" 'SELECT a, b, digest FROM further, digests' "1|1|$digest\n"
        rows "$folder/further.db" 'PRAGMA integrity_check' 'ok\n'
    done
    wants 3 '' 'fault database\n' put --at=$at --db "$folder/onto.db" "$example/hello.txt"
}

# What was done stays done where it cannot be said.
outputs_that_fail() {
    ends 3 '' 'fault file\n' with_no_output --help
    ends 3 '' 'fault file\n' with_no_output help 29
    ends 3 '' 'fault file\n' with_no_output canon "$folder/loose.json"
    ends 3 '' 'fault file\n' with_no_output init --at=$at --db "$folder/output.db" "$example/root.json"
    wants 1 '' 'denied 7 RootExists\n' init --at=$at --db "$folder/output.db" "$example/root.json"
}

# No memory, and a clock at which no moment is, which `--at` takes the place of.
faults_of_the_machine() {
    {
        printf '"'
        head -c 20000000 /dev/zero | tr '\0' a
        printf '"'
    } >"$folder/large.json"
    ends 3 '' 'fault memory\n' with_memory 60000 canon "$folder/large.json"
    ends 3 '' 'fault clock\n' faketime '1960-01-01 00:00:00' "$release" canon "$folder/loose.json"
    ends 3 '' 'fault clock\n' faketime '1960-01-01 00:00:00' "$release" publish --db "$folder/db" none
    ends 0 '{"a":0,"b":1}' '' faketime '1960-01-01 00:00:00' "$release" canon --at 0 "$folder/loose.json"
}

# What is told where it is asked for: the file or argument that a fault is about, and the error of the system.
more_is_told() {
    local db=$folder/db none=$folder/none.json gone='No such file or directory (os error 2)'
    wants 0 '{"a":0,"b":1}' '' canon --verbose "$folder/loose.json"
    wants 1 '' "release: $folder/ill.json: no canonical form\ndenied 2 NotCanonical\n" canon -v "$folder/ill.json"
    wants 1 '' "release: $folder/ill.json: no canonical form\ndenied 2 NotCanonical\n" canon "$folder/ill.json"
    wants 3 '' "release: $none: $gone\nfault file\n" canon "$none"
    wants 3 '' "release: $none: $gone\nfault file\n" init -v --at=$at --db "$db" "$none"
    wants 1 '' "release: $example/root.json: denied; 'release help 7' says what to do\ndenied 7 RootExists\n" init -v --at=$at --db "$db" "$example/root.json"
    wants 1 '' "release: $folder/large: denied; 'release help 38' says what to do\ndenied 38 BlobLength\n" put -vv --at=$at --db "$db" "$folder/large"
    wants 1 '' "release: Targets:a: denied; 'release help 3' says what to do\ndenied 3 WrongShape at 1\n" publish -v --at=$at --db "$db" targets:a Targets:a
    wants 3 '' "release: $none: $gone\nfault file\n" publish -v --at=$at --db "$db" "targets:$none"
    wants 1 '' "the documents together: the timestamp names snapshot 1\nrelease: the documents together: denied; 'release help 51' says what to do\ndenied 51 Incoherent at 1\n" publish -v --at=$at --db "$folder/begun.db" \
        "timestamp:$example/timestamp.json"
    places_are_named
    wants 3 '' "release: $folder/none/db: $gone\nfault database\n" put --db "$folder/none/db" "$example/hello.txt"
    wants 3 '' "release: $folder/damaged.db: database\nfault database\n" put --db "$folder/damaged.db" "$example/hello.txt"
    ends 3 '' 'release: standard output: No space left on device (os error 28)\nfault file\n' with_no_output canon "$folder/loose.json"
}

# Of a document or a first root that is denied the member, the keys that have signed, or what is missing.
places_are_named() {
    local begun=$folder/begun.db
    sed 's/"expires":"[^"]*"/"expires":"soon"/' "$example/timestamp.json" >"$folder/soon.json"
    wants 1 '' "timestamp:$folder/soon.json: at signed.expires\nrelease: timestamp:$folder/soon.json: denied; 'release help 3' says what to do\ndenied 3 WrongShape at 0\n" \
        publish -v --at=$at --db "$begun" "timestamp:$folder/soon.json"
    sed 's/"version":1/"version":9/' "$example/timestamp.json" >"$folder/nine.json"
    wants 1 '' "timestamp:$folder/nine.json: 0 of 1 keys have signed\nrelease: timestamp:$folder/nine.json: denied; 'release help 12' says what to do\ndenied 12 TimestampThreshold at 0\n" \
        publish -v --at=$at --db "$begun" "timestamp:$folder/nine.json"
    sed 's/"expires":"[^"]*"/"expires":"soon"/' "$example/root.json" >"$folder/soon.root"
    wants 1 '' "release: $folder/soon.root: denied; 'release help 3' says what to do\n$folder/soon.root: at signed.expires\ndenied 3 WrongShape\n" init -v --at=$at --db "$folder/none.db" "$folder/soon.root"
    sed 's/"version":1/"version":9/' "$example/root.json" >"$folder/nine.root"
    wants 1 '' "release: $folder/nine.root: denied; 'release help 10' says what to do\n$folder/nine.root: 0 of 1 keys have signed\ndenied 10 NewThreshold\n" init -v --at=$at --db "$folder/none.db" "$folder/nine.root"
    rm -f "$folder/none.db"*
    wants 1 '' "the documents together: missing: targets 1\nrelease: the documents together: denied; 'release help 51' says what to do\ndenied 51 Incoherent at 2\n" \
        publish -v --at=$at --db "$begun" "timestamp:$example/timestamp.json" "snapshot:$example/snapshot.json"
}
