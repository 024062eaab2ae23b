# Databases that another program wrote: rows of no state, tables that are absent or others, what stands after the six, and schema 1.

# The six tables, in the order in which they are made. Schema 1 had the first five.
tables=(
    'CREATE TABLE root (version INTEGER NOT NULL PRIMARY KEY, bytes BLOB NOT NULL)'
    'CREATE TABLE current (slot TEXT NOT NULL PRIMARY KEY, version INTEGER NOT NULL, bytes BLOB NOT NULL)'
    'CREATE TABLE shelf (role TEXT NOT NULL, version INTEGER NOT NULL, bytes BLOB NOT NULL, PRIMARY KEY (role, version))'
    'CREATE TABLE blob (digest TEXT NOT NULL PRIMARY KEY, bytes BLOB NOT NULL)'
    'CREATE TABLE schema (version INTEGER NOT NULL PRIMARY KEY)'
    'CREATE TABLE root2 (version INTEGER NOT NULL PRIMARY KEY, profile INTEGER NOT NULL, bytes BLOB NOT NULL)'
)

# made DB: a new database of the statements on standard input.
made() {
    rm -f "$1"*
    sqlite3 "$1"
}

# A database and its log are made for their owner alone, whatever the mask lets; a log is made with the mode of its database.
databases_are_for_their_owner() {
    wants 0 'begun\n' '' init --at=$at --db "$folder/modes.db" "$example/root.json"
    has_mode 600 "$folder/modes.db"
    has_mode 600 "$folder/modes.db-wal"
    sqlite3 "$folder/modes.db" 'SELECT count(*) FROM root2' >"$folder/count"
    [ ! -e "$folder/modes.db-wal" ] || rm "$folder/modes.db-wal"
    chmod 640 "$folder/modes.db"
    wants 0 "$(sha256sum "$example/hello.txt" | cut -c1-64)\n" '' put --at=$at --db "$folder/modes.db" "$example/hello.txt"
    has_mode 640 "$folder/modes.db"
    has_mode 640 "$folder/modes.db-wal"
}

# spoilt FILE PLACE: the lowest bit of this byte is another one.
spoilt() {
    local byte
    byte=$(od -An -tu1 -j "$2" -N 1 "$1")
    printf "\\$(printf %03o $((byte ^ 1)))" | dd of="$1" bs=1 seek="$2" conv=notrunc 2>"$folder/told"
}

# A server that is killed leaves its changes in the log of its database. Where the first of them does not check, none of them is taken, and
# --verbose says so. What is pruned shows whether the file that the server took is there.
logs_that_do_not_check() {
    local place db=$folder/killed.db told="$folder/killed.db: the first change of its log does not check: the log is disregarded\n"
    wants 0 'begun\n' '' init --at=$at --db "$db" "$example/root.json"
    served=$db
    serve
    served=$folder/db
    wants 0 "$(sha256sum "$example/hello.txt" | cut -c1-64)\n" '' put --port "$port" "$example/hello.txt"
    { kill -9 "$server" && wait "$server" || server=; } 2>"$folder/told"
    cp "$db" "$folder/killed"
    cp "$db-wal" "$folder/killed-wal"
    wants 0 '{"blobs":1,"rows":0}\n' '' prune -v --at=$at --db "$db"
    for place in 0 3 8 24 32 40 48 56 100 cut; do
        cp "$folder/killed" "$db"
        cp "$folder/killed-wal" "$db-wal"
        if [ "$place" = cut ]; then truncate -s 100 "$db-wal"; else spoilt "$db-wal" "$place"; fi
        wants 0 '{"blobs":0,"rows":0}\n' "$told" prune -v --at=$at --db "$db"
        wants 0 '{"blobs":0,"rows":0}\n' '' prune -v --at=$at --db "$db"
    done
    cp "$folder/killed" "$db"
    cp "$folder/killed-wal" "$db-wal"
    spoilt "$db-wal" 100
    wants 0 '{"blobs":0,"rows":0}\n' '' prune --at=$at --db "$db"
}

# makes WORD STATEMENT..: the held rows with what these statements make of them, each alone, are `fault WORD`, and stay as they are.
makes() {
    local db=$folder/changed.db word=$1 statement
    shift
    for statement in "$@"; do
        { cat "$folder/held.sql" && echo "$statement;"; } | made "$db"
        stays "$word" "$statement" "$db"
    done
}

# stays WORD WHAT DB: a put into this database is `fault WORD`, and leaves it as it is.
stays() {
    dump "$3" "$folder/before"
    wants 3 '' "fault $1\n" put --at=$at --db "$3" "$example/hello.txt"
    dump "$3" "$folder/after"
    same "what is left behind: $2" "$folder/before" "$folder/after"
}

# Values of other types, numbers that are none of 32 bits (two of them would be 1 if they were cut), names and digests of other forms.
rows_of_no_state() {
    local zeros=0000000000000000000000000000000000000000000000000000000000000000
    local upper=ABCDEF0123456789ABCDEF0123456789ABCDEF0123456789ABCDEF0123456789
    dump "$folder/db" "$folder/held.sql"
    makes damaged "INSERT INTO root2 VALUES (-1, 1, x'00')" "INSERT INTO root2 VALUES (4294967296, 1, x'00')" "UPDATE root2 SET version = 4294967297" \
        "INSERT INTO root2 VALUES (3, 1, 'text')" "UPDATE root2 SET bytes = CAST(bytes AS TEXT)" "UPDATE root2 SET bytes = 5" \
        "UPDATE root2 SET profile = 2" "UPDATE root2 SET profile = 0" "UPDATE root2 SET profile = 4294967297" "UPDATE root2 SET profile = 'one'" \
        "UPDATE root2 SET profile = 1.5" "INSERT INTO root SELECT version, bytes FROM root2" "INSERT INTO root VALUES (-1, 'text')"
    makes damaged "INSERT INTO current VALUES ('root', 1, x'00')" "INSERT INTO current SELECT 'root', version, bytes FROM root2" \
        "UPDATE current SET slot = x'00' WHERE slot = 'snapshot'" "UPDATE current SET slot = CAST(slot AS BLOB)" \
        "UPDATE current SET version = 'new' WHERE slot = 'snapshot'" "UPDATE current SET version = -1 WHERE slot = 'snapshot'" \
        "UPDATE current SET version = -4294967295" "UPDATE current SET bytes = 'text' WHERE slot = 'timestamp'" \
        "UPDATE current SET bytes = CAST(bytes AS TEXT)"
    makes damaged "INSERT INTO shelf VALUES (x'00', 1, x'00')" "UPDATE shelf SET role = CAST(role AS BLOB)" \
        "INSERT INTO shelf SELECT CAST(x'ff' AS TEXT), version, bytes FROM shelf" "INSERT INTO shelf VALUES ('b', 1.5, x'00')" \
        "INSERT INTO shelf SELECT 'b', 1.5, bytes FROM shelf" "INSERT INTO shelf VALUES ('b', 4294967296, x'00')" \
        "INSERT INTO shelf SELECT 'b', 4294967297, bytes FROM shelf" "INSERT INTO shelf VALUES ('b', 1, 1)"
    makes damaged "INSERT INTO blob VALUES ('00', x'00')" "INSERT INTO blob VALUES ('$upper', x'00')" "UPDATE blob SET digest = upper(digest)" \
        "UPDATE blob SET bytes = 'text'" "UPDATE blob SET bytes = CAST(bytes AS TEXT)" "INSERT INTO blob VALUES ('$zeros', x'00')" \
        "UPDATE blob SET bytes = (SELECT bytes FROM blob ORDER BY digest LIMIT 1)"
    makes damaged "INSERT INTO schema VALUES (1)" "INSERT INTO schema VALUES (7)" "UPDATE schema SET version = 7" "UPDATE schema SET version = 1" \
        "DELETE FROM schema" "DROP TABLE root2" "DELETE FROM root2; DELETE FROM current; DELETE FROM shelf; DELETE FROM blob; UPDATE schema SET version = 7"
    { cat "$folder/held.sql" && echo "INSERT INTO shelf SELECT 'b', version, bytes FROM shelf;"; } | made "$folder/changed.db"
    wants 0 "$(sha256sum "$example/hello.txt" | cut -c1-64)\n" '' put --at=$at --db "$folder/changed.db" "$example/hello.txt"
}

# Only the first of the six tables, or all of them, are opened, where no other refers to one. Rows without the table of the version are of no state.
tables_that_are_others() {
    local db=$folder/tables.db root=${tables[0]} current=${tables[1]} schema=${tables[4]} texts
    makes database "DROP TABLE blob" "DROP TABLE schema" "CREATE TABLE other (a REFERENCES blob (digest))" \
        "CREATE TABLE other (a, b REFERENCES other (a), c REFERENCES ROOT)" \
        "DROP TABLE schema; CREATE TABLE other (a); $schema; INSERT INTO schema VALUES (2)"
    for texts in "$current; $root" "$current" "$root; CREATE TABLE other (a)"; do
        made "$db" <<<"$texts;"
        stays database "$texts" "$db"
    done
    for texts in "$root; INSERT INTO root VALUES (1, x'00')" "$root; $current; INSERT INTO current VALUES ('timestamp', 1, x'00')"; do
        made "$db" <<<"$texts;"
        stays damaged "$texts" "$db"
    done
}

# becomes_whole DB: a repository is begun over the tables of this database, which has no row, and then has the rows of one that the program made alone.
becomes_whole() {
    fills "$1"
    dump "$1" "$folder/after"
    grep -E '^(INSERT INTO "?(root|current|shelf|blob|schema|root2)"?|CREATE TABLE "?(root|current|shelf|blob|schema|root2)"?) ' "$folder/after" >"$folder/six"
    same "the six tables after a beginning" "$folder/whole" "$folder/six"
}

# fills DB: the database takes the example's root, documents and a file.
fills() {
    wants 0 'begun\n' '' init --at=$at --db "$1" "$example/root.json"
    wants 0 '{"accepted":3,"same":0}\n' '' publish --at=$at --db "$1" "timestamp:$example/timestamp.json" \
        "snapshot:$example/snapshot.json" "targets:$example/targets.json"
    wants 0 "$(sha256sum "$example/hello.txt" | cut -c1-64)\n" '' put --at=$at --db "$1" "$example/hello.txt"
}

# Each beginning of the six tables is completed, and so are the six with others after them, which stay.
beginnings_are_completed() {
    local db=$folder/tables.db count further
    fills "$folder/alone.db"
    dump "$folder/alone.db" "$folder/dump"
    grep -E '^(INSERT|CREATE) ' "$folder/dump" >"$folder/whole"
    for count in 1 2 3 4 5 6; do
        printf '%s;\n' "${tables[@]:0:count}" | made "$db"
        becomes_whole "$db"
    done
    for further in 'CREATE TABLE other (a); INSERT INTO other VALUES(1)' 'CREATE INDEX by_bytes ON blob (bytes)' 'CREATE VIEW other AS SELECT version FROM root' \
        'CREATE TABLE other (a INTEGER PRIMARY KEY); CREATE TABLE another (b REFERENCES other (a)); CREATE INDEX by_b ON another (b)'; do
        printf '%s;\n' "${tables[@]}" "$further" | made "$db"
        becomes_whole "$db"
        printf '%s;\n' "${further//; /$';\n'}" >"$folder/further"
        grep -vxFf "$folder/whole" "$folder/after" | grep -E '^(INSERT|CREATE) ' >"$folder/left"
        same "what stands after the six stays: $further" "$folder/further" "$folder/left"
    done
}

# A row that the database refuses takes back what was written before it: an index of another program lets no two rows have one version.
a_refused_row_takes_all_back() {
    local db=$folder/refusing.db words
    words=("timestamp:$example/timestamp.json" "snapshot:$example/snapshot.json" "targets:$example/targets.json")
    wants 0 'begun\n' '' init --at=$at --db "$db" "$example/root.json"
    sqlite3 "$db" 'CREATE UNIQUE INDEX one ON current (version)'
    dump "$db" "$folder/before"
    wants 3 '' 'fault database\n' publish --at=$at --db "$db" "${words[@]}"
    dump "$db" "$folder/after"
    same "the tables after a refused row" "$folder/before" "$folder/after"
    sqlite3 "$db" 'DROP INDEX one'
    wants 0 '{"accepted":3,"same":0}\n' '' publish --at=$at --db "$db" "${words[@]}"
}

# first_schema STATEMENT..: a database as a release of before schema 2 wrote it, and then these statements.
first_schema() {
    rm -f "$folder/first.db"*
    gzip -dc "$repository/gate/end_to_end_parts/schema_1.db.gz" >"$folder/first.db"
    local statement
    for statement in "$@"; do sqlite3 "$folder/first.db" "$statement"; done
}

# A database of schema 1 is brought to schema 2 once it was judged, with the same rows, and what it serves is what it served.
schema_1_becomes_schema_2() {
    local db=$folder/first.db statement
    first_schema
    rows "$db" 'SELECT version FROM schema' '1\n'
    dump "$db" "$folder/dump"
    grep -E '^INSERT INTO ' "$folder/dump" | sed -E 's/^INSERT INTO "?root"? VALUES\(([0-9]+),/INSERT INTO root2 VALUES(\1,1,/; s/^(INSERT INTO "?schema"? VALUES)\(1\)/\1(2)/' |
        tr -d '"' | sort >"$folder/wanted"
    wants 0 '{"accepted":0,"same":3}\n' '' publish --at=$at --db "$db" "timestamp:$example/timestamp.json" \
        "snapshot:$example/snapshot.json" "targets:$example/targets.json"
    dump "$db" "$folder/dump"
    grep -E '^INSERT INTO ' "$folder/dump" | tr -d '"' | sort >"$folder/found"
    same "the rows of schema 1, under schema 2" "$folder/wanted" "$folder/found"
    rows "$db" 'PRAGMA integrity_check' 'ok\n'
    first_schema
    wants 0 "$(sha256sum "$example/hello.txt" | cut -c1-64)\n" "$db: schema 1 was brought to schema 2\n" put -v --at=$at --db "$db" "$example/hello.txt"
    wants 0 "$(sha256sum "$example/hello.txt" | cut -c1-64)\n" '' put -v --at=$at --db "$db" "$example/hello.txt"
    first_schema
    served=$db
    replies '200 OK' octet-stream "$example/hello.txt" /targets/hello.txt
    replies '200 OK' json "$example/root.json" /metadata/1.root.json
    replies '200 OK' json "$example/targets.json" /metadata/1.targets.json
    served=$folder/db
    for statement in "INSERT INTO schema VALUES (2)" "UPDATE root SET version = 2" "DELETE FROM schema" "UPDATE blob SET bytes = x'00'"; do
        first_schema "$statement"
        stays damaged "schema 1, $statement" "$db"
    done
    for statement in 'CREATE TABLE other (a)' 'CREATE INDEX by_bytes ON blob (bytes)' 'CREATE VIEW other AS SELECT version FROM root'; do
        first_schema "$statement"
        wants 0 "$(sha256sum "$example/hello.txt" | cut -c1-64)\n" "$db: schema 1 was brought to schema 2\n" put -v --at=$at --db "$db" "$example/hello.txt"
        wants 0 "$(sha256sum "$example/hello.txt" | cut -c1-64)\n" '' put -v --at=$at --db "$db" "$example/hello.txt"
        dump "$db" "$folder/dump"
        grep -qF "$statement" "$folder/dump" || fail "schema 1: $statement is gone"
        grep -E '^INSERT INTO ' "$folder/dump" | tr -d '"' | sort >"$folder/found"
        same "the rows of schema 1 with $statement, under schema 2" "$folder/wanted" "$folder/found"
    done
    first_schema 'CREATE TABLE other (a INTEGER PRIMARY KEY AUTOINCREMENT, b)' 'INSERT INTO other (b) VALUES (7)'
    served=$db
    replies '200 OK' octet-stream "$example/hello.txt" /targets/hello.txt
    served=$folder/db
    rows "$db" 'SELECT * FROM other' '1|7\n'
    rows "$db" 'SELECT version, profile FROM root2' '1|1\n'
    first_schema 'CREATE TABLE other (a REFERENCES blob (digest))'
    stays database "schema 1, a foreign key onto a table of it" "$db"
    for statement in 'CREATE TABLE root2 (a)' 'CREATE VIEW root2 AS SELECT 1' 'CREATE TABLE other (a REFERENCES root2 (version))'; do
        first_schema "$statement"
        stays database "schema 1, $statement" "$db"
        wants 3 '' "release: $db: database\nrelease: $db: other tables, indexes or views stand after those of schema 1\nfault database\n" put --at=$at --db "$db" "$example/hello.txt"
    done
}
