# Publishing through the port of a server that holds the database: what 'publish', 'put' and 'prune' say, and what they leave, is the same.

# both STATUS OUT ERR COMMAND WORD..: the command ends so through the port, and over a database of its own.
both() {
    local status=$1 out=$2 err=$3 command=$4
    shift 4
    wants "$status" "$out" "$err" "$command" --port "$port" "$@"
    wants "$status" "$out" "$err" "$command" --at=$at --db "$folder/apart.db" "$@"
}

publishing_beside_a_server() {
    local served=$folder/beside.db all=() role digest
    for role in timestamp snapshot targets; do all+=("$role:$example/$role.json"); done
    digest=$(sha256sum "$example/hello.txt" | cut -c1-64)
    truncate -s 262145 "$folder/long"
    head -c 1048577 /dev/zero >"$folder/large"
    serve --count 3
    both 1 '' 'denied 6 NoRoot\n' put "$example/hello.txt"
    both 1 '' 'denied 6 NoRoot at 0\n' publish "${all[@]}"
    both 1 '' 'denied 6 NoRoot\n' prune
    served_one
    wants 0 'begun\n' '' init --at=$at --db "$served" "$example/root.json"
    wants 0 'begun\n' '' init --at=$at --db "$folder/apart.db" "$example/root.json"
    # Sixteen requests, and eleven questions: one after a batch of the same, beside batches with a root before each and after the taken one,
    # and for why a batch was denied: 51 the first two roots, the first again and the snapshot, 12 the same roots.
    serve --count 27
    both 0 "$digest\n" '' put "$example/hello.txt"
    both 0 "$digest\n" '' put "$example/hello.txt"
    both 1 '' 'denied 16 NoTimestamp at 0\n' publish "snapshot:$example/snapshot.json"
    both 1 '' 'denied 51 Incoherent at 2\n' publish "timestamp:$example/timestamp.json" "snapshot:$example/snapshot.json"
    both 1 '' "the documents together: the timestamp names snapshot 1\nrelease: the documents together: denied; 'release help 51' says what to do\ndenied 51 Incoherent at 1\n" publish -v "timestamp:$example/timestamp.json"
    both 1 '' "timestamp:$folder/soon.json: at signed.expires\nrelease: timestamp:$folder/soon.json: denied; 'release help 3' says what to do\ndenied 3 WrongShape at 0\n" publish -v "timestamp:$folder/soon.json"
    both 1 '' "timestamp:$folder/nine.json: 0 of 1 keys have signed\nrelease: timestamp:$folder/nine.json: denied; 'release help 12' says what to do\ndenied 12 TimestampThreshold at 0\n" publish -v "timestamp:$folder/nine.json"
    both 1 '' 'denied 4 WrongType at 1\n' publish "timestamp:$example/timestamp.json" "some_role:$example/snapshot.json"
    both 0 '{"accepted":3,"same":0}\n' '' publish "${all[@]}"
    both 0 '{"accepted":0,"same":3}\n' '' publish "${all[@]}"
    both 0 '{"accepted":0,"same":4}\n' '' publish "root:$example/root.json" "${all[@]}"
    both 1 '' "targets:$folder/long: length 262145\nrelease: targets:$folder/long: denied; 'release help 1' says what to do\nrelease: targets:$folder/long: 262145 bytes, of at most 262144: delegate a part of it, by 'release draft targets' with --delegate or --bins\ndenied 1 TooLong at 1\n" \
        publish -v "timestamp:$example/timestamp.json" "targets:$folder/long"
    both 1 '' 'denied 20 SnapshotVersion at 2\n' publish "root:$example/refused/root.json" \
        "timestamp:$example/refused/timestamp.json" "snapshot:$example/refused/snapshot.json"
    both 0 "$(sha256sum "$example/chain/tool.txt" | cut -c1-64)\n" '' put "$example/chain/tool.txt"
    both 0 '{"blobs":1,"rows":0}\n' '' prune
    both 0 '{"blobs":0,"rows":0}\n' '' prune
    served_one
    dump "$served" "$folder/before"
    dump "$folder/apart.db" "$folder/after"
    same "the tables after commands through the port" "$folder/before" "$folder/after"
}

# What is refused before the server is asked. Nobody listens.
refused_before_a_server_is_asked() {
    port=$(free_port)
    both 1 '' 'denied 38 BlobLength\n' put "$folder/large"
    both 3 '' 'fault file\n' put "$folder/none"
    both 1 '' 'denied 3 WrongShape at 1\n' publish "targets:$folder/none" "Targets:$folder/none"
    both 3 '' 'fault file\n' publish "targets:$folder/none"
    wants 3 '' 'fault network\n' put --port "$port" "$example/hello.txt"
    ends 3 '' 'fault network\n' faketime '1960-01-01 00:00:00' "$release" prune --port "$port"
}

# What 'publish' warns of over a database it warns of through the port, as far as the server answers what it holds. The repository is the one
# of the part about exports.
warnings_through_a_port() {
    local db=$folder/warned.db common='"expires":"2032-01-01T00:00:00Z","spec_version":"1.0.31"' id new key role other
    wants 0 'begun\n' '' init --at=$at --db "$db" "$folder/own.root"
    cp "$db" "$folder/apart.db"
    rm -f "$folder/apart.db-wal"
    (umask 077 && seed 8 "$folder/new.seed")
    key=$("$release" key --seed "$folder/new.seed" --ots 4 --height 5)
    new=$(printf %s "$key" | sha256sum | cut -c1-64)
    id=$(printf %s "$("$release" key --seed "$folder/own.seed" --ots 4 --height 5)" | sha256sum | cut -c1-64)
    role='{"keyids":["'$id'"],"threshold":1}' other='{"keyids":["'$new'"],"threshold":1}'
    key='"keys":{"'$id'":'$("$release" key --seed "$folder/own.seed" --ots 4 --height 5)',"'$new'":'$key'}'
    own "$folder/own.2.root" '{"_type":"root","consistent_snapshot":true,'$common','"$key"',"roles":{"root":'$role',"snapshot":'$role',"targets":'$role',"timestamp":'$role'},"version":2}'
    own "$folder/own.3.root" '{"_type":"root","consistent_snapshot":true,'$common','"$key"',"roles":{"root":'$role',"snapshot":'$role',"targets":'$role',"timestamp":'$other'},"version":3}'
    own "$folder/own.4.root" '{"_type":"root","consistent_snapshot":true,'$common','"$key"',"roles":{"root":'$role',"snapshot":'$other',"targets":'$role',"timestamp":'$other'},"version":4}'
    own "$folder/own.5.root" '{"_type":"root","consistent_snapshot":true,'$common','"$key"',"roles":{"root":'$role',"snapshot":'$role',"targets":'$role',"timestamp":'$other'},"version":5}'
    own "$folder/stranger.root" '{"_type":"root","consistent_snapshot":true,'$common','"$key"',"roles":{"root":'$role',"snapshot":'$role',"targets":'$role',"timestamp":'$other'},"version":5}' "$folder/new.seed"
    own "$folder/new.snapshot" '{"_type":"snapshot","meta":{"targets.json":{"version":1}},'$common',"version":1}' "$folder/new.seed"
    own "$folder/other.timestamp" '{"_type":"timestamp","meta":{"snapshot.json":{"version":1}},'$common',"version":1}'
    own "$folder/new.timestamp" '{"_type":"timestamp","meta":{"snapshot.json":{"version":1}},'$common',"version":1}' "$folder/new.seed"
    served=$db
    serve
    timestamps_that_are_not_taken
    roots_that_forget
    kill "$server"
    wait "$server" || true
    server= served=$folder/db
    dump "$db" "$folder/before"
    dump "$folder/apart.db" "$folder/after"
    same "the tables after warnings through the port" "$folder/before" "$folder/after"
    servers_that_answer_no_question
}

timestamps_that_are_not_taken() {
    local held=timestamp:$folder/own.timestamp other=timestamp:$folder/other.timestamp
    local told="warning: $other: not taken, another timestamp of its version is held\n"
    both 0 '{"accepted":3,"same":0}\n' '' publish "$held" "snapshot:$folder/own.snapshot" "targets:$folder/own.targets"
    both 0 '{"accepted":0,"same":1}\n' '' publish "$held"
    both 0 '{"accepted":0,"same":1}\n' "$told" publish "$other"
    both 0 '{"accepted":0,"same":2}\n' "$told" publish "$held" "$other"
    both 0 '{"accepted":0,"same":2}\n' '' publish "$other" "$held"
    both 0 '{"accepted":0,"same":2}\n' "$told" publish "root:$folder/own.root" "$other"
}

# each_of STATUS OUT ERR WORD..: so does `publish` end through the port and over the database; in ERR stands NAME for what they are named by.
each_of() {
    local status=$1 out=$2 err=$3
    shift 3
    wants "$status" "$out" "${err//NAME/port $port}" publish --port "$port" "$@"
    wants "$status" "$out" "${err//NAME/$folder/apart.db}" publish --at=$at --db "$folder/apart.db" "$@"
}

# A root of other keys alone, also after others of its batch; not where its timestamp stands after it, not where it is held, and not where
# it is denied.
roots_that_forget() {
    local forgets='warning: NAME: the root has other keys for the timestamp or the snapshot, and no timestamp comes after it: every target will be denied\n'
    local forgotten='warning: NAME: no timestamp any more: every target is denied until timestamp, snapshot and targets metadata are published\n'
    local root=root:$folder/own targets=targets:$folder/own.targets timestamp=timestamp:$folder/new.timestamp
    each_of 0 '{"accepted":1,"same":0}\n' '' "$root.2.root"
    each_of 0 '{"accepted":1,"same":1}\n' "${forgets}NAME: targets that will be denied: 4\n$forgotten" -v "$root.2.root" "$root.3.root"
    each_of 0 '{"accepted":0,"same":1}\n' '' "$root.3.root"
    each_of 1 '' 'denied 8 RootVersion at 0\n' "$root.2.root" "$root.3.root"
    each_of 0 '{"accepted":3,"same":0}\n' '' "$timestamp" "snapshot:$folder/own.snapshot" "$targets"
    each_of 0 '{"accepted":4,"same":0}\n' '' "$root.4.root" "$timestamp" "snapshot:$folder/new.snapshot" "$targets"
    each_of 0 '{"accepted":0,"same":1}\n' '' "$root.4.root"
    each_of 1 '' 'denied 9 OldThreshold at 0\n' "root:$folder/stranger.root"
    each_of 1 '' 'denied 9 OldThreshold at 1\n' "$root.4.root" "root:$folder/stranger.root"
    each_of 0 '{"accepted":1,"same":0}\n' "$forgets$forgotten" "$root.5.root"
    each_of 0 '{"accepted":0,"same":1}\n' '' "$root.5.root"
}

# A server that answers each batch so, and closes each connection with a question. Its port is printed into 'closing'.
answers_each_batch() {
    : >"$folder/closing"
    python3 - "$@" >"$folder/closing" <<'END' &
import http.server
import sys


class Handler(http.server.BaseHTTPRequestHandler):
    def do_GET(self):
        self.close_connection = True

    def do_POST(self):
        self.rfile.read(int(self.headers["Content-Length"]))
        body = sys.argv[2].encode()
        self.send_response(int(sys.argv[1]))
        self.send_header("Content-Length", str(len(body)))
        self.end_headers()
        self.wfile.write(body)

    def log_message(self, *words):
        pass


server = http.server.HTTPServer(("127.0.0.1", 0), Handler)
print(server.server_port, flush=True)
server.serve_forever()
END
    hosts+=($!)
    for _ in $(seq 100); do
        if [ -s "$folder/closing" ]; then break; fi
        sleep 0.1
    done
    closing=$(cat "$folder/closing")
}

# Nothing is warned of where no question is answered, and all else is as ever. What cannot be so is taken for no answer.
servers_that_answer_no_question() {
    local closing body unknown
    answers_each_batch 200 '{"accepted":1,"same":1}'
    wants 0 '{"accepted":1,"same":1}\n' '' publish -v --port "$closing" "root:$folder/own.2.root" "timestamp:$folder/other.timestamp"
    unknown='it is not known whether this was taken; sending it again is safe\nfault network\n'
    wants 3 '' "warning: port $closing: $unknown" publish --port "$closing" "root:$folder/own.2.root"
    end_hosts
    for body in '{"denial":255,"index":0,"rule":"Zzz"}' '{"denial":9,"index":18446744073709551615,"rule":"NewThreshold"}'; do
        answers_each_batch 403 "$body"
        wants 3 '' "warning: port $closing: $unknown" publish --port "$closing" "root:$folder/own.2.root"
        end_hosts
    done
}
