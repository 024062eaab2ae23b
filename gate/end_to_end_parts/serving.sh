# The server: its replies, its port, what it tells, and a server without end. Other parts ask it, too.

# A port that nobody listens on.
free_port() {
    local port
    for port in $(shuf -i 20000-29999 -n 100); do
        if ! (exec 3<>"/dev/tcp/127.0.0.1/$port") 2>/dev/null; then
            echo "$port"
            return
        fi
    done
    fail "no free port"
}

# Starts the server, with these words besides, and waits for its line. It serves the database that is served.
served=$folder/db
serve() {
    port=$(free_port)
    : >"$folder/serve.out"
    "$release" serve --at=$at --db "$served" --port "$port" "$@" >"$folder/serve.out" 2>"$folder/serve.err" &
    server=$!
    for _ in $(seq 300); do
        if [ -s "$folder/serve.out" ] || ! kill -0 "$server" 2>/dev/null; then break; fi
        sleep 0.1
    done
    printf 'listening on 127.0.0.1:%s\n' "$port" >"$folder/serve.wanted"
    same "the line of serve" "$folder/serve.wanted" "$folder/serve.out"
}

# The server ends by itself.
served_one() {
    wait "$server" || fail "serve ended with status $?"
    server=
    [ ! -s "$folder/serve.err" ] || fail "serve wrote to standard error"
    same "what serve wrote" "$folder/serve.wanted" "$folder/serve.out"
}

# replies STATUS TYPE BODY PATH CURL-WORD..: one request has this reply, byte for byte.
replies() {
    local status=$1 type=$2 body=$3 path=$4
    shift 4
    printf 'HTTP/1.1 %s\r\nContent-Type: application/%s\r\nContent-Length: %s\r\nConnection: close\r\n\r\n' \
        "$status" "$type" "$(wc -c <"$body")" >"$folder/head.wanted"
    serve --count 1
    : >"$folder/body"
    curl -s -S --max-time 60 -D "$folder/head" -o "$folder/body" -H 'Expect:' "$@" "http://127.0.0.1:$port$path"
    served_one
    same "head: $path" "$folder/head.wanted" "$folder/head"
    same "body: $path" "$body" "$folder/body"
}

targets_are_served() {
    replies '200 OK' octet-stream "$example/hello.txt" /targets/hello.txt
    replies '200 OK' octet-stream "$example/empty.txt" /targets/empty.txt
    replies '200 OK' json "$example/timestamp.json" /metadata/timestamp.json
    printf '{"denial":35,"rule":"NotFound"}' >"$folder/denial"
    replies '404 Not Found' json "$folder/denial" /targets/other.txt
    printf '{"fault":"size"}' >"$folder/fault"
    replies '413 Content Too Large' json "$folder/fault" "/blobs/$(sha256sum "$folder/large" | cut -c1-64)" -T "$folder/large"
}

a_port_that_is_taken() {
    serve --count 1
    wants 3 '' 'fault network\n' serve --db "$folder/other.db" --port "$port"
    wants 3 '' "release: port $port: Address already in use (os error 98)\nfault network\n" serve --db "$folder/other.db" --port "$port"
    wants 3 '' 'fault database\n' put --db "$folder/db" "$example/hello.txt"
    wants 3 '' "release: $folder/db: in use by another process; where a server runs over it, use --port\nfault database\n" put --db "$folder/db" "$example/hello.txt"
    curl -s -S -o "$folder/body" "http://127.0.0.1:$port/targets/hello.txt"
    served_one
    same "body: after two faults" "$example/hello.txt" "$folder/body"
}

# A server tells how many signatures its opening checked, which root is trusted and when the first document expires, and then one line for each connection.
connections_are_told() {
    local bytes name
    serve --verbose --count 4
    for name in targets/hello.txt targets/other.txt nope; do
        curl -s -S -o "$folder/body" "http://127.0.0.1:$port/$name"
    done
    exec 4<>"/dev/tcp/127.0.0.1/$port"
    printf 'nonsense\r\n\r\n' >&4
    cat <&4 >"$folder/body"
    exec 4>&-
    wait "$server" || fail "serve ended with status $?"
    server=
    bytes=$(($(wc -c <"$example/hello.txt") + 98))
    {
        echo "$folder/db: signatures checked: 1, opened in so many ms"
        echo "$folder/db: root 1 is trusted"
        echo "$folder/db: the first expiry is at 4102444800"
        echo "$at: GET /targets/hello.txt 200 $bytes -"
        echo "$at: GET /targets/other.txt 404 128 35"
        echo "$at: GET /nope 404 114 -"
        echo "$at: nonsense - 400 115 -"
    } >"$folder/told.wanted"
    sed -E 's/^([0-9]+: .*) [0-9]+$/\1/; s/opened in [0-9]+ ms$/opened in so many ms/' "$folder/serve.err" >"$folder/told"
    same "what a server tells" "$folder/told.wanted" "$folder/told"
}

# A server that only reads has no route by which something may be changed, whatever the method and the body, and serves all else. What a
# blob that it was sent says is not read: the whole of it is refused by its head.
a_server_that_only_reads() {
    local digest before path
    printf 'not to be stored' >"$folder/unwanted"
    digest=$(sha256sum "$folder/unwanted" | cut -c1-64)
    dump "$folder/db" "$folder/before"
    serve --read-only --count 8
    printf '{"fault":"route"}' >"$folder/fault"
    for path in "/blobs/$digest -T $folder/unwanted" "/batch --data-binary @$folder/unwanted" "/prune -X POST" "/batch" "/blobs/$digest" "/prune -T $folder/unwanted"; do
        set -- $path
        [ "$(curl -s -S -o "$folder/body" -w '%{http_code}' -H Expect: "${@:2}" "http://127.0.0.1:$port$1")" = 404 ] || fail "a server that only reads: $path"
        same "body: a server that only reads, $path" "$folder/fault" "$folder/body"
    done
    curl -s -S -o "$folder/body" "http://127.0.0.1:$port/targets/hello.txt"
    same "body: a target of a server that only reads" "$example/hello.txt" "$folder/body"
    [ "$(curl -s -S -o "$folder/body" -w '%{http_code}' -X POST "http://127.0.0.1:$port/targets/hello.txt")" = 405 ] || fail "a server that only reads: POST of a target"
    served_one
    dump "$folder/db" "$folder/after"
    same "rows behind a server that only reads" "$folder/before" "$folder/after"
}

# A server without a count serves until it is stopped, here by force. What it said that it stored is there when the file is
# opened again.
a_server_without_end() {
    local digest name
    printf 'abc' >"$folder/abc"
    digest=$(sha256sum "$folder/abc" | cut -c1-64)
    serve
    for name in hello.txt empty.txt hello.txt; do
        curl -s -S -o "$folder/body" "http://127.0.0.1:$port/targets/$name"
        same "body: $name of a server without a count" "$example/$name" "$folder/body"
    done
    printf '{"stored":true}' >"$folder/stored"
    curl -s -S -o "$folder/body" -T "$folder/abc" "http://127.0.0.1:$port/blobs/$digest"
    same "body: a blob is stored" "$folder/stored" "$folder/body"
    kill -9 "$server"
    wait "$server" 2>/dev/null || true
    server=
    rows "$folder/db" "SELECT hex(bytes) FROM blob WHERE digest = '$digest'" "$(hex "$folder/abc")\n"
    wants 0 "$digest\n" '' put --at=$at --db "$folder/db" "$folder/abc"
}
