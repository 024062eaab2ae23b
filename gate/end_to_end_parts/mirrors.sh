# Mirrors by their URLs, and folders before them: each is asked in its turn, and by 'get' all together first, each file from the first of them
# that has it.

far=$folder/far.db
# The processes of mirrors, which are ended after this part.
end_hosts() {
    local one
    for one in "${hosts[@]}"; do kill "$one" 2>/dev/null || true; done
    hosts=()
}

# mirror_of WRONG [NAME [FILE]]: a mirror, in a folder, that does so with the file of this name. 'url' is its URL, and 'asked' a file whose
# first line is its port and that gets the names that it is asked for.
mirror_of() {
    asked=$folder/asked.${#hosts[@]}
    python3 model/hostile_mirror.py "$folder/mirrors" "$@" >"$asked" &
    hosts+=($!)
    for _ in $(seq 100); do
        if [ -s "$asked" ]; then break; fi
        sleep 0.1
    done
    url=http://127.0.0.1:$(head -n 1 "$asked")/files
}

# was_asked FILE NAME..: of a mirror these names were asked, in this order.
was_asked() {
    local file=$1
    shift
    printf 'files/%s\n' "$@" >"$folder/asked.wanted"
    tail -n +2 "$file" >"$folder/asked.found"
    same "what a mirror was asked for" "$folder/asked.wanted" "$folder/asked.found"
}

# A client that has the first root alone, and the words of its commands.
fresh() {
    rm -f "$far"*
    wants 0 'begun\n' '' init --at=$at --db "$far" "$example/root.json"
}

updates() {
    local status=$1 out=$2 err=$3
    shift 3
    wants "$status" "$out" "$err" update --at=$at --db "$far" "$@"
}

gets() {
    local status=$1 out=$2 err=$3
    shift 3
    rm -f "$folder/out.txt"
    wants "$status" "$out" "$err" get --at=$at --db "$far" --out "$folder/out.txt" "$@" hello.txt
    if [ "$status" = 0 ]; then same "from mirrors" "$example/hello.txt" "$folder/out.txt"; fi
}

bytes_of() { wc -c <"$example/$1"; }

mirrors_are_asked_in_order() {
    local whole honest hello
    hello=targets/$(sha256sum <"$example/hello.txt" | cut -c 1-64).hello.txt
    "$release" export --at=$at --db "$folder/db" --to "$folder/mirrors/files" >"$folder/out"
    mirror_of honest
    whole=$url honest=$asked
    the_first_that_has_it
    turns_as_json
    folders_are_asked_first
    folders_that_do_wrong
    folders_that_are_none
    mirrors_that_are_none
    answers_together
    hosts_and_redirections
    end_hosts
    words_that_are_no_mirror
}

# The first mirror lacks the target, or has another that is too long: that file alone comes from the second. Where none has it, the first denial
# is told, and the mirror that sends too much is warned of.
the_first_that_has_it() {
    local lacking long first
    mirror_of withhold "$hello"
    lacking=$url first=$asked
    fresh
    updates 0 'updated\n' '' --mirror "$lacking" --mirror "$whole"
    was_asked "$first" metadata/2.root.json metadata/timestamp.json metadata/1.snapshot.json
    was_asked "$honest" metadata/2.root.json metadata/timestamp.json
    gets 0 'written\n' "$lacking: metadata/1.targets.json: $(bytes_of targets.json) bytes\n$(
        )$lacking: $hello: none\n$whole: $hello: 32 bytes\n" -v --mirror "$lacking" --mirror "$whole"
    was_asked "$honest" metadata/2.root.json metadata/timestamp.json "$hello"
    mirror_of long "$hello"
    long=$url
    fresh
    updates 0 'updated\n' '' --mirror "$long"
    gets 3 '' 'fault network\n' --mirror "$long"
    gets 1 '' "warning: $long: longer than its limit\ndenied 37 BlobMissing\n" --mirror "$long" --mirror "$lacking"
    gets 1 '' "warning: $long: longer than its limit\ndenied 37 BlobMissing\n" --mirror "$lacking" --mirror "$long"
    gets 1 '' 'denied 37 BlobMissing\n' --mirror "$lacking"
    gets 0 'written\n' "$long: $hello: longer than its limit\n$whole: $hello: 32 bytes\n" -v --mirror "$long" --mirror "$whole"
}

# As JSON it is told of each source how its turn ended, and who gave what was wanted, also where nobody did. The turn of all together is
# nobody's.
turns_as_json() {
    local dead lying lacking long none before after end
    dead=http://127.0.0.1:$(free_port)
    mirror_of file metadata/2.root.json "$example/hello.txt"
    lying=$url
    mirror_of withhold "$hello"
    lacking=$url
    mirror_of long "$hello"
    long=$url
    before=$(versions 1 null null null) after=$(versions 1 1 1 1)
    fresh
    none="{\"fault\":\"no answer that can be read\",\"source\":\"$dead\"}"
    end="{\"denied\":{\"name\":\"NotCanonical\",\"number\":2},\"source\":\"$lying\"}"
    updates 1 "{\"after\":$before,\"answer\":\"denied 2 NotCanonical\",\"before\":$before,\"changed\":false,\"first\":{\"expires\":$(first_expiry),\"role\":\"root\"},$(
        )\"mirrors\":[$end,$none],\"now\":$at,\"source\":null}\n" "warning: $lying: denied 2 NotCanonical\ndenied 2 NotCanonical\n" \
        --json --mirror "$lying" --mirror "$dead"
    updates 0 "{\"after\":$after,\"answer\":\"updated\",\"before\":$before,\"changed\":true,\"first\":{\"expires\":$(first_expiry),\"role\":\"snapshot\"},$(
        )\"mirrors\":[$none,$end,{\"files\":2,\"source\":\"$whole\"},{\"files\":1,\"source\":\"$long\"}],\"now\":$at,\"source\":\"$whole\"}\n" \
        "warning: $lying: denied 2 NotCanonical\n" --json --mirror "$dead" --mirror "$lying" --mirror "$whole" --mirror "$long"
    end="{\"denied\":{\"name\":\"BlobMissing\",\"number\":37},\"source\":\"$lacking\"}"
    gets 1 "{\"answer\":\"denied 37 BlobMissing\",\"length\":null,\"mirrors\":[{\"fault\":\"longer than its limit\",\"source\":\"$long\"},$end],\"now\":$at,$(
        )\"path\":\"hello.txt\",\"sha256\":null,\"source\":null}\n" "warning: $long: longer than its limit\ndenied 37 BlobMissing\n" \
        --json --mirror "$long" --mirror "$lacking"
    gets 0 "{\"answer\":\"written\",\"length\":32,\"mirrors\":[],\"now\":$at,\"path\":\"hello.txt\",\"sha256\":\"${hello:8:64}\",\"source\":\"$whole\"}\n" \
        '' --json --mirror "$long" --mirror "$whole"
}

# What export wrote is read from its folder, which may be a link, before any mirror is asked.
folders_are_asked_first() {
    local files=$folder/mirrors/files newest=$folder/newest
    ln -s "$files" "$folder/stick"
    fresh
    updates 0 'updated\n' "$folder/stick: metadata/2.root.json: none\n$folder/stick: metadata/timestamp.json: $(bytes_of timestamp.json) bytes\n$(
        )$folder/stick: metadata/1.snapshot.json: $(bytes_of snapshot.json) bytes\n$(
        )$far: root 1, timestamp 1, snapshot 1; before: root 1, no timestamp, no snapshot\n$far: root 1 is trusted\n$(
        )$far: the first expiry is at $(first_expiry)\n" -v --from "$folder/stick"
    gets 0 'written\n' '' --from "$files"
    fresh
    updates 0 'updated\n' '' --mirror "$whole" --from "$files/"
    gets 0 'written\n' "$files: metadata/1.targets.json: $(bytes_of targets.json) bytes\n$files: $hello: 32 bytes\n" -v --mirror "$whole" --from "$files"
    fresh
    wants 0 '{"accepted":3,"same":0}\n' '' publish --at=$at --db "$far" timestamp:"$example/chain/timestamp.json" \
        snapshot:"$example/chain/snapshot.json" targets:"$example/chain/targets.json"
    "$release" export --at=$at --db "$far" --to "$newest" >"$folder/out"
    updates 1 '' 'denied 13 TimestampRollback\n' --from "$files"
    updates 0 'updated\n' "warning: $files: denied 13 TimestampRollback\n" --from "$files" --from "$newest"
    fresh
    updates 0 'updated\n' '' --from "$files" --from "$newest"
    rm "$folder/stick"
}

# A folder that lies ends its own turn alone, as a mirror does. Below a folder no link is followed.
folders_that_do_wrong() {
    local files=$folder/mirrors/files wrong=$folder/wrong
    cp -r "$files" "$wrong"
    cp "$example/hello.txt" "$wrong/metadata/2.root.json"
    fresh
    updates 1 '' 'denied 2 NotCanonical\n' --from "$wrong"
    updates 0 'updated\n' "warning: $wrong: denied 2 NotCanonical\n" --from "$wrong" --mirror "$whole"
    head -c 262145 /dev/zero >"$wrong/metadata/2.root.json"
    fresh
    updates 3 '' "release: $wrong: metadata/2.root.json: longer than its limit\nrelease: $far: the source failed\nfault network\n" --from "$wrong"
    updates 0 'updated\n' "warning: $wrong: longer than its limit\n" --from "$wrong" --mirror "$whole"
    rm "$wrong/metadata/2.root.json"
    mv "$wrong/metadata/timestamp.json" "$wrong/there"
    ln -s ../there "$wrong/metadata/timestamp.json"
    fresh
    updates 3 '' "release: $wrong: metadata/timestamp.json: no regular file, and no link is followed\nrelease: $far: the source failed\nfault network\n" \
        --from "$wrong"
    updates 0 'updated\n' '' --from "$wrong" --from "$files"
    mv "$wrong/metadata" "$wrong/documents"
    ln -s documents "$wrong/metadata"
    fresh
    updates 3 '' "release: $wrong: metadata/2.root.json: no folder, and no link is followed\nrelease: $far: the source failed\nfault network\n" --from "$wrong"
    rm -r "$wrong/metadata"
    updates 0 'updated\n' "warning: $wrong: no timestamp\n" --from "$wrong"
    updates 0 "{\"after\":$(versions 1 1 1 1),\"answer\":\"updated\",\"before\":$(versions 1 null null null),\"changed\":true,$(
        )\"first\":{\"expires\":$(first_expiry),\"role\":\"snapshot\"},\"mirrors\":[{\"files\":0,\"source\":\"$wrong\"},$(
        ){\"files\":2,\"source\":\"$files\"}],\"now\":$at,\"source\":\"$files\"}\n" '' --json --from "$wrong" --from "$files"
    rm -r "$wrong"
}

# A folder that is not there is a fault of a file, whatever stands next to it. A port stands alone.
folders_that_are_none() {
    local out=$folder/out.txt
    fresh
    updates 3 '' "release: $folder/none: No such file or directory (os error 2)\nfault file\n" --from "$folder/none" --mirror "$whole"
    wants 3 '' "release: $out: no folder\nfault file\n" get --at=$at --db "$far" --mirror "$whole" --from "$out" --out "$out" hello.txt
    wants 1 '' 'denied 36 BadPath\n' get --at=$at --db "$far" --from "$folder/none" --out "$out" /hello.txt
    usage update --db "$far" --from "$folder/mirrors/files" --port 80
    usage update --db "$far" --from "$folder/mirrors/files" --mirror localhost
}

# A mirror that is not there, and one that gives no answer, are passed over; where there is no other, the network failed.
mirrors_that_are_none() {
    local dead closing
    dead=http://127.0.0.1:$(free_port)
    mirror_of close
    closing=$url
    fresh
    updates 3 '' 'fault network\n' --mirror "$dead" --mirror "$closing"
    updates 0 'updated\n' "$dead: Connection refused (os error 111)\n$whole: metadata/2.root.json: none\n$(
        )$whole: metadata/timestamp.json: $(bytes_of timestamp.json) bytes\n$(
        )$whole: metadata/1.snapshot.json: $(bytes_of snapshot.json) bytes\n$(
        )$far: root 1, timestamp 1, snapshot 1; before: root 1, no timestamp, no snapshot\n$far: root 1 is trusted\n$(
        )$far: the first expiry is at $(first_expiry)\n" -v --mirror "$dead" --mirror "$whole"
    gets 3 '' 'fault network\n' --mirror "$dead" --mirror "$closing" --mirror http://nowhere.invalid/files
    gets 0 'written\n' '' --mirror "$dead" --mirror "$closing" --mirror http://nowhere.invalid/files --mirror "$whole/"
}

# None of the mirrors has a timestamp: it is warned of, as of a port, and is an end of its own where the update has to be fresh. One that gives no
# answer stands for none.
answers_together() {
    local first second dead
    dead=http://127.0.0.1:$(free_port)
    mirror_of withhold metadata/timestamp.json
    first=$url
    mirror_of forbid metadata/timestamp.json
    second=$url
    fresh
    updates 0 'updated\n' "warning: $first, $second: no timestamp\n" --mirror "$first" --mirror "$second"
    updates 0 'updated\n' "warning: $dead, $first: no timestamp\n" --mirror "$dead" --mirror "$first"
    updates 1 '' "warning: $first, $second: no timestamp\nnot fresh\n" --fresh --mirror "$first" --mirror "$second"
    updates 0 'updated\n' '' --mirror "$first" --mirror "$second" --mirror "$whole"
    updates 0 'updated\n' '' --fresh --mirror "$first" --mirror "$second" --mirror "$whole"
    updates 1 '' "warning: $first: no timestamp\nnot fresh\n" --fresh --mirror "$first"
    updates 1 "{\"after\":$(versions 1 1 1 1),\"answer\":\"not fresh\",\"before\":$(versions 1 1 1 1),\"changed\":false,$(
        )\"first\":{\"expires\":$(first_expiry),\"role\":\"snapshot\"},\"mirrors\":[{\"files\":0,\"source\":\"$first\"}],$(
        )\"now\":$at,\"source\":null}\n" "warning: $first: no timestamp\nnot fresh\n" --fresh --json --mirror "$first"
    updates 3 '' "fault network\n" --fresh --mirror "$dead" --mirror "$dead"
}

# nginx knows one host by its name, and another that points elsewhere: no redirection is followed, and a line tells of it.
hosts_and_redirections() {
    local known moved away
    known=$(free_port) moved=$(free_port)
    away=metadata/2.root.json:\ status\ 301,\ which\ points\ to\ https://mirror.example.org/files/metadata/2.root.json
    nginx_with "server { listen 127.0.0.1:$known default_server; return 421; }
        server { listen 127.0.0.1:$known; server_name localhost; root $folder/mirrors; }
        server { listen 127.0.0.1:$moved; return 301 https://mirror.example.org\$request_uri; }" "$known"
    known=http://localhost:$known moved=http://localhost:$moved
    fresh
    updates 3 '' "release: ${known/localhost/127.0.0.1}/files: metadata/2.root.json: status 421\nrelease: $far: the source failed\nfault network\n" \
        --mirror "${known/localhost/127.0.0.1}/files"
    updates 3 '' "release: $moved/files: $away\nrelease: $far: the source failed\nfault network\n" --mirror "$moved/files"
    updates 0 'updated\n' '' --mirror "$moved/files" --mirror "$known/files"
    gets 0 'written\n' '' --mirror "$known/files/"
    fresh
    updates 0 'updated\n' "warning: $known: no timestamp\n" --mirror "$known"
}

# nginx_with SERVERS PORT: nginx with these servers, once it listens on this port.
nginx_with() {
    local one temporary=
    mkdir "$folder/nginx"
    for one in client_body proxy fastcgi uwsgi scgi; do temporary+="${one}_temp_path $folder/nginx/$one; "; done
    printf 'pid %s; error_log %s; events {} http { access_log off; %s %s }\n' \
        "$folder/nginx/pid" "$folder/nginx/log" "$temporary" "$1" >"$folder/nginx.conf"
    if [ "$(id -u)" = 0 ]; then sed -i '1i user root;' "$folder/nginx.conf"; fi
    nginx -c "$folder/nginx.conf" -g 'daemon off;' 2>"$folder/nginx/err" &
    hosts+=($!)
    for _ in $(seq 100); do
        if (exec 3<>"/dev/tcp/127.0.0.1/$2") 2>/dev/null; then return; fi
        sleep 0.1
    done
    fail "nginx: $(cat "$folder/nginx/err" "$folder/nginx/log")"
}

# What is no URL of a mirror is a fault of the command line.
words_that_are_no_mirror() {
    local word
    for word in '' localhost localhost:80 ftp://localhost http:/localhost http:// http://:80 http://localhost: http://localhost:0 \
        http://localhost:080 http://localhost:+80 http://localhost:65536 http://a_b 'http://a b' http://user@localhost http://[::1] \
        http://localhost// http://localhost//files http://localhost/files// http://localhost/a/../b http://localhost/files?x \
        http://localhost/files#x http://localhost/%20 HTTP://localhost "http://$(printf 'a%.0s' $(seq 254))"; do
        usage update --db "$far" --mirror "$word"
        usage get --db "$far" --mirror http://localhost --mirror "$word" --out "$folder/out.txt" hello.txt
    done
    says 'TLS|OPERATING' update --db "$far" --mirror https://mirror.example.org
    usage update --db "$far" --mirror http://localhost --port 80
    usage update --db "$far"
}
