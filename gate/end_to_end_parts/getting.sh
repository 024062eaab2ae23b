# 'get' of several targets into a folder: an index with a delegated role, its export, and a client of it.

targets_into_a_folder() {
    local here=$PWD now=$at ots=1
    mkdir "$folder/many" && cd "$folder/many"
    an_index_of_many
    paths_by_a_port
    denials_among_paths
    paths_of_a_list
    all_that_is_listed
    what_stands_in_the_way
    mirrors_of_many
    many_as_json
    words_of_many
    cd "$here"
}

# gets_many STATUS OUT ERR WORD ..: 'get' of several targets into 'got' ends so.
gets_many() {
    local status=$1 out=$2 err=$3
    shift 3
    wants "$status" "$out" "$err" get --at $now --db client.db --to got "$@"
}

# A client that has the root alone, or one that was brought up to date.
begins_anew() {
    rm -rf client.db* got
    wants 0 'begun\n' '' init --at $now --db client.db root.json
}

follows_anew() {
    begins_anew
    wants 0 'updated\n' '' update --at $now --db client.db --from site
}

# Of the targets 'gone.txt' has no file in the export.
an_index_of_many() {
    local name
    for name in root online pool; do makes_key $name; done
    for name in a one two three gone; do echo "the file $name" >$name; done
    draft_alone root root=root.key targets=online.key snapshot=online.key timestamp=online.key
    signs root
    cp d/root.json .
    wants 0 'begun\n' '' init --at $now --db repository.db root.json
    draft targets --add a.txt=a --add b/c.txt=a --add gone.txt=gone --delegate 'pool=pool.key:pool/*,pool/*/*'
    draft targets --role pool --add pool/one.deb=one --add pool/two.deb=two --add pool/deep/three.deb=three
    signs online
    signs pool
    draft seal
    signs online
    "$release" publish --at $now --db repository.db --in d >"$folder/out" 2>"$folder/err" || fail "publish: $(cat "$folder/err")"
    "$release" export --at $now --db repository.db --to site >"$folder/out"
    rm site/targets/*.gone.txt
}

# Each path once and in order, each file in its place, for its owner alone; where a file stood there it keeps its mode. The same again asks nobody.
paths_by_a_port() {
    begins_anew
    served=$PWD/repository.db
    serve --count 7
    wants 0 'updated\n' '' update --at $now --db client.db --port "$port"
    gets_many 0 'written a.txt\nwritten pool/one.deb\n' '' --port "$port" pool/one.deb a.txt a.txt
    served_one
    served=$folder/db
    same "a target in a folder" a got/a.txt
    same "a target below a folder" one got/pool/one.deb
    has_mode 600 got/pool/one.deb
    chmod 644 got/pool/one.deb
    echo 'another file' >got/pool/one.deb
    gets_many 0 'written a.txt\nwritten pool/one.deb\n' '' --port "$port" a.txt pool/one.deb
    same "a target that was written again" one got/pool/one.deb
    has_mode 644 got/pool/one.deb
    [ "$(cd got && find . | sort | tr '\n' ' ')" = '. ./a.txt ./pool ./pool/one.deb ' ] || fail "other files in the folder: $(find got)"
    wants 0 'written\n' '' get --at $now --db client.db --port "$port" --out one.again pool/one.deb
    same "the same target alone" one one.again
}

# The others are done. The first denial is the end, and a fault before it.
denials_among_paths() {
    local dead
    dead=$(free_port)
    follows_anew
    gets_many 1 'written a.txt\nwritten pool/two.deb\n' \
        "warning: ../a.txt: denied 36 BadPath\nwarning: gone.txt: denied 37 BlobMissing\nwarning: none.txt: denied 35 NotFound\ndenied 36 BadPath\n" \
        --from site none.txt pool/two.deb gone.txt ../a.txt a.txt
    same "a target beside denied ones" two got/pool/two.deb
    gets_many 3 'written a.txt\n' 'warning: none.txt: denied 35 NotFound\nfault network\n' --port "$dead" a.txt none.txt pool/one.deb
    gets_many 3 'written a.txt\n' "release: port $dead: Connection refused (os error 111)\nrelease: pool/one.deb: the source failed\nfault network\n" \
        --port "$dead" a.txt pool/one.deb
    wants 1 '' 'warning: a.txt: denied 11 RootExpired\ndenied 11 RootExpired\n' get --at 253402300799 --db client.db --from site --to got a.txt
    wants 1 '' 'warning: a.txt: denied 6 NoRoot\ndenied 6 NoRoot\n' get --at $now --db nobody.db --from site --to got a.txt
    wants 3 '' 'fault database\n' get --at $now --db a --from site --to got a.txt
    wants 3 '' "release: none: No such file or directory (os error 2)\nfault file\n" get --at $now --db client.db --from none --to got a.txt
}

# Lines of a file, of which the empty ones are passed over. One that is no path is denied.
paths_of_a_list() {
    follows_anew
    printf 'a.txt\n\npool/one.deb\n/a.txt\npool/one.deb' >list
    gets_many 1 'written a.txt\nwritten pool/one.deb\n' 'warning: /a.txt: denied 36 BadPath\ndenied 36 BadPath\n' --from site --list list
    same "a target of a list" one got/pool/one.deb
    : >list
    gets_many 0 '' '' --from site --list list
    printf 'a.txt\n\377\n' >list
    gets_many 3 '' 'release: list: no UTF-8\nfault file\n' --from site --list list
    seq 4097 >list
    gets_many 3 '' 'release: list: more than 4,096 paths\nfault file\n' --from site --list list
    head -c 1048577 /dev/zero >list
    gets_many 3 '' 'release: list: longer than 1,048,576 bytes\nfault file\n' --from site --list list
    gets_many 3 '' 'fault file\n' --from site --list none
}

# All that is listed, by delegated roles too, whose metadata are fetched where they are missing.
all_that_is_listed() {
    local all='written a.txt\nwritten b/c.txt\nwritten pool/deep/three.deb\nwritten pool/one.deb\nwritten pool/two.deb\n' dead
    dead=$(free_port)
    follows_anew
    gets_many 1 "$all" 'warning: gone.txt: denied 37 BlobMissing\ndenied 37 BlobMissing\n' --from site --all
    same "a target of all" three got/pool/deep/three.deb
    same "another target of all" a got/b/c.txt
    follows_anew
    gets_many 0 'written pool/one.deb\nwritten pool/two.deb\n' '' --from site --all 'pool/*'
    [ ! -e got/pool/deep ] || fail "a pattern covers a slash"
    gets_many 0 'written a.txt\nwritten pool/deep/three.deb\n' 'warning: none/*: no path that is listed is of this pattern\n' \
        --from site --all 'pool/*/*' 'none/*' a.txt
    gets_many 0 'written pool/deep/three.deb\n' '' --port "$dead" --all 'pool/deep/*'
    gets_many 3 'written pool/deep/three.deb\n' 'fault network\n' --port "$dead" --all 'pool/deep/*' gone.txt
    wants 1 '' 'warning: client.db: denied 11 RootExpired\ndenied 11 RootExpired\n' get --at 253402300799 --db client.db --from site --to got --all
    wants 1 '' 'warning: nobody.db: denied 6 NoRoot\ndenied 6 NoRoot\n' get --at $now --db nobody.db --from site --to got --all
    begins_anew
    gets_many 1 '' 'warning: client.db: denied 16 NoTimestamp\ndenied 16 NoTimestamp\n' --from site --all
    cp -r site lacking
    rm lacking/metadata/1.pool.json
    follows_anew
    gets_many 3 'written a.txt\nwritten b/c.txt\n' 'release: client.db: the source failed\nfault network\n' --from lacking --all a.txt 'b/*'
    gets_many 0 'written pool/one.deb\nwritten pool/two.deb\n' '' --from lacking --from site --all 'pool/*'
}

# A link below the folder is not followed, what stands in the way stays, and the others are done. The folder itself may be a link.
what_stands_in_the_way() {
    local way='no folder on the way to it, and no link is followed' name
    follows_anew
    mkdir got outside
    ln -s ../outside got/pool
    gets_many 3 'written a.txt\nwritten b/c.txt\n' "release: got/pool/one.deb: $way\nfault file\n" --from site a.txt b/c.txt pool/one.deb
    gets_many 3 'written a.txt\n' 'warning: none.txt: denied 35 NotFound\nfault file\n' --from site a.txt none.txt pool/one.deb
    [ -z "$(ls -A outside)" ] || fail "a link led out of the folder"
    rm got/pool
    mkdir got/pool
    ln -s ../../outside got/pool/deep
    ln -s ../../outside/one got/pool/one.deb
    gets_many 3 'written pool/two.deb\n' "release: got/pool/deep/three.deb: $way\n$(
        )release: got/pool/one.deb: what stands there is no file\nfault file\n" --from site pool/one.deb pool/two.deb pool/deep/three.deb
    [ -z "$(ls -A outside)" ] || fail "a link led out of the folder"
    rm -r got
    mkdir -p got/a.txt
    echo 'a file' >got/pool
    gets_many 3 'written b/c.txt\n' "release: got/a.txt: what stands there is no file\nrelease: got/pool/one.deb: $way\nfault file\n" \
        --from site a.txt pool/one.deb b/c.txt
    [ "$(cat got/pool)" = 'a file' ] || fail "a file was replaced by a folder"
    rm -r got
    mkdir got
    for name in client.db client.db-wal; do
        ln -sf "../$name" got/a.txt
        gets_many 3 'written b/c.txt\n' "release: got/a.txt: a file of the client's own database\nfault file\n" --from site a.txt b/c.txt
    done
    rm -r got
    ln -s outside got
    gets_many 0 'written a.txt\n' '' --from site a.txt
    same "a target in a folder that a link leads to" a outside/a.txt
    rm got
    echo 'no folder' >got
    gets_many 3 '' 'release: got: no folder\nfault file\n' --from site a.txt
    rm -r got outside
    wants 3 '' 'release: : no folder\nfault file\n' get --at $now --db client.db --from site --to '' a.txt
    gets_many 0 'written a.txt\n' '' --from site a.txt
    ends 3 '' 'fault file\n' with_no_output get --at $now --db client.db --from site --to got a.txt
}

# A mirror that lies is passed over, and is warned of once. One that has nothing is passed over.
mirrors_of_many() {
    local lying whole lacking
    rm -rf "$folder/mirrors"
    mkdir "$folder/mirrors"
    cp -r site "$folder/mirrors/files"
    cd "$here"
    mirror_of other .deb
    lying=$url
    mirror_of honest
    whole=$url
    mirror_of withhold .deb
    lacking=$url
    cd "$folder/many"
    follows_anew
    gets_many 0 'written a.txt\nwritten pool/one.deb\nwritten pool/two.deb\n' "warning: $lying: denied 39 DigestMismatch\n" \
        --mirror "$lying" --mirror "$whole" a.txt pool/one.deb pool/two.deb
    same "a target of mirrors" two got/pool/two.deb
    follows_anew
    gets_many 0 'written a.txt\nwritten pool/one.deb\n' '' --mirror "$lacking" --mirror "$whole" a.txt pool/one.deb
    follows_anew
    gets_many 1 'written a.txt\n' 'warning: pool/one.deb: denied 37 BlobMissing\ndenied 37 BlobMissing\n' --mirror "$lacking" a.txt pool/one.deb
    end_hosts
}

# One object, in place of the lines: of each path its file, its denial or its fault, with the turns of its sources.
many_as_json() {
    local dead none
    dead=$(free_port)
    follows_anew
    none='"mirrors":[],'
    gets_many 1 "{\"answer\":\"denied 36 BadPath\",\"files\":[$(
        ){\"denied\":{\"name\":\"BadPath\",\"number\":36},$none\"path\":\"/a\",\"source\":null},$(
        ){\"length\":11,\"mirrors\":[{\"files\":2,\"source\":\"site\"}],\"path\":\"a.txt\",\"sha256\":\"$(sha256sum <a | cut -c 1-64)\",\"source\":\"site\"},$(
        ){\"denied\":{\"name\":\"NotFound\",\"number\":35},\"mirrors\":[{\"denied\":{\"name\":\"NotFound\",\"number\":35},\"source\":\"site\"}],$(
        )\"path\":\"none.txt\",\"source\":null}],$none\"now\":$now}\n" \
        'warning: /a: denied 36 BadPath\nwarning: none.txt: denied 35 NotFound\ndenied 36 BadPath\n' --json --from site none.txt a.txt /a
    mkdir got/b got/b/c.txt
    gets_many 3 "{\"answer\":\"fault file\",\"files\":[$(
        ){\"fault\":\"file\",\"mirrors\":[{\"files\":0,\"source\":\"port $dead\"}],\"path\":\"b/c.txt\",\"source\":null},$(
        ){\"fault\":\"network\",\"mirrors\":[{\"fault\":\"no answer that can be read\",\"source\":\"port $dead\"}],\"path\":\"pool/one.deb\",\"source\":null}],$(
        )$none\"now\":$now}\n" 'fault file\n' --json --port "$dead" b/c.txt pool/one.deb
    follows_anew
    gets_many 0 "{\"answer\":\"written\",\"files\":[$(
        ){\"length\":11,\"mirrors\":[{\"files\":1,\"source\":\"site\"}],\"path\":\"a.txt\",\"sha256\":\"$(sha256sum <a | cut -c 1-64)\",\"source\":\"site\"}],$(
        )\"mirrors\":[{\"files\":2,\"source\":\"site\"}],\"now\":$now}\n" '' --json --from site --all a.txt
    wants 3 '' 'fault database\n' get --at $now --db a --from site --to got --json a.txt
}

# Words that are none of 'get' into a folder.
words_of_many() {
    local words=(get --db client.db --from site)
    usage "${words[@]}" --to got
    usage "${words[@]}" --to got --out a.txt a.txt
    usage "${words[@]}" --out a.txt
    usage "${words[@]}" --out a.txt a.txt b.txt
    usage "${words[@]}" --out a.txt --all
    usage "${words[@]}" --out a.txt --list list
    usage "${words[@]}" --to got --list list a.txt
    usage "${words[@]}" --to got --list list --all
    usage "${words[@]}" --to got --list list --list list
    says 'a pattern is' "${words[@]}" --to got --all 'a b'
    says 'a pattern is' "${words[@]}" --to got --all ''
    says 'a pattern is' "${words[@]}" --to got --all 'a,b' '*'
}
