# The commands of chapters of documents, word by word, in folders of their own and at ports of their own.

# chapter WORD FOLDER DOCUMENT: the commands of this chapter of the document are run in the folder as they stand there.
chapter() {
    {
        echo 'set -e'
        sed -n '/^```sh '"$1"'$/,/^```$/{/^```/!p}' "docs/$3" | sed "s/8080/$(free_port)/"
    } >"$2/commands"
    (cd "$2" && PATH=${release%/*}:$PATH bash commands >out 2>err) || fail "the chapter '$1': $(cat "$2/err")"
}

# From seeds to a file that is served, a timestamp that is renewed and a key that is replaced.
the_first_chapter() {
    local name
    mkdir "$folder/first"
    chapter first "$folder/first" TUTORIAL.md
    {
        echo 'warning: book.db: a new book'
        for name in root targets snapshot timestamp timestamp owner writer packer; do echo 'warning: book.db: a new key ID'; done
    } >"$folder/first/told.wanted"
    same "what the chapter 'first' tells" "$folder/first/told.wanted" "$folder/first/err"
    {
        printf 'begun\n{"accepted":3,"same":0}\n%s\n' "$(sha256sum <"$folder/first/hello.txt" | cut -c 1-64)"
        printf '{"accepted":1,"same":0}\n{"accepted":4,"same":0}\n'
        for name in tool.tgz layout.json write.json pack.json; do sha256sum <"$folder/first/$name" | cut -c 1-64; done
        printf '{"accepted":3,"same":0}\n{"accepted":1,"same":0}\n'
    } >"$folder/first/wanted"
    grep -v '^listening' "$folder/first/out" >"$folder/first/said"
    same "what the chapter 'first' prints" "$folder/first/wanted" "$folder/first/said"
}

# Another timestamp of the version that is held counts as the same, over the repository of the first chapter. It is not taken, and a warning says so.
a_timestamp_that_is_not_taken() {
    local db=$folder/first/repository.db other=$folder/first/other
    sed -E 's/"expires":"[0-9]{4}/"expires":"2190/' "$folder/first/timestamp.unsigned.json" >"$other.unsigned"
    "$release" sign --book "$folder/first/book.db" --known --seed "$folder/first/timestamp.seed" --ots 8 --height 10 "$other.unsigned" >"$other.json"
    dump "$db" "$folder/before"
    wants 0 '{"accepted":0,"same":1}\n' '' publish --db "$db" "timestamp:$folder/first/timestamp.json"
    wants 0 '{"accepted":0,"same":1}\n' "warning: timestamp:$other.json: not taken, another timestamp of its version is held\n" \
        publish --db "$db" "timestamp:$other.json"
    dump "$db" "$folder/after"
    same "the tables after a timestamp that is not taken" "$folder/before" "$folder/after"
}

# A root with another key for the timestamp that is published alone: the repository has no timestamp any more, and says so.
a_root_alone_forgets() {
    local first=$folder/first id
    seed 9 "$first/other.seed"
    chmod 600 "$first/other.seed"
    "$release" key --seed "$first/other.seed" --ots 4 --height 5 >"$first/other.key"
    id=$(tr -d '\n' <"$first/other.key" | sha256sum | cut -c 1-64)
    python3 - "$first" "$id" <<'END'
import json, sys
folder, new = sys.argv[1:]
root = json.load(open(f"{folder}/root.json"))["signed"]
root["version"] += 1
old, = root["roles"]["timestamp"]["keyids"]
root["keys"] = {name: key for name, key in root["keys"].items() if name != old} | {new: json.load(open(f"{folder}/other.key"))}
root["roles"]["timestamp"]["keyids"] = [new]
text = {"signatures": [], "signed": root}
open(f"{folder}/alone.json", "w").write(json.dumps(text, sort_keys=True, separators=(",", ":")))
END
    "$release" sign --book "$first/book.db" --known --seed "$first/root.seed" --ots 8 --height 5 "$first/alone.json" >"$first/alone"
    wants 0 '{"accepted":1,"same":0}\n' \
        "warning: $first/repository.db: the root has other keys for the timestamp or the snapshot, and no timestamp comes after it: every target will be denied\nwarning: $first/repository.db: no timestamp any more: every target is denied until timestamp, snapshot and targets metadata are published\n" \
        publish --db "$first/repository.db" "root:$first/alone"
    wants 0 '{"accepted":0,"same":1}\n' '' publish --db "$first/repository.db" "root:$first/alone"
}

# A root of several people, a delegation, and other root keys.
the_team_chapter() {
    mkdir "$folder/team"
    chapter team "$folder/team" TUTORIAL.md
    {
        printf 'begun\n{"accepted":4,"same":0}\n%s\n' "$(sha256sum <"$folder/team/tool" | cut -c 1-64)"
        printf '{"accepted":1,"same":0}\n'
    } >"$folder/team/wanted"
    grep -v '^listening' "$folder/team/out" >"$folder/team/said"
    same "what the chapter 'team' prints" "$folder/team/wanted" "$folder/team/said"
    grep '^denied' "$folder/team/err" >"$folder/team/denied"
    printf 'denied 9 OldThreshold at 0\ndenied 9 OldThreshold at 0\n' >"$folder/team/denied.wanted"
    same "what is denied in the chapter 'team'" "$folder/team/denied.wanted" "$folder/team/denied"
}

# An index that is begun and run by drafts.
the_drafts_chapter() {
    mkdir "$folder/drafts"
    chapter drafts "$folder/drafts" TUTORIAL.md
    grep -e '^begun$' -e '^{' -e '^ready$' "$folder/drafts/out" >"$folder/drafts/said"
    {
        printf 'begun\nready\n{"accepted":3,"same":1}\n{"accepted":1,"same":0}\n{"accepted":4,"same":0}\n{"accepted":3,"same":0}\n'
        printf '{"accepted":3,"same":0}\nbegun\n{"accepted":3,"same":0}\n'
    } >"$folder/drafts/wanted"
    same "what the chapter 'drafts' prints" "$folder/drafts/wanted" "$folder/drafts/said"
    tail -n 1 "$folder/drafts/out" >"$folder/drafts/last"
    echo '  granted, 25 bytes' >"$folder/drafts/granted"
    same "how the chapter 'drafts' ends" "$folder/drafts/granted" "$folder/drafts/last"
}

# A ceremony for a root: what each person does, on one machine here.
the_ceremony_chapter() {
    mkdir "$folder/ceremony"
    chapter ceremony "$folder/ceremony" AUDITORS.md
    tail -n 1 "$folder/ceremony/out" >"$folder/ceremony/said"
    echo begun >"$folder/ceremony/wanted"
    same "what the ceremony ends in" "$folder/ceremony/wanted" "$folder/ceremony/said"
    [ "$(wc -l <"$folder/ceremony/minutes")" = 6 ] || fail "the minutes of the ceremony: $(cat "$folder/ceremony/minutes")"
}

the_backup_chapter() {
    local chapter=$folder/chapter
    mkdir "$chapter"
    cp -r "$example" "$chapter/example"
    chapter backup "$chapter" OPERATING.md
    grep -q '^ok$' "$chapter/out" || fail "the chapter on backups: the backup is not sound"
    grep -q '{"stored":true}' "$chapter/out" || fail "the chapter on backups: nothing was stored"
    checks=$((checks + 1))
}

# A key of two levels that gate/straight.py makes stands for one in a module.
the_outside_chapter() {
    local outside=$folder/module
    mkdir "$outside"
    of_two_levels public /dev/null >"$outside/module.public"
    {
        printf '#!/usr/bin/env bash\nset -e\nrepository=%q\n' "$repository"
        declare -f of_two_levels
        printf 'of_two_levels signature "$1"\n'
    } >"$outside/sign-by-module"
    chmod +x "$outside/sign-by-module"
    chapter outside "$outside" OPERATING.md
    [ "$(tail -n 1 "$outside/out")" = begun ] || fail "the chapter on signatures by another tool: $(cat "$outside/out")"
    grep -q '^warning: root: no book keeps what this key has signed: ' "$outside/err" || fail 'the chapter on signatures by another tool: no warning'
    checks=$((checks + 1))
}

# A statement of in-toto's in an envelope stands for what a build service signs. It has a signature of no key: what is tried is that it comes to the
# client as it is, next to the file whose digest it has.
the_attestations_chapter() {
    local attested=$folder/attested
    mkdir "$attested"
    echo 'echo hello' | gzip -n -c >"$attested/tool.gz"
    cat >"$attested/attest" <<'PYTHON'
#!/usr/bin/env python3
import base64, hashlib, json, sys
digest = hashlib.sha256(open(sys.argv[1], "rb").read()).hexdigest()
subject = [{"name": sys.argv[1], "digest": {"sha256": digest}}]
statement = {"_type": "https://in-toto.io/Statement/v1", "subject": subject, "predicateType": "https://slsa.dev/provenance/v1", "predicate": {}}
payload = base64.b64encode(json.dumps(statement).encode()).decode()
print(json.dumps({"payloadType": "application/vnd.in-toto+json", "payload": payload, "signatures": [{"sig": ""}]}))
PYTHON
    cat >"$attested/verify-attestation" <<'PYTHON'
#!/usr/bin/env python3
import base64, hashlib, json, sys
statement = json.loads(base64.b64decode(json.load(open(sys.argv[2]))["payload"]))
digest = hashlib.sha256(open(sys.argv[1], "rb").read()).hexdigest()
sys.exit("another file" if statement["subject"][0]["digest"]["sha256"] != digest else print("attested"))
PYTHON
    chmod +x "$attested/attest" "$attested/verify-attestation"
    chapter attestations "$attested" OPERATING.md
    [ "$(tail -n 1 "$attested/out")" = attested ] || fail "the chapter on attestations: $(cat "$attested/out")"
    same "the envelope that a client gets" "$attested/tool.gz.intoto.jsonl" "$attested/got.intoto.jsonl"
}

# Two machines, which are two folders here, each with a key of its own for the timestamp, and a third key that is used next.
the_machines_chapter() {
    local machines=$folder/machines
    mkdir "$machines"
    chapter machines "$machines" OPERATING.md
    grep -E '^(begun|signed|\{)' "$machines/out" >"$machines/said"
    {
        printf 'signed root with leaf 0 of 32\nbegun\nsigned targets with leaf 0 of 32\n'
        printf 'signed snapshot with leaf 0 of 32\nsigned timestamp with leaf 1 of 32\n{"accepted":3,"same":0}\n'
        printf 'signed timestamp with leaf 0 of 32\n{"accepted":1,"same":0}\n'
        printf 'signed root with leaf 1 of 32\nsigned snapshot with leaf 2 of 32\nsigned timestamp with leaf 3 of 32\n{"accepted":4,"same":0}\n'
    } >"$machines/wanted"
    same "what the chapter 'machines' prints" "$machines/wanted" "$machines/said"
    [ "$(grep -cE '^(snapshot|timestamp) .* 1 of 2  (near 30  far 31|far 31  near 30)  together 61 of 64$' "$machines/out")" = 2 ] ||
        fail "the leaves of two machines: $(cat "$machines/out")"
    checks=$((checks + 1))
}

# An index in bins.
the_bins_chapter() {
    local bins=$folder/in-bins
    mkdir "$bins"
    chapter bins "$bins" OPERATING.md
    grep -e '^begun$' -e '^{' -e '^  granted' "$bins/out" >"$bins/said"
    printf 'begun\n{"accepted":7,"same":0}\n{"accepted":4,"same":0}\n  granted, 18 bytes\n' >"$bins/wanted"
    same "what the chapter 'bins' prints" "$bins/wanted" "$bins/said"
}

# A client over a mirror of plain files.
the_client_chapter() {
    mkdir "$folder/clients"
    cp -r "$example" "$folder/clients/example"
    chapter client "$folder/clients" TUTORIAL.md
    grep -q '^updated$' "$folder/clients/out" || fail "the chapter on clients: nothing was updated"
    same "what the chapter on clients fetches" "$example/hello.txt" "$folder/clients/hello.txt"
}

# A device: its first boot, its updates into two slots, sources that are not there, are old or have no timestamp, updates that are killed, and a
# clock that stands at 1970. Only which of the killed updates had ended before depends on the machine.
the_devices_chapter() {
    local devices=$folder/devices count
    local done='updated\nwritten\n{"blobs":0,"rows":0}\n'
    mkdir "$devices"
    chapter devices "$devices" DEVICES.md
    {
        printf 'begun\n{"accepted":3,"same":0}\nexported 9\nbegun\nupdated\n'
        printf "${done}written\nwritten\nwritten parts/aa\nwritten parts/ab\n"
        printf '{"accepted":3,"same":0}\nexported 5\nupdated\nwritten\n{"blobs":0,"rows":1}\nwritten\n'
        printf "status 3\n${done}status 1\nstatus 1\n$done"
        for count in 1 2 3 4 5; do printf 'updated\nwritten\n'; done
        printf "${done}written\nfirmware 1\n"
    } >"$devices/wanted"
    grep -E '^(begun|exported|updated|written|status|firmware|\{)' "$devices/out" >"$devices/found"
    same "what the chapter 'devices' prints" "$devices/wanted" "$devices/found"
    printf 'fault network\ndenied 13 TimestampRollback\nnot fresh\n' >"$devices/ends.wanted"
    grep -E '^(denied|fault|not fresh|refused)' "$devices/err" >"$devices/ends"
    same "how updates end in the chapter 'devices'" "$devices/ends.wanted" "$devices/ends"
    [ "$(cat "$devices/device/next")" = a ] || fail "the slot that starts next: $(cat "$devices/device/next")"
    checks=$((checks + 1))
}
