# An index that grows: delegations by prefixes of digests, bins, and targets that go into the role that covers them. Keys of width 1 are the
# quickest to use.

# digits_at PATH N: the first N hex digits of the SHA-256 of a path.
digits_at() {
    printf %s "$1" | sha256sum | cut -c "1-$2"
}

an_index_in_bins() {
    local here=$PWD now=$at name ots=1
    mkdir -p "$folder/bins" && cd "$folder/bins"
    for name in root online half bin dev; do makes_key $name; done
    draft_alone root root=root.key targets=online.key snapshot=online.key timestamp=online.key
    signs root
    wants 0 'begun\n' '' init --at $now --db repository.db d/root.json
    a_role_by_prefixes
    bins_of_every_number
    bins_stand_where_they_are_said_to
    no_such_bins
    targets_are_spread
    a_spread_goes_on
    a_spread_that_is_refused
    cd "$here"
}

# What is covered by the digits of its path, published and fetched.
a_role_by_prefixes() {
    local digits
    mkdir deep && echo one >deep/one
    digits=$(digits_at deep/one 3)
    draft targets --delegate "half=half.key:#$digits,ffff"
    is_told '  + delegation to half path_hash_prefixes[0]: "'"$digits"'"'
    is_told '  + delegation to half path_hash_prefixes[1]: "ffff"'
    ! grep -q '"paths"' d/targets.json || fail "a delegation by prefixes has patterns"
    draft targets --role half --add deep/one
    is_sealed half
    serves_target deep/one
    draft targets --delegate "half=half.key:#$(digits_at none 4)"
    is_sealed
    "$release" show --at $now --db repository.db deep/one >"$folder/out" 2>&1 || true
    is_told '  denied 35 NotFound'
    draft targets --delegate "half=half.key:#$digits"
    is_sealed
    serves_target deep/one
}

# is_sealed [KEY]: what is drafted is signed, sealed and published.
is_sealed() {
    signs online
    if [ -n "${1:-}" ]; then signs "$1"; fi
    draft seal
    signs online
    "$release" publish --at $now --db repository.db --in d >"$folder/out" 2>"$folder/err" || fail "publish: $(cat "$folder/err")"
    checks=$((checks + 1))
}

# The delegations of each number of bins, computed once more.
bins_of_every_number() {
    local number
    for number in 2 4 8 16 32 64; do
        rm -rf e
        "$release" draft --at $now --in e targets --bins bin=bin.key:$number --terminating >"$folder/out"
        python3 - $number <<'END' || fail "bins of $number"
import json, sys
number = int(sys.argv[1])
said = json.load(open("e/targets.json"))["signed"]["delegations"]
digits = 1 if number <= 16 else 2
texts = [f"{n:0{digits}x}" for n in range(16 ** digits)]
keyid, = said["keys"]
assert [it["name"] for it in said["roles"]] == [f"bin-{n:0{digits}x}" for n in range(number)], said
assert [text for it in said["roles"] for text in it["path_hash_prefixes"]] == texts, said
assert {len(it["path_hash_prefixes"]) for it in said["roles"]} == {len(texts) // number}, said
for it in said["roles"]:
    assert it["keyids"] == [keyid] and it["threshold"] == 1 and it["terminating"] is True and "paths" not in it, it
END
        checks=$((checks + 1))
    done
}

# delegated_in FILE: the roles that a document delegates to, in their order.
delegated_in() {
    python3 -c 'import json, sys; print(*[it["name"] for it in json.load(open(sys.argv[1]))["signed"]["delegations"]["roles"]])' "$1"
}

# Bins before a role, and bins of which one is there already: it stays in its place, as any role that is delegated to once more.
bins_stand_where_they_are_said_to() {
    local wanted
    rm -rf e
    "$release" draft --at $now --in e targets --delegate 'bin-1=dev.key:dev/*' --delegate 'last=dev.key:last/*' >"$folder/out"
    "$release" draft --at $now --in e targets --bins bin=bin.key:2 --before last >"$folder/out"
    [ "$(delegated_in e/targets.json)" = 'bin-0 bin-1 last' ] || fail "bins before a role: $(delegated_in e/targets.json)"
    rm -rf e
    "$release" draft --at $now --in e targets --delegate 'bin-1=dev.key:dev/*' --delegate 'last=dev.key:last/*' >"$folder/out"
    "$release" draft --at $now --in e targets --bins bin=bin.key:2 >"$folder/out"
    [ "$(delegated_in e/targets.json)" = 'bin-1 last bin-0' ] || fail "a bin that was there: $(delegated_in e/targets.json)"
    ! grep -q '"dev/\*"' e/targets.json || fail "a bin covers what it covered before"
    checks=$((checks + 3))
}

no_such_bins() {
    local number said="error: '--bins' is NAME=RULE:N, N one of 2, 4, 8, 16, 32 and 64\n\nFor more information, try '--help'.\n"
    rm -rf e
    for number in 0 1 3 5 12 128 02 4x '' '#0'; do
        wants 2 '' "$said" draft --at $now --in e targets --bins "bin=bin.key:$number"
    done
    wants 2 '' "$said" draft --at $now --in e targets --bins bin.key:4
    wants 2 '' "$said" draft --at $now --in e targets --bins bin=bin.key
    [ ! -e e/targets.json ] || fail "a draft with bins that there cannot be"
    slip 1 'warning: targets: the draft would be denied' 'denied 3 WrongShape' draft --at $now --in e targets --delegate 'half=half.key:#00,app/*'
    slip 1 'warning: targets: the draft would be denied' 'denied 3 WrongShape' draft --at $now --in e targets --delegate 'half=half.key:app/*,#00'
    slip 1 'warning: targets: the draft would be denied' 'denied 3 WrongShape' draft --at $now --in e targets --delegate 'half=half.key:#00,#0f'
    slip 1 'warning: targets: the draft would be denied' 'denied 3 WrongShape' draft --at $now --in e targets --delegate 'half=half.key:#'
    slip 1 'warning: targets: the draft would be denied' 'denied 3 WrongShape' draft --at $now --in e targets --delegate 'half=half.key:#0F'
    slip 1 'warning: targets: the draft would be denied' 'denied 3 WrongShape' draft --at $now --in e targets --bins 'Bin=bin.key:4'
    slip 1 'warning: targets: the draft would be denied' 'denied 3 WrongShape' draft --at $now --in e targets --delegate 'half=half.key:half/*' --bins bin=bin.key:64
    [ ! -e e/targets.json ] || fail "a draft that would be denied"
    "$release" draft --at $now --in e targets --delegate half=half.key:00,0f >"$folder/out" 2>"$folder/err"
    grep -qxF "warning: half: its patterns are paths, and look like hex digits: prefixes of a path's SHA-256 are written #00,0f" "$folder/err" || fail "no warning: $(cat "$folder/err")"
    is_told '  + delegation to half paths[0]: "00"'
    "$release" draft --at $now --in e targets --delegate 'half=half.key:00,*' >"$folder/out" 2>"$folder/err"
    [ ! -s "$folder/err" ] || fail "a warning of what is no hex digit: $(cat "$folder/err")"
    checks=$((checks + 3))
}

# lists_where NAME ..: each file in `there` under these folders is listed just once, in the role that the rules name, which are computed once
# more: the bin of its digits, but a file of dev/ in bin-1 in the role `dev`.
lists_where() {
    python3 - "$@" <<'END' || fail "what the roles list"
import hashlib, json, os, sys
wanted = {}
for top in sys.argv[1:]:
    for at, _, names in os.walk(top):
        for name in names:
            path = f"{at}/{name}"
            role = f"bin-{int(hashlib.sha256(path.encode()).hexdigest()[0], 16) // 4}"
            wanted[path] = "dev" if role == "bin-1" and path.startswith("dev/") else role
found = {}
for role in ("targets", "bin-0", "bin-1", "bin-2", "bin-3", "dev"):
    for place in (f"d/{role}.json", f"d/held/{role}.json"):
        if os.path.exists(place):
            for path in json.load(open(place))["signed"]["targets"]:
                assert path not in found, path
                found[path] = role
            break
assert found == wanted, (found, wanted)
assert "dev" in found.values() and len(set(found.values())) == 5, found
END
    checks=$((checks + 1))
}

# Files over four bins, one of which delegates what is in dev/ further. One call drafts all roles.
targets_are_spread() {
    local n
    mkdir dev app
    for n in $(seq 16); do echo "dev $n" >dev/$n && echo "app $n" >app/$n; done
    draft targets --undelegate half --bins bin=bin.key:4 --terminating
    draft targets --role bin-1 --delegate 'dev=dev.key:dev/*'
    draft targets --spread --add dev --add app
    [ "$(ls d)" = "$(printf '%s\n' bin-0.json bin-1.json bin-2.json bin-3.json dev.json files held targets.json)" ] || fail "what a spread drafts: $(ls d)"
    rm -f d/held/half.json
    lists_where dev app
    is_told 'bin-0 1 (held: 0), expires in 90 days'
    is_told 'dev 1 (held: 0), expires in 90 days'
    signs online && signs bin --again && signs dev
    draft seal
    signs online
    wants 0 '{"accepted":8,"same":0}\n' '' publish --at $now --db repository.db --in d
    serves_target dev/1
    serves_target app/16
    for n in $(seq 16); do
        "$release" show --at $now --db repository.db dev/$n >"$folder/out"
        is_told "  granted, $(stat -c %s dev/$n) bytes"
    done
}

# What is listed stays where it is. A role without a change is not drafted.
a_spread_goes_on() {
    local role other
    echo again >dev/1
    role=$(listed_in dev/1) other=$(listed_in app/2)
    draft targets --spread --add dev/1
    [ "$(ls d)" = "$(printf '%s\n' "$role.json" files held)" ] || fail "a change of one target drafts $(ls d)"
    is_told "$role 2 (held: 1), expires in 90 days"
    draft targets --spread --remove app/2 --remove app/2 --remove none --remove ../x
    for name in app/2 none ../x; do
        grep -qxF "warning: $name: not listed, or named twice" "$folder/err" || fail "no warning of $name: $(cat "$folder/err")"
    done
    [ "$(wc -l <"$folder/err")" = 3 ] || fail "warnings: $(cat "$folder/err")"
    ! grep -q '"app/2"' "d/$other.json" || fail "a target that was removed"
    rm app/2
    lists_where dev app
    signs bin --again
    [ ! -e d/dev.json ] || signs dev
    draft seal
    signs online
    "$release" publish --at $now --db repository.db --in d >"$folder/out"
    serves_target dev/1
    echo top >top
    draft targets --add top
    draft targets --spread --add top --add app/1
    grep -q '"top"' d/targets.json || fail "what targets lists is listed elsewhere"
    ! grep -q '"top"' d/bin-*.json || fail "what targets lists is listed elsewhere, too"
    is_told 'targets 5 (held: 4), expires in 90 days'
    rm -f d/*.json
}

# listed_in PATH: the role that is held and lists the path.
listed_in() {
    basename "$(grep -l "\"$1\"" d/held/*.json)" .json
}

# Where one of the drafts is refused, no file changes.
a_spread_that_is_refused() {
    local role
    draft targets --spread --add dev --add app
    role=$(listed_in app/1)
    signs bin --again "$role.json"
    echo more >app/1
    echo more >dev/2
    nothing_changes 1 "warning: $role: its draft has signatures; --anew takes them off" 'refused signed' targets --spread --add app --add dev
    nothing_changes 1 'warning: none: not listed, or named twice' 'refused path' targets --spread --remove none
    nothing_changes 1 'warning: --spread: no target is added or removed' 'refused nothing' targets --spread
    nothing_changes 1 'warning: app/../x: no target path; PATH=FILE gives a file another one' 'denied 36 BadPath' targets --spread --add app/3 --add app/../x=app/1
    nothing_changes 3 'release: app/none: No such file or directory (os error 2)' 'fault file' targets --spread --add app/3 --add app/none
    nothing_changes 1 'warning: dev: over 262144 bytes: delegate a part of it: --delegate or --bins' 'refused long' targets --anew --spread $(many_targets)
    draft targets --anew --spread --add app --add dev
    [ "$(ls d/spent)" != '' ] || fail "signatures are gone"
    python3 -c 'import json, sys; assert json.load(open(sys.argv[1]))["signatures"] == []' "d/$role.json" || fail "signatures stay"
    lists_where dev app
    rm -r d/*.json
}

# nothing_changes STATUS LINE LAST WORD ..: a draft ends so, and the folder stays as it is.
nothing_changes() {
    local before
    before=$(find d -type f -print0 | sort -z | xargs -0 sha256sum)
    slip "$1" "$2" "$3" draft --at $now --db repository.db --in d "${@:4}"
    [ "$(find d -type f -print0 | sort -z | xargs -0 sha256sum)" = "$before" ] || fail "a file changed: ${*:4}"
}

# Words that list more targets in `dev` than a document has room for: paths of 200 bytes that one file stands for.
many_targets() {
    python3 - <<'END'
import hashlib
found = []
n = 0
while len(found) < 900:
    path = "dev/" + f"{n:05d}" + "x" * 191
    if hashlib.sha256(path.encode()).hexdigest()[0] in "4567":
        found.append(path)
    n += 1
print(*[word for path in found for word in ("--add", f"{path}=top")])
END
}
