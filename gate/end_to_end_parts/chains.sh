# Layouts and links that are drafted anew, that come in, and whose names begin alike: what stands signed stays, and what is listed is what is there.

# Two targets, of which the name of one begins with that of the other; each has a layout with a step of the same name.
chains_stay_apart() {
    local here=$PWD now=$at name
    mkdir -p "$folder/chains" && cd "$folder/chains"
    for name in root online owner first second; do makes_key $name; done
    draft_alone root root=root.key targets=online.key snapshot=online.key timestamp=online.key
    signs root
    wants 0 'begun\n' '' init --at $now --db repository.db d/root.json
    echo one >a && echo two >a.build
    draft targets --add a --add a.build
    draft layout --target a --owners owner.key build=first.key:a
    draft layout --target a.build --owners owner.key build=second.key:a.build
    signs owner
    links_find_their_targets
    what_is_signed_stays
    a_late_link_stays
    a_refused_layout_leaves_the_last_one
    references_follow
    cd "$here"
}

# links_of TARGET: the links that its reference names.
links_of() {
    python3 - "$1" <<'PYTHON'
import json, sys
it = json.load(open("d/targets.json"))["signed"]["targets"]
print(*sorted(it[sys.argv[1]]["custom"]["layout"]["links"]))
PYTHON
}

# step ID8 KEY: the first digits of a key's ID, as the name of a link has them.
digits_of() {
    id_of "$1" | cut -c1-8
}

# id_of NAME: all digits of it.
id_of() {
    head -c -1 "$1.key" | sha256sum | cut -c1-64
}

# A link whose step two layouts have needs its target to be told, and one of a step that the target's layout has not is refused.
links_find_their_targets() {
    local name
    for name in first second; do
        "$release" draft --at $now --in $name link --step build --products "$([ $name = first ] && echo a || echo a.build)" >/dev/null
        "$release" sign --at $now --key $name --in $name --yes >/dev/null
    done
    slips path draft --at $now --db repository.db --in d take first/links/build.json
    "$release" draft --at $now --in other link --step pack --products a >/dev/null
    "$release" sign --at $now --key first --in other --yes >/dev/null
    slips path draft --at $now --db repository.db --in d take --target a other/links/pack.json
    draft take --target a first/links/build.json
    draft take --target a.build second/links/build.json
    same "the links of a" <(echo "a.build.$(digits_of first).json") <(links_of a)
    same "the links of a.build" <(echo "a.build.build.$(digits_of second).json") <(links_of a.build)
}

# A layout and a link that have signatures are drafted anew where that is said, and else stay as they are.
what_is_signed_stays() {
    cp -r d before
    slips signed draft --at $now --db repository.db --in d layout --target a --owners owner.key build=first.key:a
    slips signed draft --at $now --in first link --step build --products a.build
    diff -r before d || fail "a refused draft of a layout changes the folder"
    checks=$((checks + 1))
}

# A link that comes in where the targets metadata have signatures stays, and is listed once these are taken off. In a copy of all files.
a_late_link_stays() {
    cp -r . "$folder/late"
    pushd "$folder/late" >/dev/null
    draft_alone --anew layout --target a --owners owner.key build=first.key,second.key:a
    signs owner
    draft_alone targets
    signs online targets.json
    "$release" draft --at $now --in again link --step build --products a >/dev/null
    "$release" sign --at $now --key second --in again --yes >/dev/null
    slips signed draft --at $now --in d take --target a again/links/build.json
    draft_alone targets --anew
    is_told '  step build: 2 of 1 links'
    grep -qF "+ a.build.$(digits_of second).json: " "$folder/out" || fail "a late link is not listed: $(cat "$folder/out")"
    popd >/dev/null
}

# A layout whose reference is refused: what was there stays, and where none was, there is none.
a_refused_layout_leaves_the_last_one() {
    rm -r before && cp -r d before
    draft targets --add c=a
    cp d/targets.json targets.json
    ends_with 1 'refused path' draft --at $now --db repository.db --in d layout --target none --owners owner.key build=first.key:a
    same "targets metadata after a refused layout" targets.json d/targets.json
    [ ! -e d/layouts/none.layout.json ] || fail "a refused layout stands"
    same "the layout of a" before/layouts/a.layout.json d/layouts/a.layout.json
    draft targets --remove c
}

# After a layout that is drafted anew the reference names the links that are there.
references_follow() {
    draft --anew layout --target a --owners owner.key build=first.key,second.key:a
    is_told 'layout of a'
    same "the links of a, drafted anew" <(echo "a.build.$(digits_of first).json") <(links_of a)
    signs owner
    slips file sign --at $now --key online --in d --yes targets.json
    grep -qx 'warning: a.layout.json: it has changed since it was listed; draft the targets metadata again' "$folder/err" || fail "not told: $(cat "$folder/err")"
    "$release" show --at $now --in d >"$folder/out"
    is_told 'next: release draft --in d targets --role targets'
    draft targets
    signs online targets.json
    a_draft_that_cannot_list_is_none
    draft seal
    signs online snapshot.json
    signs online timestamp.json
    "$release" show --at $now --in d --db repository.db >"$folder/out"
    is_told ready
    is_told 'next: release publish --db repository.db --in d'
    wants 0 '{"accepted":3,"same":0}\n' '' publish --at $now --db repository.db --in d
    serves_target a
    serves_target a.build
}

# What is to be listed again has signatures: nothing is drafted, whatever was asked for.
a_draft_that_cannot_list_is_none() {
    cp d/layouts/a.layout.json layout.json
    by_hand d/layouts/a.layout.json 'it["expires"] = "2030-12-01T00:00:00Z"'
    rm -r before && cp -r d before
    slips signed draft --at $now --db repository.db --in d root
    slips signed draft --at $now --db repository.db --in d targets --role tools
    diff -r before d || fail "a refused draft changes the folder"
    cp layout.json d/layouts/a.layout.json
    checks=$((checks + 1))
}
