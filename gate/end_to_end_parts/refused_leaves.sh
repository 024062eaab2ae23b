# What 'sign --key' refuses before it spends a leaf: each refusal and each slip of a hand, in an index of its own. No book changes by any of them.

# books: the bytes of all books here, and which leaves each keeps for what.
books() {
    local book
    find . -name '*.book' | sort | while read -r book; do
        sha256sum <"$book"
        dump "$book" "$folder/book"
        sha256sum <"$folder/book"
    done
}

# spares LINE COMMAND ..: the command ends with status 1 and this line, and no book changes. The line before it says of what, but where it is told by 1 or 2.
spares() {
    local before
    before=$(books)
    ends_with 1 "$@"
    [ "$(books)" = "$before" ] || fail "a book changed: ${*:2}"
    case $1 in
        'denied '[12]' '*) ;;
        *) names 'warning: ' ;;
    esac
    checks=$((checks + 1))
}

# refuses_to_sign LINE KEY [WORD ..]: `sign` of the folder of drafts by this key does so.
refuses_to_sign() {
    spares "$1" sign --at $now --key "$2" --in d --yes "${@:3}"
}

# names TEXT: what was refused was told with this.
names() {
    grep -qF -- "$1" "$folder/err" || fail "not told: $1 in $(cat "$folder/err")"
    checks=$((checks + 1))
}

# by_hand FILE CODE: the signed part `it` of a file is changed by an editor, and has no signatures then.
by_hand() {
    python3 - "$@" <<'PYTHON'
import json, sys
file, code = sys.argv[1:]
it = json.load(open(file))["signed"]
exec(code)
text = json.dumps({"signatures": [], "signed": it}, sort_keys=True, separators=(",", ":"))
open(file, "w").write(text)
PYTHON
}

# slips_by_hand LINE KEY ROLE CODE: so changed, the draft is refused. It stands there as before after that.
slips_by_hand() {
    cp "d/$3.json" "$folder/as_it_was"
    by_hand "d/$3.json" "$4"
    refuses_to_sign "$1" "$2" "$3.json"
    cp "$folder/as_it_was" "d/$3.json"
}

refusals_cost_no_leaf() {
    local here=$PWD now=$at
    mkdir -p "$folder/refusals" && cd "$folder/refusals"
    a_small_index_is_published
    no_document_is_signed
    strangers_sign_nothing
    books_that_are_others
    what_is_held_is_followed
    moments_orders_and_files
    one_document_a_version
    leaves_run_out
    the_old_forms_warn
    links_are_judged
    several_keys_sign
    several_documents_are_signed
    cd "$here"
}

a_small_index_is_published() {
    local name
    mkdir new
    for name in root targets snapshot timestamp tools; do
        makes_key $name
        cp $name.book new
    done
    draft_alone root root=root.key targets=targets.key snapshot=snapshot.key timestamp=timestamp.key
    signs root
    wants 0 'begun\n' '' init --at $now --db repository.db d/root.json
    echo hello >hello.txt
    draft targets --add hello.txt --delegate 'tools=tools.key:tools/*'
    draft targets --role tools
    signs targets
    signs tools
    draft seal
    signs snapshot
    signs timestamp
    wants 0 '{"accepted":4,"same":0}\n' '' publish --at $now --db repository.db --in d
}

# Denied 1 to 5: the whole document is judged, not its envelope alone.
no_document_is_signed() {
    draft root
    draft targets --expires 80d
    slips_by_hand 'denied 1 TooLong' targets targets 'it["x"] = "x" * 262144'
    cp d/targets.json "$folder/good"
    sed 's/,"signed"/, "signed"/' "$folder/good" >d/targets.json
    refuses_to_sign 'denied 2 NotCanonical' targets
    cp "$folder/good" d/targets.json
    slips_by_hand 'denied 3 WrongShape' targets targets 'it["targets"]["hello.txt"]["length"] = "6"'
    names 'warning: targets: signed.targets'
    slips_by_hand 'denied 3 WrongShape' targets targets 'del it["version"]'
    slips_by_hand 'denied 3 WrongShape' root root 'it["expires"] = "2031-02-29T00:00:00Z"'
    slips_by_hand 'denied 4 WrongType' targets targets 'it["_type"] = "snapshot"'
    slips_by_hand 'denied 5 BadKeyId' targets targets "$(id_of_a_line 'it["delegations"]' 'it["delegations"]["roles"][0]')"
    slips_by_hand 'denied 5 BadKeyId' root root "$(id_of_a_line it 'it["roles"]["timestamp"]')"
}

# id_of_a_line TABLE RULE: the rule's key gets the id that is the hash of its object with the line end after it.
id_of_a_line() {
    cat <<PYTHON
import hashlib
old = $2["keyids"][0]
key = $1["keys"].pop(old)
line = json.dumps(key, sort_keys=True, separators=(",", ":")) + "\n"
new = hashlib.sha256(line.encode()).hexdigest()
$1["keys"][new] = key
$2["keyids"] = [new]
PYTHON
}

# A key that no rule has for a document; also the key of another role, and one that the next root has no more.
strangers_sign_nothing() {
    refuses_to_sign 'refused stranger' snapshot targets.json
    refuses_to_sign 'refused stranger' tools targets
    refuses_to_sign 'refused stranger' targets root.json
    makes_key other
    refuses_to_sign 'refused stranger' other targets.json
    refuses_to_sign 'refused nothing' other
}

# No book, an empty one, that of another key, one that was left behind, one that was copied back: none is made, and none is changed.
books_that_are_others() {
    mv targets.book kept
    refuses_to_sign 'refused book' targets
    names 'targets.book: no such book'
    [ ! -e targets.book ] || fail "a book was made"
    : >targets.book
    refuses_to_sign 'refused book' targets
    [ ! -s targets.book ] || fail "a book was made in an empty file"
    cp snapshot.book targets.book
    refuses_to_sign 'refused book' targets
    names 'its book does not have the key'
    cp new/targets.book targets.book
    refuses_to_sign 'refused book' targets
    names 'warning: targets: '
    cp kept targets.book
    a_book_that_is_copied_back
}

# What the key signed meanwhile stands in the folder, by a leaf that the older book has not, and then has for another message.
a_book_that_is_copied_back() {
    cp -r d before
    signs targets
    is_told 'signed targets with leaf 1 of 32'
    cp targets.book newer
    cp d/targets.json signed.json
    cp kept targets.book
    refuses_to_sign 'refused book' targets targets
    by_hand before/targets.json 'it["expires"] = "2030-03-01T00:00:00Z"'
    "$release" sign --at $now --key targets --in before --yes >"$folder/out"
    is_told 'signed targets with leaf 1 of 32'
    refuses_to_sign 'refused book' targets targets
    cp newer targets.book
}

# Denied 8, 13, 14, 21 and 22, against what is held: a version that was forgotten, a timestamp that was not raised, a snapshot that forgets a role.
what_is_held_is_followed() {
    slips_by_hand 'denied 8 RootVersion' root root 'it["version"] = 1'
    slips_by_hand 'denied 8 RootVersion' root root 'it["version"] = 3'
    rm d/root.json
    draft seal
    signs snapshot
    signs timestamp
    wants 0 '{"accepted":3,"same":0}\n' '' publish --at $now --db repository.db --in d
    draft targets --expires 82d
    signs targets
    draft seal
    slips_by_hand 'denied 13 TimestampRollback' timestamp timestamp 'it["version"] = 2'
    slips_by_hand 'denied 13 TimestampRollback' timestamp timestamp 'it["version"] = 1'
    slips_by_hand 'denied 14 NamedSnapshotRollback' timestamp timestamp 'it["meta"]["snapshot.json"]["version"] = 1'
    slips_by_hand 'denied 21 SnapshotRollback' snapshot snapshot 'it["meta"]["targets.json"]["version"] = 1'
    slips_by_hand 'denied 22 RoleDropped' snapshot snapshot 'del it["meta"]["tools.json"]'
}

# An expiry at the moment; a snapshot and a timestamp over what lacks signatures; files that are not there, or have other lengths or bytes.
moments_orders_and_files() {
    local file text
    refuses_to_sign 'refused order' timestamp
    names 'warning: snapshot: too few signatures'
    echo other >other.txt
    draft targets --anew --add other.txt --expires 2030-01-01T00:00:00Z
    refuses_to_sign 'refused order' snapshot
    names 'warning: targets: too few signatures'
    refuses_to_sign 'refused past' targets
    draft targets --expires 83d
    file=d/files/$(sha256sum other.txt | cut -c1-64)
    for text in '' 'longer than it is' 'OTHER\n'; do
        printf "$text" >"$file"
        refuses_to_sign 'refused file' targets
        names 'warning: other.txt: '
    done
    rm "$file"
    refuses_to_sign 'refused file' targets
    names 'warning: other.txt: its file is neither in the folder nor held'
}

# One document of a kind and a version by a key, whatever folder it stands in; '--again' goes on, and a key of two roles needs it.
one_document_a_version() {
    draft targets --remove other.txt
    by_hand d/targets.json 'it["version"] = 2'
    refuses_to_sign 'refused other' targets
    names '--again goes on'
    rm d/targets.json d/snapshot.json d/timestamp.json
    draft targets --delegate 'more=tools.key:more/*'
    draft targets --role more --add more/hello.txt=hello.txt
    refuses_to_sign 'refused other' tools
    signs tools --again
    is_told 'signed more with leaf 1 of 32'
    rm d/targets.json d/more.json
    two_timestamps_of_a_version
}

# Two people seal over the same state. The second timestamp is not signed; and where it is, 'publish' says that it was not taken.
two_timestamps_of_a_version() {
    draft seal
    cp -r d e
    signs timestamp
    by_hand e/timestamp.json 'it["expires"] = "2030-01-02T00:00:00Z"'
    spares 'refused other' sign --at $now --key timestamp --in e --yes
    "$release" sign --at $now --key timestamp --in e --yes --again >"$folder/out"
    is_told 'signed timestamp with leaf 3 of 32'
    wants 0 '{"accepted":1,"same":0}\n' '' publish --at $now --db repository.db --in d
    wants 0 '{"accepted":0,"same":1}\n' 'warning: timestamp:e/timestamp.json: not taken, another timestamp of its version is held\n' \
        publish --at $now --db repository.db --in e
}

# keeps_leaves KEY FROM TO: the key's book keeps these leaves besides, for documents of other machines.
keeps_leaves() {
    local id
    id=$(head -c -1 "$1.key" | sha256sum | cut -c1-64)
    sqlite3 "$1.book" "WITH RECURSIVE n(leaf) AS (VALUES ($2) UNION ALL SELECT leaf + 1 FROM n WHERE leaf < $3)
        INSERT INTO leaf SELECT '$id', leaf, CAST('{\"_type\":\"y\",\"n\":' || leaf || '}' AS BLOB) FROM n"
}

# links_with_leaf N: the key signs a link with this leaf, and is warned of what is left as the text says.
links_with_leaf() {
    echo "$1" >made
    "$release" draft --at $now --in links link --step made --products made >/dev/null
    "$release" sign --at $now --key other --in links --yes >"$folder/out" 2>"$folder/err" || fail "leaf $1: $(cat "$folder/err")"
    is_told "signed links/made.json with leaf $1 of 32"
    printf "$2" >"$folder/err.wanted"
    same "what is told with leaf $1" "$folder/err.wanted" "$folder/err"
    rm links/links/made.json
}

# As soon as a quarter of the leaves is left a warning comes with each signature, and after the last one there is none.
leaves_run_out() {
    local few='warning: other: a quarter of its leaves or fewer are left\n'
    keeps_leaves other 0 21
    links_with_leaf 22 ''
    links_with_leaf 23 "$few"
    links_with_leaf 24 "$few"
    keeps_leaves other 25 30
    links_with_leaf 31 "$few"
    echo 32 >made
    "$release" draft --at $now --in links link --step made --products made >/dev/null
    spends_none_of_none
}

spends_none_of_none() {
    local before
    before=$(books)
    ends_with 1 'leaves spent' sign --at $now --key other --in links --yes
    [ "$(books)" = "$before" ] || fail "a book changed, all of whose leaves are spent"
    few_leaves_are_due
}

# With a quarter of its leaves left a key of the repository is due.
few_leaves_are_due() {
    keeps_leaves timestamp 4 22
    "$release" show --at $now --db repository.db --due 0 --key timestamp >"$folder/out" || fail "due with 9 leaves: $(cat "$folder/out")"
    keeps_leaves timestamp 23 23
    ends_with 1 due show --at $now --db repository.db --due 0 --key timestamp
}

# The form with a book that is named: one that is made is warned of. What it signed is a signature that the key's own book does not know.
the_old_forms_warn() {
    local words=(--seed root.seed --ots "${ots:-4}" --height 5 f/root.json)
    "$release" draft --at $now --db repository.db --in f root >/dev/null
    wants 1 '' 'unknown key\n' sign --known --book none.book "${words[@]}"
    "$release" sign --book typed.book "${words[@]}" >typed.json 2>"$folder/err"
    printf 'warning: typed.book: a new book\nwarning: typed.book: a new key ID\n' >"$folder/err.wanted"
    same "what a mistyped book is warned of" "$folder/err.wanted" "$folder/err"
    rm typed.book*
    cp typed.json f/root.json
    spares 'refused book' sign --at $now --key root --in f --yes root
}

# A document that is none of its kind is warned of by the old form, which signs what it is given.
ill_documents_are_warned_of() {
    by_hand f/root.json 'it["version"] = 0'
    "$release" sign --book typed.book --seed root.seed --ots "${ots:-4}" --height 5 f/root.json >typed.json 2>"$folder/err"
    names 'warning: f/root.json: it would be denied: signed.version'
    printf '%s' '{"signatures":[],"signed":{"_type":"layout","expires":"2031-01-01T00:00:00Z","inspect":[],"keys":{},"steps":[{"name":"build"}]}}' >f/ill.layout
    "$release" sign --book typed.book --seed root.seed --ots "${ots:-4}" --height 5 f/ill.layout >typed.json 2>"$folder/err"
    names 'warning: f/ill.layout: it would be denied: signed.steps[0].threshold'
    rm f/ill.layout typed.book*
}

# A link is judged as all else is: by its shape, and by whether the book knows what the key has signed here.
links_are_judged() {
    ill_documents_are_warned_of
    makes_key maker
    echo one >one
    "$release" draft --at $now --in bench link --step one --products one >/dev/null
    cp bench/links/one.json "$folder/good"
    by_hand bench/links/one.json 'it["products"]["one"] = {"sha256": "00"}'
    spares 'denied 3 WrongShape' sign --at $now --key maker --in bench --yes
    names 'warning: one.json: it is no link'
    cp "$folder/good" bench/links/one.json
    cp maker.book older
    "$release" sign --at $now --key maker --in bench --yes >"$folder/out"
    is_told 'signed links/one.json with leaf 0 of 32'
    spares 'refused signed' draft --at $now --in bench link --step one --products made
    cp maker.book newer
    cp older maker.book
    "$release" draft --at $now --in bench link --step two --materials one >/dev/null
    spares 'refused book' sign --at $now --key maker --in bench --yes two.json
    cp newer maker.book
    "$release" sign --at $now --key maker --in bench --yes >"$folder/out"
    is_told 'signed links/two.json with leaf 1 of 32'
    "$release" draft --at $now --in bench --anew link --step one --products made >"$folder/out"
    [ "$(head -c 16 bench/links/one.json)" = '{"signatures":[]' ] || fail "a link that is drafted anew has signatures"
    checks=$((checks + 1))
}

# Several keys are made and sign in one call each, in the order in which they are named; before the first of them signs, the files of all are there.
several_keys_sign() {
    "$release" key --at $at --new left right --ots 4 --height 5 >"$folder/ids"
    same "the IDs of two keys" <(for name in left right; do head -c -1 $name.key | sha256sum | cut -c1-64; done) "$folder/ids"
    spares 'refused exists' key --at $at --new third right --ots 4 --height 5
    [ ! -e third.seed ] || fail "a key is made beside one that stands already"
    spares 'refused exists' key --at $at --new third other third --ots 4 --height 5
    [ ! -e third.seed ] || fail "a key is made of a name that stands twice"
    "$release" draft --at $now --in pair root root=2@left.key,right.key targets=left.key snapshot=left.key timestamp=left.key >/dev/null
    mv right.book away
    spares 'refused book' sign --at $now --key left --key right --in pair --yes
    mv away right.book
    spares 'refused stranger' sign --at $now --key maker --key left --in pair --yes root
    "$release" sign --at $now --key left --key right --in pair --yes >"$folder/out"
    is_told 'signed root with leaf 0 of 32'
    "$release" show --at $now --in pair >"$folder/out"
    is_told '  2 of 2 have signed'
    spares 'refused nothing' sign --at $now --key right --key left --in pair --yes
    usage key --new left --seed left.seed
    says "'name' cannot be used with '--seed" key --seed left.seed --ots 4 --height 5 right
}

# signs_by_one FAULT TEXT ..: by the one key all that it may sign of its folder is signed in one call, each as the text says, in this order; then
# the command ends so.
signs_by_one() {
    local status=0
    "$release" sign --at $now --key single --in singly --yes >"$folder/out" 2>"$folder/err" || status=$?
    same "what one key signs" <(printf 'signed %s of 32\n' "${@:2}") "$folder/out"
    same "what one key is refused" <(printf "$1") <(tail -n 1 "$folder/err")
    [ "$status" = "$([ -n "$1" ] && echo 1 || echo 0)" ] || fail "status $status: $(cat "$folder/err")"
}

# drafts_by_one WORD ..
drafts_by_one() {
    "$release" draft --at $now --in singly "$@" >"$folder/out" 2>"$folder/err" || fail "draft $*: $(cat "$folder/err")"
}

# One key signs several documents in one call: each is judged over those that were signed before it, a timestamp over a snapshot, and targets
# metadata over a layout, which stands otherwise than they list it by then.
several_documents_are_signed() {
    makes_key single
    drafts_by_one root root=single.key targets=single.key snapshot=single.key timestamp=single.key
    drafts_by_one targets --add hello.txt --delegate 'tools=single.key:tools/*'
    signs_by_one '' 'root with leaf 0' 'targets with leaf 1'
    drafts_by_one seal
    cp -r singly singly.unsigned
    signs_by_one '' 'snapshot with leaf 2' 'timestamp with leaf 3'
    a_call_that_is_refused_midway
}

# What was signed before the refusal stands, and what is behind it is not signed.
a_call_that_is_refused_midway() {
    drafts_by_one --anew layout --target hello.txt --owners single.key build=maker.key:hello.txt
    "$release" draft --at $now --in singly.made link --step build --products hello.txt >/dev/null
    "$release" sign --at $now --key maker --in singly.made --yes >/dev/null
    drafts_by_one take --target hello.txt singly.made/links/build.json
    signs_by_one 'refused file\n' 'layouts/hello.txt.layout.json with leaf 4'
    names 'warning: hello.txt.layout.json: it has changed since it was listed; draft the targets metadata again'
    drafts_by_one targets
    cp single.book older
    cp targets.book single.book
    cp singly.unsigned/timestamp.json singly/timestamp.json
    spares 'refused book' sign --at $now --key single --in singly --yes
    cp older single.book
    "$release" sign --at $now --key single --in singly --yes --again >"$folder/out"
    is_told 'signed targets with leaf 5 of 32'
    is_told 'signed timestamp with leaf 3 of 32'
}
