# Keys that are printed, and documents that are signed.

# seed K FILE: the seed file of I in bytes K and SEED in bytes K.
seed() {
    printf "0$1%.0s" $(seq 48) >"$2"
    echo >>"$2"
}

# prints_key OTS HEIGHT K PUBLIC: `key` of seed K prints the object of this public key, which another implementation made.
prints_key() {
    seed "$3" "$folder/seed"
    wants 0 '{"keytype":"lms","keyval":{"public":"'"$4"'"},"scheme":"lms-sha256"}\n' '' key --seed "$folder/seed" --ots "$1" --height "$2"
}

# The public keys are Bouncy Castle's.
keys_are_printed() {
    local digits
    umask 077
    prints_key 1 5 1 0000000500000001010101010101010101010101010101016d299cd3b7b64aec73b13f6f506ab6cb9a97d7bdf32530513789774a3c3f6a92
    prints_key 2 5 2 00000005000000020202020202020202020202020202020276241773224edde7056e9095c802205bf90a0b991b6e76090012ac2c47a7dde8
    prints_key 4 5 1 00000005000000030101010101010101010101010101010166bf6f5816eee4bbf33c50acb480e09b4169ebb533372959bc4315c388e501ac
    prints_key 8 5 2 000000050000000402020202020202020202020202020202c2f867b408363ce3c3415e784ed08e9bd8524ec2ca021e8bb11f7b3414e8e6e9
    prints_key 8 10 1 00000006000000040101010101010101010101010101010163f3aa29d987632d5bddaa237e3d676706638f8bb9dd19da28c8fce34d2f3ccf
    umask 022
    seed 1 "$folder/seed"
    chmod 640 "$folder/seed"
    "$release" key --seed "$folder/seed" --ots 4 --height 5 >"$folder/key" 2>"$folder/err"
    echo "warning: $folder/seed: others than its owner may read this seed" >"$folder/err.wanted"
    same "the warning of a seed that others read" "$folder/err.wanted" "$folder/err"
    chmod 620 "$folder/seed"
    "$release" key --seed "$folder/seed" --ots 4 --height 5 >"$folder/key" 2>"$folder/err"
    echo "warning: $folder/seed: others than its owner may write this seed" >"$folder/err.wanted"
    same "the warning of a seed that others write" "$folder/err.wanted" "$folder/err"
    chmod 600 "$folder/seed"
    digits=$(head -c 96 "$folder/seed")
    for text in "$digits" "$digits\n\n" "$digits \n" "${digits^^}a\n" "${digits%1}A\n" "${digits%1}g\n" "${digits%01}\n" "${digits}01\n" ''; do
        printf '%b' "$text" >"$folder/seed"
        wants 3 '' 'fault file\n' key --seed "$folder/seed" --ots 4 --height 5
    done
    wants 3 '' 'fault file\n' key --seed "$folder/none" --ots 4 --height 5
    wants 3 '' "release: $folder/seed: no seed: 96 hex digits of lower case and a line feed\nfault file\n" key --seed "$folder/seed" --ots 4 --height 5
}

# A document of so many entries of other keys, whose signed part is this.
document() {
    local number
    printf '{"signatures":['
    for number in $(seq "$1"); do
        [ "$number" = 1 ] || printf ','
        printf '{"keyid":"%064x","sig":"00"}' "$number"
    done
    printf '],"signed":%s}' "$2"
}

# The six parts share these variables: the book, the seed and the words that name both, and a document before and after a signing.
documents_are_signed() {
    local book=$folder/book seed=$folder/signing.seed signed=$folder/signed unsigned=$folder/unsigned
    local words=(--book "$book" --seed "$seed" --ots 8 --height 5)
    (umask 077 && seed 3 "$seed")
    a_document_is_signed
    a_message_keeps_its_leaf
    documents_at_the_limits
    faults_of_signing
    a_book_with_a_further_table
    books_that_are_known
    leaves_are_spent
}

# A document signed twice, or its own output signed, is the same.
a_document_is_signed() {
    document 2 '{"_type":"x","a":1}' >"$unsigned"
    "$release" sign "${words[@]}" "$unsigned" >"$signed" 2>"$folder/told" || fail "sign"
    told "$book" 'a new book' 'a new key ID'
    [ "$(wc -c <"$signed")" = $(($(wc -c <"$unsigned") + 1 + 85 + 2 * 1292)) ] || fail "the length of a signed document"
    grep -q '^{"signatures":\[{"keyid":"0*1","sig":"00"},{"keyid":"0*2","sig":"00"},{"keyid":"[0-9a-f]*","sig":"0000000000000004[0-9a-f]*"}\],"signed":{"_type":"x","a":1}}$' "$signed" ||
        fail "a signed document"
    "$release" canon "$signed" >"$folder/canonical"
    same "a signed document is canonical" "$signed" "$folder/canonical"
    "$release" sign "${words[@]}" "$unsigned" >"$folder/again"
    same "signed twice" "$signed" "$folder/again"
    "$release" sign "${words[@]}" "$signed" >"$folder/again"
    same "its own output signed" "$signed" "$folder/again"
}

# by LEAF SEED NUMBER: the document of this number is signed by this leaf of the seed's key. A signature begins with the number of its leaf.
by() {
    document 0 "{\"_type\":\"x\",\"n\":$3}" >"$unsigned"
    "$release" sign --book "$folder/leaves" --seed "$2" --ots 4 --height 5 "$unsigned" >"$folder/one" 2>>"$folder/told_of_leaves" || fail "document $3"
    printf '"sig":"%08x\n' "$1" >"$folder/leaf.wanted"
    grep -o '"sig":"[0-9a-f]\{8\}' "$folder/one" >"$folder/leaf"
    same "the leaf of document $3" "$folder/leaf.wanted" "$folder/leaf"
}

# Each message gets the next leaf and keeps it, and another key has leaves of its own in the same book.
a_message_keeps_its_leaf() {
    local other=$folder/other.seed
    (umask 077 && seed 4 "$other")
    by 0 "$seed" 1
    by 1 "$seed" 2
    by 0 "$seed" 1
    by 2 "$seed" 3
    by 0 "$other" 3
    by 2 "$seed" 3
    by 3 "$seed" 4
    by 1 "$other" 1
    rows "$folder/leaves" 'SELECT count(*), count(DISTINCT key) FROM leaf' '6|2\n'
}

# The most entries and the longest document, and more of both; and what is no document to sign.
documents_at_the_limits() {
    document 15 '{"_type":"x","a":2}' >"$unsigned"
    "$release" sign "${words[@]}" "$unsigned" >"$folder/sixteen" || fail "sixteen entries"
    document 16 '{"_type":"x","a":2}' >"$unsigned"
    wants 1 '' 'denied 3 WrongShape\n' sign "${words[@]}" "$unsigned"
    document 17 '{"_type":"x","a":2}' >"$unsigned"
    wants 1 '' 'denied 3 WrongShape\n' sign "${words[@]}" "$unsigned"
    document 0 '{"a":2}' >"$unsigned"
    wants 1 '' 'denied 3 WrongShape\n' sign "${words[@]}" "$unsigned"
    document 0 '{"b":1,"_type":"x"}' >"$unsigned"
    wants 1 '' 'denied 2 NotCanonical\n' sign "${words[@]}" "$unsigned"
    document 0 "{\"_type\":\"$(head -c 259000 /dev/zero | tr '\0' x)\"}" >"$unsigned"
    "$release" sign "${words[@]}" "$unsigned" >"$folder/long" || fail "a long document"
    document 0 "{\"_type\":\"$(head -c 260000 /dev/zero | tr '\0' x)\"}" >"$unsigned"
    wants 1 '' 'denied 1 TooLong\n' sign "${words[@]}" "$unsigned"
    document 0 "{\"_type\":\"$(head -c 263000 /dev/zero | tr '\0' x)\"}" >"$unsigned"
    wants 1 '' 'denied 1 TooLong\n' sign "${words[@]}" "$unsigned"
}

faults_of_signing() {
    wants 3 '' 'fault file\n' sign --book "$book" --seed "$folder/none" --ots 8 --height 5 "$folder/none"
    wants 3 '' 'fault file\n' sign "${words[@]}" "$folder/none"
    wants 3 '' 'fault database\n' sign --book "$folder/none/book" --seed "$seed" --ots 8 --height 5 "$signed"
    sqlite3 "$folder/other" 'CREATE TABLE x(y)'
    wants 3 '' 'fault database\n' sign --book "$folder/other" --seed "$seed" --ots 8 --height 5 "$signed"
}

# A table after the two of a book is let be.
a_book_with_a_further_table() {
    dump "$book" "$folder/dump"
    sqlite3 "$folder/further" <"$folder/dump"
    sqlite3 "$folder/further" 'CREATE TABLE further(a); INSERT INTO further VALUES (1)'
    "$release" sign --book "$folder/further" --seed "$seed" --ots 8 --height 5 "$signed" >"$folder/again"
    same "signed again with a further table" "$signed" "$folder/again"
    rows "$folder/further" 'SELECT a FROM further' '1\n'
}

# told FILE FACT ..: what was told is that of the file the facts are, in this order, and nothing else.
told() {
    local file=$1
    : >"$folder/told.wanted"
    for fact in "${@:2}"; do printf 'warning: %s: %s\n' "$file" "$fact" >>"$folder/told.wanted"; done
    same "what is told of $file" "$folder/told.wanted" "$folder/told"
}

# A book that is made, and a key that is put into it, are told. Where both have to be known, none is made and no key put into it.
books_that_are_known() {
    local new=$folder/new.book other=$folder/unknown.seed
    local one=(--book "$new" --seed "$seed" --ots 4 --height 5)
    (umask 077 && seed 5 "$other")
    document 0 '{"_type":"x"}' >"$unsigned"
    wants 1 '' 'unknown key\n' sign --known "${one[@]}" "$unsigned"
    [ ! -e "$new" ] || fail "a book that has to be known is made"
    : >"$new"
    wants 1 '' 'unknown key\n' sign "${one[@]}" --known "$unsigned"
    [ ! -s "$new" ] || fail "a book is made in an empty file"
    "$release" sign "${one[@]}" "$unsigned" >"$folder/one" 2>"$folder/told" || fail "the first signature of a book"
    told "$new" 'a new book' 'a new key ID'
    "$release" sign "${one[@]}" --known "$unsigned" >"$folder/again" 2>"$folder/told" || fail "a known key"
    same "signed by a known key" "$folder/one" "$folder/again"
    told "$new"
    document 0 '{"_type":"y"}' >"$unsigned"
    wants 1 '' 'unknown key\n' sign --book "$new" --seed "$other" --ots 4 --height 5 --known "$unsigned"
    wants 1 '' 'unknown key\n' sign --book "$new" --seed "$seed" --ots 8 --height 5 --known "$unsigned"
    rows "$new" 'SELECT (SELECT count(*) FROM signer), (SELECT count(*) FROM leaf)' '1|1\n'
    "$release" sign --book "$new" --seed "$other" --ots 4 --height 5 "$unsigned" >/dev/null 2>"$folder/told" || fail "a second key"
    told "$new" 'a new key ID'
    trees_of_one_seed
    document 0 '{"a":2}' >"$unsigned"
    wants 1 '' "$(printf 'warning: %s: a new book' "$folder/denied.book")\ndenied 3 WrongShape\n" sign --book "$folder/denied.book" --seed "$seed" --ots 4 --height 5 "$unsigned"
    wants 1 '' 'unknown key\n' sign --known --book "$folder/denied.book" --seed "$seed" --ots 4 --height 5 "$unsigned"
    wants 3 '' 'fault database\n' sign --known --book "$folder/other" --seed "$seed" --ots 8 --height 5 "$signed"
}

# Another width or height of a seed has the same one-time keys: it is refused, nothing is written, and the first tree signs as before. Of two
# trees that stand there already neither signs.
trees_of_one_seed() {
    local two=$folder/two.book id tree
    local first="warning: $new: the seed signs here with --ots 4 --height 5, and at another width or height it has the same one-time keys: sign with --ots 4 --height 5, or by a key with a seed of its own\nrefused book\n"
    for tree in '8 --height 5' '1 --height 5' '1 --height 10'; do
        # shellcheck disable=SC2086
        wants 1 '' "$first" sign --book "$new" --seed "$seed" --ots $tree "$unsigned"
    done
    rows "$new" 'SELECT (SELECT count(*) FROM signer), (SELECT count(*) FROM leaf)' '2|2\n'
    "$release" sign "${one[@]}" --known "$unsigned" >/dev/null 2>"$folder/told" || fail "the first tree signs as before"
    told "$new"
    two_trees_stand_there
}

# As an older release left them.
two_trees_stand_there() {
    local both="two trees of this seed stand here, this one and that of"
    local then="and have the same one-time keys: replace both keys by a new root\nrefused book\n"
    id=$(printf %s "$("$release" key --seed "$seed" --ots 8 --height 5)" | sha256sum | cut -c1-64)
    dump "$new" "$folder/dump"
    sqlite3 "$two" <"$folder/dump"
    sqlite3 "$two" "INSERT INTO signer VALUES ('$id', 4, 5)"
    wants 1 '' "warning: $two: $both --ots 4 --height 5, $then" sign --known --book "$two" --seed "$seed" --ots 8 --height 5 "$unsigned"
    wants 1 '' "warning: $two: $both --ots 8 --height 5, $then" sign --known --book "$two" --seed "$seed" --ots 4 --height 5 "$unsigned"
    "$release" sign --known --book "$two" --seed "$other" --ots 4 --height 5 "$unsigned" >/dev/null 2>"$folder/told" || fail "another seed in the same book"
    mkdir "$folder/trees"
    cp "$two" "$folder/trees/k.book"
    cp "$seed" "$folder/trees/k.seed"
    "$release" key --seed "$seed" --ots 8 --height 5 >"$folder/trees/k.key"
    wants 0 'begun\n' '' init --at "$at" --db "$folder/trees/r.db" "$example/root.json"
    wants 1 '' "warning: $folder/trees/k: $both --ots 4 --height 5, $then" show --at "$at" --db "$folder/trees/r.db" --key "$folder/trees/k"
}

# Three of 32 leaves are taken so far. When all are, a document that has one is signed again, and no other.
leaves_are_spent() {
    local number
    rows "$book" 'SELECT count(*), max(leaf), count(DISTINCT message) FROM leaf' '3|2|3\n'
    rows "$book" 'SELECT ots, height FROM signer' '4|5\n'
    for number in $(seq 29); do
        document 0 "{\"_type\":\"y\",\"n\":$number}" >"$unsigned"
        "$release" sign "${words[@]}" "$unsigned" >"$folder/one" || fail "leaf $number"
        grep -q "\"sig\":\"$(printf %08x $((number + 2)))" "$folder/one" || fail "document $number is signed by another leaf"
    done
    document 0 '{"_type":"z"}' >"$unsigned"
    wants 1 '' 'leaves spent\n' sign "${words[@]}" "$unsigned"
    "$release" sign "${words[@]}" "$signed" >"$folder/again"
    same "signed again when all leaves are spent" "$signed" "$folder/again"
    rows "$book" 'SELECT count(*), max(leaf), count(DISTINCT message) FROM leaf' '32|31|32\n'
    sqlite3 "$folder/copy" "UPDATE leaf SET leaf = 32 WHERE leaf = 31" && cp "$folder/copy" "$folder/damaged"
    wants 3 '' 'fault damaged\n' sign --book "$folder/damaged" --seed "$seed" --ots 8 --height 5 "$signed"
}
