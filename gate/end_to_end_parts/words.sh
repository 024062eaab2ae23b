# The words of the command line: what is help, what is a fault of usage, and 'canon'.

canonical_forms() {
    printf '{ "b": 1, "a": 0 }' >"$folder/loose.json"
    printf '1.5' >"$folder/ill.json"
    wants 0 '{"a":0,"b":1}' '' canon "$folder/loose.json"
    wants 0 '{"a":0,"b":1}' '' canon --at 0 "$folder/loose.json"
    wants 1 '' 'denied 2 NotCanonical\n' canon "$folder/ill.json"
    wants 1 '' 'denied 2 NotCanonical\n' canon --at=253402300799 -- "$folder/ill.json"
    wants 1 '' 'denied 2 NotCanonical\n' canon --at=+253402300799 -- "$folder/ill.json"
    wants 3 '' 'fault file\n' canon "$folder/none.json"
    wants 3 '' 'fault file\n' canon --at 5 "$folder/none.json"
    long_canonical_form
}

# A canonical text of 262,144 bytes, the most of a document, stays as it is.
long_canonical_form() {
    {
        printf '['
        for _ in $(seq 3971); do printf '%s,' '{"a":"x\"y\\z","b":-9223372036854775808,"c":[1,null,true],"d":{}}'; done
        printf '"the last item makes it as long as is wanted, no more..\"]'
    } >"$folder/long.json"
    [ "$(wc -c <"$folder/long.json")" = 262144 ] || fail "a long text has another length"
    "$release" canon "$folder/long.json" >"$folder/out" || fail "a long text"
    same "a long canonical text" "$folder/long.json" "$folder/out"
}

# escapes DIGITS: bytes in hex, of which '-' is none, as printf has them.
escapes() {
    sed -e 's/^-$//' -e 's/../\\x&/g' <<<"$1"
}

# The texts of canonical_forms.txt, which other programs and the rules speak for.
each_canonical_form() {
    local text form
    while read -r text form; do
        printf '%b' "$(escapes "$text")" >"$folder/text.json"
        if [ "$form" = none ]; then
            wants 1 '' 'denied 2 NotCanonical\n' canon "$folder/text.json"
        else
            wants 0 "$(escapes "$form")" '' canon "$folder/text.json"
        fi
    done < <(grep -v '^#' gate/end_to_end_parts/canonical_forms.txt)
}

# The table of denials is that of docs/REFERENCE.md.
the_help_is_printed() {
    local name text version
    helps canon --help
    for name in canon draft export get init key prune publish put serve show sign update; do
        for text in "Example:" "release $name" "Exit status:" "--verbose" "help denials" "HTTP" OPERATING.md; do
            helps "$text" "$name" --help
            helps "$text" help "$name"
        done
    done
    helps --count serve --help
    helps 'release prune --db' help prune
    version=$(sed -n 's/^pub const VERSION: &str = "\(.*\)";$/\1/p' crates/cli_words/src/texts.rt)
    [ "$(grep -m 1 -o '^## [0-9.]*' CHANGELOG.md)" = "## $version" ] || fail "the newest changes are not those of $version"
    case $release in */unproved/*) version+=', NOT PROVED' ;; esac
    wants 0 "release $version\n" '' --version
    sed -n -E 's/^\| ([0-9]+) \| `([A-Za-z]+)` \| (.*) \|$/\1 \2 \3/p' docs/REFERENCE.md | tr -d '`' >"$folder/denials.wanted"
    "$release" help denials | sed -n -E 's/^ *([0-9]+)  ([A-Za-z]+) +(.*)$/\1 \2 \3/p' >"$folder/denials"
    [ "$(wc -l <"$folder/denials")" = 53 ] || fail "not 53 denials in the help"
    same "the table of denials" "$folder/denials.wanted" "$folder/denials"
}

# paragraph NUMBER NAME RULE: what help says of the denial, by its number and by its name. It begins with the line of a denied command and
# the rule of docs/REFERENCE.md, is folded, and has two sentences or more.
paragraph() {
    local said
    wants 0 "$("$release" help "$1")\n" '' help "$1"
    cp "$folder/out" "$folder/paragraph"
    wants 0 "$(cat "$folder/paragraph")\n" '' help "$2"
    [ "$(head -n 1 "$folder/paragraph")" = "denied $1 $2" ] || fail "the first line of help $1"
    said=$(tail -n +2 "$folder/paragraph" | tr '\n' ' ')
    [ "${said#"$3"}" != "$said" ] || fail "help $1 does not begin with its rule"
    grep -q -E '\. .*\. $' <<<"$said" || fail "help $1 has no two sentences"
    [ "$(wc -L <"$folder/paragraph")" -le 100 ] || fail "a line of help $1 is longer than 100 columns"
    checks=$((checks + 1))
}

# Help has a paragraph of each denial, and of no other number and no other name.
denials_have_paragraphs() {
    local number name rule other
    while read -r number name rule; do
        paragraph "$number" "$name" "$rule"
    done <"$folder/denials.wanted"
    wants 0 "$paragraph_of_29" '' help 29
    wants 0 "$paragraph_of_29" '' help RoleVersion
    for other in 0 54 256 999 -1 1.0 roleversion RoleVersion. denied; do
        says "unrecognized subcommand '$other'|unexpected argument '$other'" help "$other"
    done
    says "unrecognized subcommand '29'" help 29 x
    says "unrecognized subcommand 'RoleVersion'" help RoleVersion 29
    says "unrecognized subcommand '29'" 29
    says "unrecognized subcommand '29'" 29 help
    helps 'Usage: release publish' help publish
    helps 'release publish --db' help publish
    helps '29  RoleVersion' help denials
}

paragraph_of_29="denied 29 RoleVersion
The version is not the one that the snapshot lists: no snapshot was drafted after this document, or
the document is an older one. Seal first: 'release draft --in d seal' drafts a snapshot that lists
it, and a timestamp that names this snapshot. Have both signed by
'release sign --key snapshot --key timestamp --in d', and publish all of it in one batch by
'release publish --db repository.db --in d'. 'release show --db repository.db' prints the versions
that are held.
"

# documents N WORD: so many times this word.
documents() {
    local _
    for _ in $(seq "$1"); do echo "$2"; done
}

words_of_canon() {
    usage
    usage prune
    usage canon
    usage canon a b
    usage canon --at 5
    usage canon --at=-1 a
    usage canon --on a
    usage canon --verbose=1 a
    usage canon --at=253402300800 "$folder/loose.json"
}

words_of_init_and_prune() {
    local db=$folder/db
    says required init --db "$db"
    says required init "$example/root.json"
    says required init "$example/root.json" --at=5
    says required prune --at=5
    says required prune --at=5 -v
    says '--db|unexpected' prune --db="$db" a
    says '--db|unexpected' prune --db="$db" a b
    says '--db|unexpected' prune --db="$db" --db="$folder/other.db" -v
    says '--db|unexpected' prune --db="$db" --port=80 -v
    usage prune --db "$db" --at=-1
}

words_of_publish() {
    local db=$folder/db
    says required publish --db "$db"
    says required publish root:a --at=5
    usage publish --db "$db" $(documents 161 targets:none)
    usage publish --at=5 --db "$db" $(documents 161 targets:none)
    wants 3 '' 'fault file\n' publish --at=5 --db "$db" $(documents 160 "targets:$folder/none")
}

words_of_key() {
    local db=$folder/db
    says required key --ots 4 --height 5
    says required key --seed "$db" --height 5
    says required key --seed "$db" --ots 4
    says "'--ots' is 1, 2, 4 or 8" key --seed "$db" --ots 3 --height 5
    says "'--height' is 5 or 10" key --seed "$db" --ots 4 --height 7
    usage key --seed "$db" --ots 9 --height 5
    usage key --seed "$db" --ots 0 --height 5
    usage key --seed "$db" --ots 4 --height 11
    usage key --seed "$db" --ots 4 --height 5 a
}

words_of_sign() {
    local db=$folder/db
    says required sign --book a
    says required sign --seed "$db" --ots 8 --height 5 a
    says required sign --book "$db" --ots 8 --height 5 a
    says required sign --book "$db" --seed "$db" --height 5 a
    says required sign --book "$db" --seed "$db" --ots 8 --height 5
    says "'--height' is 5 or 10" sign --book "$db" --seed "$db" --ots 8 --height 6 a
}

words_of_put_and_serve() {
    local db=$folder/db
    says required put --db "$db"
    says required put abc --at=5
    usage put --db "$db" --at=-1 "$example/hello.txt"
    says '--db|unexpected' init --db="$db" a b
    says '--db|unexpected' put --db="$db" a b
    says '--db|unexpected' put --db="$db" --db="$folder/other.db" a
    says '--db|unexpected' put --db="$db" --port=80 a
    usage serve --db "$db"
    usage serve --db "$db" --port 0
    usage serve --db "$db" --port 65536
    usage serve --db "$db" --port 80 --count 0
    usage serve --db "$db" --port 80 --count 4294967296
}

words_of_a_client_and_export() {
    local db=$folder/db
    says required update --db "$db"
    says required update --port 80
    says required get --db "$db" --port 80 hello.txt
    says required get --db "$db" --port 80 --out "$folder/out.txt"
    says required get --db "$db" --out "$folder/out.txt" hello.txt
    says required export --db "$db"
    says required export --to "$folder/files"
    usage update --db "$db" --port 0
    usage update --db "$db" --port 65536
    usage update --db "$db" --port 80 --at=-1
    usage update --db "$db" --port 80 a
    usage get --db "$db" --port 65536 --out "$folder/out.txt" hello.txt
    usage get --db "$db" --port 80 --out "$folder/out.txt" --at=253402300800 hello.txt
    usage get --db "$db" --port 80 --out "$folder/out.txt" hello.txt empty.txt
    usage export --db "$db" --to "$folder/files" a
    usage export --db "$db" --to "$folder/files" --at=x
}

# A repository is in a database or behind a port, and beside a port no moment may stand.
words_of_a_port() {
    local db=$folder/db words
    for words in "put $example/hello.txt" "publish root:a" prune; do
        says 'required arguments' $words
        says 'required arguments' $words --at=5
        says "'--db <FILE>' cannot be used with '--port <P>'" $words --db "$db" --port 80
        says "'--db <FILE>' cannot be used with '--port <P>'" $words --db "$db" --port 80 --at=5
        says "'--at <SECONDS>' cannot be used with '--port <P>'" $words --port 80 --at=5
        usage $words --port 0
        usage $words --port 65536
        usage $words --port x
        usage $words --port 80 --port 80
        helps 'port <P>' ${words%% *} --help
    done
    usage put --port 80
    usage publish --port 80
    usage prune --port 80 a
    usage publish --port 80 $(documents 161 targets:none)
}

# Two forms of a command do not mix, and a kind of draft has its own options.
words_of_drafts() {
    local db=$folder/db
    says 'seed <S>' key
    says "'seed' cannot be used with '--new" key --new "$folder/key" --seed "$db"
    says required sign --key "$db" root.json
    says "'book' cannot be used with '--key" sign --key "$db" --in "$folder/files" --book "$db"
    says "'known' cannot be used with '--key" sign --key "$db" --in "$folder/files" --known
    says "'in' cannot be used with '--book" sign --book "$db" --seed "$db" --ots 8 --height 5 --in "$folder/files" a
    says "'yes' cannot be used with '--book" sign --book "$db" --seed "$db" --ots 8 --height 5 --yes a
    says "'file' may stand" sign --book "$db" --seed "$db" --ots 8 --height 5 a b
    says "'document' cannot be used with '--in" publish --db "$db" --in "$folder/files" root:a
    says required draft seal
    says required draft --in "$folder/files"
    says 'root, targets, layout, link, seal, take, message or attach' draft --in "$folder/files" roots
    says "'seed' cannot be used with '--public" key --public "$folder/key" --seed "$db"
    says "'new' cannot be used with '--public" key --public "$folder/key" --new "$db"
    says "'ots' cannot be used with '--public" key --public "$folder/key" --ots 4
    says "'name' cannot be used with '--public" key --public "$folder/key" "$db"
    says required draft --in "$folder/files" message
    says "'word' may stand 1 to 1 times" draft --in "$folder/files" message root targets
    says "'expires' cannot be used with 'message'" draft --in "$folder/files" --expires 9d message root
    says "'db' cannot be used with 'message'" draft --in "$folder/files" --db "$db" message root
    says "'key' cannot be used with 'message'" draft --in "$folder/files" message root --key a
    says "'key' cannot be used with 'root'" draft --in "$folder/files" root --key a
    says required draft --in "$folder/files" attach root a
    says '<ROLE> <SIG>' draft --in "$folder/files" attach root --key a
    says "'word' may stand 1 to 2 times" draft --in "$folder/files" attach root a b --key a
    says "'anew' cannot be used with 'attach'" draft --in "$folder/files" --anew attach root a --key a
    says "'add' cannot be used with 'attach'" draft --in "$folder/files" attach root a --key a --add a
    says "'target' cannot be used with 'root'" draft --in "$folder/files" root --target a
    says "'step' cannot be used with 'targets'" draft --in "$folder/files" targets --step a
    says "'owners' cannot be used with 'take'" draft --in "$folder/files" take --owners a b
    says "'products' cannot be used with 'layout'" draft --in "$folder/files" layout --target a --owners b --products c d
    says "'target' cannot be used with 'link'" draft --in "$folder/files" link --step a --target b
    says required draft --in "$folder/files" layout --target a --owners b
    says required draft --in "$folder/files" link
    says "'path' may stand 1 to 1 times" show --db "$db" a b
    says "'add' cannot be used with 'root'" draft --in "$folder/files" root --add a
    says "'word' cannot be used with 'targets'" draft --in "$folder/files" targets a
    says required draft --in "$folder/files" take
    says 'db <FILE>' show
    words_of_show
    usage show --db "$db" --due x
    says 'port <P>' update --db "$db"
    says "'--port <P>' cannot be used with '--mirror <URL>'" update --db "$db" --port 80 --mirror http://a
}

# What 'show' would not read is a fault: what is said of a repository alone next to a folder, and of documents next to a list of targets.
words_of_show() {
    local db=$folder/db files=$folder/files both=(--in "$folder/files" --db "$folder/db")
    says "'path' cannot be used with '--in <DIR>'" show --in "$files" hello.txt
    says "'path' cannot be used with '--in <DIR>'" show "${both[@]}" --json hello.txt
    says "'due' cannot be used with '--in <DIR>'" show --in "$files" --due 3
    says "'due' cannot be used with '--in <DIR>'" show "${both[@]}" --due 0
    says "'key' cannot be used with '--in <DIR>'" show --in "$files" --key a --key b
    says "'key' cannot be used with '--in <DIR>'" show "${both[@]}" --html "$files" --key a
    says "'list' cannot be used with '--in <DIR>'" show "${both[@]}" --list
    says "'list' cannot be used with '--in <DIR>'" show --list --in "$files"
    says "'path' cannot be used with '--list'" show --db "$db" --list hello.txt
    says "'due' cannot be used with '--list'" show --db "$db" --list --due 3
    says "'key' cannot be used with '--list'" show --db "$db" --list --json --key a
    says "'html' cannot be used with '--list'" show --db "$db" --list --html "$files"
    says 'db <FILE>' show --list
    usage show --db "$db" --list=1
    helps --list show --help
}

# Faults of usage make no database and no folder.
other_words() {
    words_of_canon
    words_of_init_and_prune
    words_of_publish
    words_of_key
    words_of_sign
    words_of_put_and_serve
    words_of_a_client_and_export
    words_of_a_port
    words_of_drafts
    [ ! -e "$folder/db" ] || fail "a usage fault made a database"
    [ ! -e "$folder/files" ] || fail "a usage fault made a folder"
}
