# The pages that are made from the table of the subcommands: what three shells complete, and the manual.

# completes WANTED WORD ..: what bash completes of the last word of such a line, with spaces between.
completes() {
    local wanted=$1 found
    shift
    # shellcheck disable=SC2016
    found=$(bash --norc -c '. "$0"; COMP_WORDS=(release "$@"); COMP_CWORD=$#; _release; echo "${COMPREPLY[@]}"' "$folder/bash" "$@")
    [ "$found" = "$wanted" ] || fail "bash completes 'release $*' by: $found"
    checks=$((checks + 1))
}

# Each subcommand that help lists, and each of its options, stands in the page of each shell and in the manual.
pages_have_each_word() {
    local name option count=0
    for name in $("$release" --help | sed -n -E 's/^  ([a-z]+)  .*$/\1/p'); do
        if [ "$name" = help ]; then continue; fi
        grep -q "^    $name) words=" "$folder/bash" || fail "bash does not know $name"
        grep -q "^    $name)$" "$folder/zsh" || fail "zsh does not know $name"
        grep -q "^\.SS $name$" "$folder/man" || fail "the manual does not know $name"
        for option in $("$release" help "$name" | sed -n -E 's/^ +(-v, )?--([a-z-]+).*$/\2/p'); do
            grep -q "^    $name) words=.*--$option[ ']" "$folder/bash" || fail "bash does not know $name --$option"
            [ "$option" = help ] || grep -q "from $name' -l $option " "$folder/fish" || fail "fish does not know $name --$option"
            sed -n "/^    $name)$/,/;;/p" "$folder/zsh" | grep -q -e "--$option\[" || fail "zsh does not know $name --$option"
            [ "$option" = help ] || grep -q -F -e "\\fB\\-\\-${option//-/\\-}\\fR" "$folder/man" || fail "the manual does not know $name --$option"
            count=$((count + 1))
        done
    done
    [ "$count" -gt 70 ] || fail "no more than $count options were looked for"
    checks=$((checks + count))
}

# Where the shells and the reader of manuals are there, they take the pages without a word.
shells_take_the_pages() {
    if command -v fish >/dev/null; then
        fish --no-config -c "source $folder/fish; complete -C 'release s'" | cut -f 1 | sort >"$folder/completed"
        printf 'serve\nshow\nsign\n' >"$folder/wanted"
        same "what fish completes" "$folder/wanted" "$folder/completed"
    fi
    if command -v zsh >/dev/null; then
        [ -z "$(zsh -f -n "$folder/zsh" 2>&1)" ] || fail "zsh does not take the page"
        checks=$((checks + 1))
    fi
    if command -v groff >/dev/null; then
        [ -z "$(groff -man -Tutf8 -ww -z "$folder/man" 2>&1)" ] || fail "groff does not take the manual"
        checks=$((checks + 1))
    fi
}

pages_are_printed() {
    local page
    for page in bash fish man zsh; do
        "$release" help "$page" >"$folder/$page" || fail "help $page"
        [ -s "$folder/$page" ] || fail "help $page is empty"
    done
    says "unrecognized subcommand 'csh'" help csh
    says "unrecognized subcommand 'bash'" help bash x
    says "unrecognized subcommand 'bash'" bash
    mkdir -p "$folder/named/a folder"
    touch "$folder/named/a file" "$folder/named/other"
    completes 'serve show sign' s
    completes 'canon' c
    completes 'serve show sign' help s
    completes '--count' serve --c
    completes '' serve --port ''
    completes '' draft --expires ''
    completes "$folder/named/a folder" export --to "$folder/named/a"
    completes "$folder/named/a file $folder/named/a folder" canon "$folder/named/a"
    completes "$folder/named/other" init --db "$folder/named/o"
    pages_have_each_word
    shells_take_the_pages
}
