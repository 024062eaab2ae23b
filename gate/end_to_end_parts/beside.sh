# The example, the program 'verdicts', and the scripts that run beside all else.

the_example_is_made() {
    python3 gate/example.py "$folder/example" >"$folder/digests"
    diff -r "$example" "$folder/example" || fail "the example is not what 'gate/example.py' makes"
    (cd "$example" && sha256sum --check --quiet "$folder/digests") || fail "the digests of the example"
    checks=$((checks + 1))
}

# The program `verdicts` over inputs and outputs that it does not reach the end of.
verdicts_that_end_early() {
    local said
    said=$(python3 gate/ends.py "$verdicts") || fail "verdicts: $said"
    checks=$((checks + 1))
}

# What takes its time runs beside all else, over repositories of its own. 'await' waits for it. Each writes its exit status into a file, for
# the shell forgets that of a process whose number a later one has got.
beside=()
start_beside() {
    local name
    for name in gate/peers.py gate/answers.py gate/clients.py gate/clock.py gate/full_disk.py gate/changed.py gate/signatures.py gate/one_time_keys.py gate/hostile_folders.py gate/levels.py gate/cut.py gate/in_toto_verifier.py deploy/try; do
        run_beside "$name" &
        beside+=("$!:$name")
    done
}

run_beside() {
    local ended=0
    "$repository/$1" "$release" >"$folder/$(basename "$1").out" 2>&1 || ended=$?
    echo "$ended" >"$folder/$(basename "$1").status"
}

await_beside() {
    local one name
    for one in "${beside[@]}"; do
        name=${one#*:}
        wait "${one%%:*}" 2>/dev/null || true
        [ "$(cat "$folder/$(basename "$name").status")" = 0 ] || fail "$name: $(cat "$folder/$(basename "$name").out")"
        checks=$((checks + 1))
    done
}
