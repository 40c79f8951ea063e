# What the scripts that check the repository share: they count what is as it should be, and print what isn't.
passed=0
failed=0

# Counts a check: the first word says what is wrong where the second and the third differ.
same() {
    if [ "$2" = "$3" ]; then
        passed=$((passed + 1))
    else
        failed=$((failed + 1))
        printf '%s: %s\n-- it is:\n%s\n-- and not:\n%s\n' "${0##*/}" "$1" "$2" "$3" >&2
    fi
}

# The same of a command: the first word says what is wrong where it fails.
holds() {
    local status=0
    "${@:2}" || status=$?
    same "$1" "status $status" "status 0"
}

# Prints the counts, and ends the script with them.
end_of_checks() {
    echo "$passed passed, $failed failed"
    exit $((failed > 0))
}
