# For tests to source: same NAME WANTED GOT counts in `passed` and `failed`.
passed=0
failed=0
same() {
    if [ "$2" = "$3" ]; then
        passed=$((passed + 1))
    else
        failed=$((failed + 1))
        echo "$1: expected '$2', found '$3'" | head -c 400
        echo
    fi
}
