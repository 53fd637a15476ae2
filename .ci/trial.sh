# For the quick checks: `trial CHECK FILE SED-EDIT` sees that CHECK refuses a copy of the repository in which FILE is edited. Sourced.
room=$(mktemp -d) || exit 2
trap 'rm -rf "$room"' EXIT
tried=0
# the words that CHECK is run with, where a part of the repository is enough
only=

# all but what is built, and .git
whole_copy() {
    rm -rf "$room/copy"
    mkdir "$room/copy" || return 1
    tar -cf - --warning=no-file-changed --no-wildcards-match-slash --exclude=./target --exclude=./.git --exclude='./crates/*/out' . | tar -xf - -C "$room/copy"
}
fresh_copy() {
    whole_copy
}

trial() { # CHECK FILE SED-EDIT
    [ -d "$room/copy" ] || fresh_copy || exit 2
    sed "$3" "$2" >"$room/edited" || exit 2
    if cmp -s "$2" "$room/edited"; then
        echo "the edit changes nothing: $2, $3"
        exit 1
    fi
    cp "$room/edited" "$room/copy/$2"
    # shellcheck disable=SC2086
    if "$room/copy/$1" $only >"$room/said" 2>&1; then
        echo "not refused by $1: $2, $3"
        exit 1
    fi
    cp "$2" "$room/copy/$2"
    tried=$((tried + 1))
}

# the copy as it is must pass, else every edit would seem refused
trial_passes() { # CHECK
    fresh_copy || exit 2
    # shellcheck disable=SC2086
    if ! "$room/copy/$1" $only >"$room/said" 2>&1; then
        echo "refused though nothing is edited: $1"
        cat "$room/said"
        exit 1
    fi
}
