# shellcheck shell=sh
# What tests/packages/run tests of what runs in the CI of others: the hooks for pre-commit, with the programs
# of the archive, and what the container file runs, in the root of minimal Debian.

# Runs a hook over all files of the repository $work/hooked, as its users' git does.
runs_hook() {
    (cd "$work/hooked" && git add . && PATH="$usr/bin:$PATH" PRE_COMMIT_HOME=$work/pre-commit \
        pre-commit run --all-files "$1")
}

commits() {
    git -c user.name=smap -c user.email=smap@example.invalid commit -q -m hooks
}

# A repository with the hooks, and one that uses them, with a script that has a map.
makes_repositories() {
    mkdir -p "$work/hooks" "$work/hooked/dist" && cp .pre-commit-hooks.yaml "$work/hooks" || return 1
    (cd "$work/hooks" && git init -q && git add . && commits) || return 1
    (
        cd "$work/hooked" && git init -q && cat >.pre-commit-config.yaml <<END
repos:
  - repo: $work/hooks
    rev: $(git -C "$work/hooks" rev-parse HEAD)
    hooks:
      - id: smap-maps-check
      - id: smap-maps-lint
END
        printf 'f()\n//# sourceMappingURL=out.js.map\n' >dist/out.js
        echo '{"version":3,"sources":["a.js"],"sourcesContent":["f()"],"mappings":"AAAA"}' >dist/out.js.map
    )
}

hooks_pass() {
    runs_hook smap-maps-check && runs_hook smap-maps-lint
}

# A map that isn't valid, in any folder, and a script without the map that it names.
hooks_fail() {
    echo '{"version":2}' >"$work/hooked/other.css.map" && rm "$work/hooked/dist/out.js.map" || return 1
    ! runs_hook smap-maps-check >"$work/said" || return 1
    cat "$work/said" && grep -x 'other.css.map:1:12: version is 2, not 3' "$work/said" || return 1
    ! runs_hook smap-maps-lint >"$work/said" || return 1
    cat "$work/said" && grep ' comment-missing-file$' "$work/said"
}

test_hooks() {
    has pre-commit 'the hooks for pre-commit' && has git 'the hooks for pre-commit' || return
    try 'there are repositories for pre-commit' makes_repositories || return
    try 'the hooks pass where maps are right' hooks_pass
    try 'the hooks fail where they are wrong, and say why' hooks_fail
}

# What the container file copies and runs, which fetches the lists of packages anew and removes them.
builds_container() {
    files=$(sed -n 's/^COPY \(.*\) \/tmp\/$/\1/p' packaging/Containerfile)
    command=$(sed -n '/^RUN /,/[^\\]$/p' packaging/Containerfile | sed 's/^RUN //')
    # shellcheck disable=SC2086
    (cd "$dist" && as_root cp $files "$root/tmp") && [ -n "$command" ] && in_root sh -c "$command" &&
        [ "$(in_root smap-maps --version)" = "$says" ]
}
