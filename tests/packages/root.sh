# shellcheck shell=sh
# A root of minimal Debian, for tests/packages/run: how it is made, entered, and read.

in_root() {
    tests/packages/in-root "$root" "$@"
}

apt() {
    in_root apt-get -q -y -o APT::Sandbox::User=root -o Dpkg::Use-Pty=false -o Acquire::Retries=1 \
        -o Acquire::http::Timeout=20 --no-install-recommends "$@"
}

# The first error that apt or mmdebstrap told of, which is the cause of the others.
first_error() {
    grep -E '^(E|Err|W):' "$work/log" | sed 1q
}

# Whether this process can have root's rights over a folder, or else why not: what unshare says, and the
# settings of the kernel by which it refuses user namespaces to users.
can_be_root() {
    [ "$(id -u)" -ne 0 ] || return 0
    { unshare --map-root-user true && as_root true; } 2>"$work/why" && return
    why=$(sed 1q "$work/why")
    for forbids in kernel.unprivileged_userns_clone=0 user.max_user_namespaces=0 \
        kernel.apparmor_restrict_unprivileged_userns=1; do
        setting=/proc/sys/$(echo "${forbids%=*}" | tr . /)
        [ "$(cat "$setting" 2>/dev/null)" != "${forbids#*=}" ] || why="$why; $forbids"
    done
    leave_out "$1" "$why"
    false
}

# Makes a root of Debian, of this machine's release unless SMAP_SUITE names another. Nobody needs it after a
# crash of the machine, so dpkg needn't wait until the disk has each file.
make_root() {
    # shellcheck source=/dev/null
    suite=${SMAP_SUITE:-$(. /etc/os-release && echo "${VERSION_CODENAME:-stable}")}
    as_root mmdebstrap --variant=minbase --include=apt,man-db,bash-completion --skip=cleanup/apt/lists \
        --dpkgopt=force-unsafe-io "$suite" "$root" ${SMAP_MIRROR:+"$SMAP_MIRROR"}
}

# What is in the root, apart from what apt, dpkg and the tests themselves keep there.
contents() {
    as_root find "$root" -printf '%P\n' |
        grep -v -E '^(var/lib/(dpkg|apt)|var/cache|var/log|tmp|try)(/|$)' | sort
}
