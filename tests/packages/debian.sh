# shellcheck shell=sh
# What tests/packages/run tests of the Debian packages in a root of minimal Debian: they are installed,
# used, upgraded and purged.

# Puts the packages, and what is tried with them, into the folder /try of the root.
prepares_root() {
    mkdir "$work/try" || return 1
    put_example "$work/try/example" && put_program c "$work/try/c" && put_program py "$work/try/py" &&
        put_lines "$work/try/completed" || return 1
    [ -z "$with_node" ] || put_node_programs "$work/try/node" || return 1
    # shellcheck disable=SC2086
    cp $debs "$work/try" || return 1
    start_bash "$work/try/bashrc" /try/completed /usr/share/bash-completion/completions
    # the completions are to be loaded by bash-completion
    sed -i 's|^for command .*|. /usr/share/bash-completion/bash_completion|' "$work/try/bashrc"
    as_root cp -r "$work/try" "$root/try" && as_root cp /etc/resolv.conf "$root/etc/resolv.conf"
}

is_bare() {
    in_root sh -c 'for tool in cc gcc python3 rt; do ! command -v "$tool" || exit 1; done'
}

# The file that the line of README names: sudo apt install ./FILE
installs_program() {
    line=$(install_line 'sudo apt install') || return 1
    contents >"$work/before" && apt install "/try/$(echo "$line" | cut -d ' ' -f 4)"
}

runs_example() {
    in_root sh -c 'cd /try/example && sh ./command >written && diff wanted written'
}

# The archive by the line of README, for a user whose home folder is new.
unpacks_in_root() {
    as_root cp "$dist/$archive.tar.gz" "$root/try" && install_line 'mkdir -p ~/.local &&' >"$work/line" &&
        in_root sh -c "export HOME=/try/home; mkdir /try/home && cd /try && $(cat "$work/line") &&
            PATH=/try/home/.local/bin:\$PATH && cd example && sh ./command >written && diff wanted written"
}

says_number() {
    for program in smap smap-trace smap-maps smap-view; do
        [ "$(in_root "$program" --version)" = "$says" ] || return 1
    done
}

has_page() {
    [ "$(in_root man -w smap-trace)" = /usr/share/man/man1/smap-trace.1.gz ]
}

completes_in_root() {
    completes "$work/$1" tests/packages/in-root "$root" bash --noprofile --rcfile /try/bashrc -i
}

removes_program() {
    apt purge --autoremove smap && contents | diff "$work/before" - &&
        [ -z "$(in_root dpkg-query -W 'smap*' 2>/dev/null)" ]
}

installs_all() {
    contents >"$work/before"
    # shellcheck disable=SC2046
    apt install $(cd "$work/try" && printf '/try/%s\n' *"_${debian_version}_"*.deb)
}

runs_c_program() {
    in_root sh -c 'cd /try/c && cc -o program program.c $(pkg-config --cflags --libs smap) &&
        ./program <out.js.map >written && diff program.c.out written &&
        cc -o program program.c -l:libsmap.a && ./program <out.js.map >written && diff program.c.out written'
}

runs_python_program() {
    in_root sh -c 'cd /try/py && python3 program.py >written && diff program.py.out written' &&
        [ "$(in_root smap-events --version)" = "smap-events $python_version" ] &&
        [ "$(in_root man -w smap-events)" = /usr/share/man/man1/smap-events.1.gz ]
}

# The first program of the manual of the package for Node, and a stack with smap/register. Debian's Node looks
# for modules beside itself, and where there is no /proc it knows its place only if it is called by it.
runs_node_program() {
    [ -n "$with_node" ] || return 0
    in_root sh -c 'cd /try/node && node=/usr/bin/node && $node program0.cjs >written &&
        diff program0.cjs.out written || exit
        $node --require smap/register thrown.js 2>written; grep -F "at f (/try/node/a.ts:3:7)" written'
}

# Every file is as it was packed.
is_whole() {
    # shellcheck disable=SC2086
    said=$(in_root dpkg --verify $names) && [ -z "$said" ]
}

# Makes packages of the next number out of these, with one file more and one less, and upgrades to them.
upgrades() {
    next=${library_version%.*}.$((${library_version##*.} + 1))
    mkdir -p "$work/next"
    for package in $debs; do
        rm -rf "$work/next/tree"
        dpkg-deb -R "$package" "$work/next/tree" &&
            sed -i "s/\<$debian_version\>/$next/g" "$work/next/tree/DEBIAN/control" &&
            touch "$work/next/tree/usr/share/doc/$(dpkg-deb -f "$package" Package)/next" &&
            rm -f "$work/next/tree/usr/share/bash-completion/completions/smap" &&
            dpkg-deb --root-owner-group -b "$work/next/tree" "$work/next" || return 1
    done
    as_root cp "$work"/next/*.deb "$root/try" || return 1
    # shellcheck disable=SC2046
    apt install $(cd "$work/next" && printf '/try/%s\n' *.deb) || return 1
    for package in $names; do
        [ "$(in_root dpkg-query -W -f '${Version}' "$package")" = "$next" ] || return 1
        [ -e "$root/usr/share/doc/$package/next" ] || return 1
    done
    [ ! -e "$root/usr/share/bash-completion/completions/smap" ] &&
        runs_example && runs_c_program && runs_python_program && runs_node_program
}

removes_all() {
    # shellcheck disable=SC2086
    apt purge --autoremove $names && contents | diff "$work/before" - &&
        [ -z "$(in_root dpkg-query -W 'smap*' 'libsmap*' 'python3-smap' 'node-smap' 2>/dev/null)" ] &&
        ! in_root ldconfig -p | grep smap
}

test_debian() {
    has mmdebstrap 'the Debian packages, installed' && can_be_root 'the Debian packages, installed' || return
    if ! make_root >"$work/log" 2>&1; then
        leave_out 'the Debian packages, installed' "mmdebstrap: $(first_error)"
        return
    fi
    # The programs of its manual are read out of it by Node.
    with_node=
    [ ! -e "$node_deb" ] || { has node 'node-smap, installed' && with_node=yes; }
    [ -n "$with_node" ] || debs=${debs% "$node_deb"}
    try 'the root is prepared' prepares_root || return
    prepares_completion 'the completions of the Debian packages' || :
    test_program
    names='smap libsmap0 libsmap-dev python3-smap'
    wanted='gcc libc6-dev pkg-config python3'
    [ -z "$with_node" ] || { names="$names node-smap" && wanted="$wanted nodejs"; }
    # shellcheck disable=SC2086
    if apt install $wanted >"$work/log" 2>&1; then
        test_all
    else
        leave_out 'libsmap-dev, python3-smap and node-smap, installed' "apt-get: $(first_error)"
    fi
    try 'what the container file runs installs smap' builds_container
}

test_program() {
    try 'the root has no compiler and no Python' is_bare
    try 'smap is installed' installs_program
    try 'smap runs the first example of README' runs_example
    try 'smap and the scripts say their number' says_number
    try 'man finds its page' has_page
    [ -z "$python" ] || try 'a command is completed in bash' completes_in_root lines
    try 'smap is purged, and nothing stays' removes_program
    try 'the archive, unpacked by the line of README, runs its first example there' unpacks_in_root
}

test_all() {
    try 'all packages are installed' installs_all
    try 'dpkg finds every file as it was packed' is_whole
    try 'the C program of the manual is compiled by pkg-config' runs_c_program
    try 'the Python program of the manual runs' runs_python_program
    [ -z "$python" ] || try 'smap-events is completed in bash' completes_in_root lines-of-events
    [ -z "$with_node" ] || try "the first program of Node's manual runs, and smap/register" runs_node_program
    try 'the packages are upgraded' upgrades
    try 'all are purged, and nothing stays' removes_all
}
