# shellcheck shell=sh
# What tests/packages/run tests of the files of a release themselves: that they are made twice with the same
# bytes, hold nothing of the machine, and have the right numbers.

dist=$work/dist
archive=smap-$version-linux-x86_64
debs="$dist/smap_${debian_version}_amd64.deb $dist/libsmap0_${debian_version}_amd64.deb
    $dist/libsmap-dev_${debian_version}_amd64.deb $dist/python3-smap_${debian_version}_all.deb"
arm_archive=smap-$version-linux-aarch64
arm_debs=

makes() {
    SMAP=$SMAP SMAP_CAPI=$lib tools/build-packages "$dist"
}

# Those for 64-bit ARM are made where the program and the library for it are.
counts_arm() {
    if [ -e "$dist/$arm_archive.tar.gz" ]; then
        for name in smap libsmap0 libsmap-dev; do
            arm_debs="$arm_debs $dist/${name}_${debian_version}_arm64.deb"
        done
    else
        leave_out 'what is for aarch64' "$(sed -n 's/^build-packages: what is for aarch64 is left out: //p' "$work/log")"
    fi
}

# The packages for Node are made where Node's headers are, and those for npm where npm is.
counts_node() {
    node_deb=$dist/node-smap_${debian_version}_amd64.deb
    npm_tgz=$dist/smap-$version.tgz
    npm_platform_tgz=$dist/smap-linux-x64-$version.tgz
    npm_arm_tgz=$dist/smap-linux-arm64-$version.tgz
    [ ! -e "$node_deb" ] || debs="$debs $node_deb"
    why=$(sed -n 's/^build-packages: .* is left out: //p' "$work/log" | sed 1q)
    for file in "$node_deb" "$npm_tgz"; do
        [ -e "$file" ] || leave_out "${file##*/}" "$why"
    done
}

# The packages for Python are made where the tools for them are.
counts_python() {
    wheel=$(find "$dist" -name 'smap-*_x86_64.whl')
    programs=$(find "$dist" -name 'smap_programs-*_x86_64.whl')
    arm_wheel=$(find "$dist" -name 'smap-*_aarch64.whl')
    arm_programs=$(find "$dist" -name 'smap_programs-*_aarch64.whl')
    sdist=$(find "$dist" -name "smap-$python_version.tar.gz")
    [ -n "$wheel" ] ||
        leave_out 'the wheels' "$(sed -n 's/^build-packages: the wheels are left out: //p' "$work/log" | sed 1q)"
}

# Makes them once more out of the source package, in another folder, at another time, with other settings.
makes_the_same() {
    dpkg-source --no-check -x "$dist/smap_$debian_version.dsc" "$work/a copy" && rm -r "$work/a copy/debian" || return 1
    mkdir "$work/a folder" && cp "$SMAP" "$work/a folder/program" && cp -r "$lib" "$work/a folder/library" || return 1
    (
        umask 077
        cd / && TZ=Asia/Kolkata LC_ALL=C.UTF-8 TMPDIR="$work/a folder" SMAP="$work/a folder/program" \
            SMAP_CAPI="$work/a folder/library" "$work/a copy/tools/build-packages" "$work/again"
    ) || return 1
    diff -r "$dist" "$work/again"
}

# Debian's own tool makes the Debian packages of it.
source_makes_the_same() {
    mkdir "$work/source" && dpkg-source --no-check -x "$dist/smap_$debian_version.dsc" "$work/source/smap" || return 1
    profiles=
    [ -e "$node_deb" ] || profiles=pkg.smap.nonode
    (
        cd "$work/source/smap" && SMAP_CAPI=$lib DEB_BUILD_PROFILES=$profiles &&
            export SMAP SMAP_CAPI DEB_BUILD_PROFILES && dpkg-buildpackage --build=binary -d --unsigned-changes
    ) || return 1
    for package in "$dist"/*_amd64.deb "$dist"/*_all.deb; do
        cmp "$package" "$work/source/${package##*/}" || return 1
    done
}

# The Debian packages with two of symbols for each processor, and their source in two files, the archives, those for
# Python and for npm, the page, and the sum of each.
sums() {
    # shellcheck disable=SC2086
    set -- $debs $arm_debs
    [ -z "$arm_debs" ] || set -- "$@" symbols symbols "$arm_archive.tar.gz"
    [ ! -e "$npm_tgz" ] || set -- "$@" "$npm_tgz" "$npm_platform_tgz"
    [ ! -e "$npm_arm_tgz" ] || set -- "$@" "$npm_arm_tgz"
    [ -z "$wheel" ] || set -- "$@" "$wheel" "$programs" "$sdist"
    [ -z "$arm_wheel" ] || set -- "$@" "$arm_wheel" "$arm_programs"
    [ ! -e "$dist/smap.html" ] || set -- "$@" smap.html
    wanted=$(($# + 5))
    (
        cd "$dist" && sha256sum -c SHA256SUMS &&
            [ "$(find . -type f | wc -l) $(grep -c '' SHA256SUMS)" = "$((wanted + 1)) $wanted" ]
    )
}

# Unpacks everything but the source into folders of $work/unpacked.
unpacks() {
    mkdir "$work/unpacked" || return 1
    for package in "$dist"/*.deb; do
        name=${package##*/}
        case $name in
        *_arm64.deb) name=arm64-${name%%_*} ;;
        *) name=${name%%_*} ;;
        esac
        dpkg-deb -R "$package" "$work/unpacked/$name" || return 1
    done
    for name in "$dist"/smap-*-linux-*.tar.gz; do
        mkdir -p "$work/unpacked/archive" && tar -xzf "$name" -C "$work/unpacked/archive" || return 1
    done
    if [ -n "$arm_wheel" ]; then
        python3 -m zipfile -e "$arm_wheel" "$work/unpacked/arm-wheel" &&
            python3 -m zipfile -e "$arm_programs" "$work/unpacked/arm-programs" || return 1
    fi
    if [ -e "$npm_arm_tgz" ]; then
        mkdir "$work/unpacked/npm-arm" && tar -xzf "$npm_arm_tgz" -C "$work/unpacked/npm-arm" || return 1
    fi
    if [ -n "$wheel" ]; then
        mkdir "$work/unpacked/sdist" && tar -xzf "$sdist" -C "$work/unpacked/sdist" &&
            python3 -m zipfile -e "$wheel" "$work/unpacked/wheel" &&
            python3 -m zipfile -e "$programs" "$work/unpacked/programs" || return 1
    fi
    [ -e "$npm_tgz" ] || return 0
    mkdir "$work/unpacked/npm" "$work/unpacked/npm-platform" &&
        tar -xzf "$npm_tgz" -C "$work/unpacked/npm" &&
        tar -xzf "$npm_platform_tgz" -C "$work/unpacked/npm-platform"
}

# Looks in each file, once it is decompressed, for a path below this folder, the home, the kit's folder or the one for
# temporary files. The page OUTPUT.md has these in a list, and a rule of lint knows some by name.
names_no_folder() {
    printf '%s/\n' "$top" "${HOME%/}" "${TMPDIR:-/tmp}" "$(dirname "$(rt doc 2>/dev/null)")" |
        grep '[a-z]' | sed 's/$/[A-Za-z0-9._-]/' >"$work/folders"
    find "$work/unpacked" -name '*.gz' -exec gzip -d {} +
    ! grep -r -a -E -f "$work/folders" -l --exclude=OUTPUT.md "$work/unpacked"
}

# Everything in the Debian packages, their source and the packages for npm belongs to root, and is of the time of
# the sources.
belongs_to_root() (
    TZ=UTC
    export TZ
    for package in "$dist"/*.deb; do
        dpkg-deb -c "$package"
    done >"$work/contents" || return 1
    tar -tvJf "$dist/smap_$debian_version.tar.xz" | sed 's| 0/0 | root/root |' >>"$work/contents"
    [ ! -e "$npm_tgz" ] || for file in "$dist"/smap-*.tgz; do
        tar -tvzf "$file" | sed 's| 0/0 | root/root |' >>"$work/contents"
    done
    time=$(date -d "@$(tools/version time)" '+%Y-%m-%d %H:%M')
    [ -s "$work/contents" ] && ! grep -v " root/root .* $time " "$work/contents"
)

# Every Debian package in a folder and their source name this maintainer, and so do the changelogs.
says_maintainer() {
    grep -x "Maintainer: $2" "$1/smap_$debian_version.dsc" || return 1
    for package in "$1"/*.deb; do
        name=$(dpkg-deb -f "$package" Package)
        [ "$(dpkg-deb -f "$package" Maintainer)" = "$2" ] || return 1
        case $name in *-dbgsym) continue ;; esac
        dpkg-deb --fsys-tarfile "$package" | tar -xO "./usr/share/doc/$name/changelog.gz" | gzip -d |
            grep -a -F " -- $2  " || return 1
    done
}

# Whom the environment names as Debian's tools take it, or else a placeholder. What is in the packages besides
# makes no difference to this, so they hold a small program.
names_maintainer() (
    says_maintainer "$dist" 'smap maintainers <smap@example.invalid>' || return 1
    SMAP=$work/small
    echo 'int main(void) { return 0; }' | cc -static -x c -o "$SMAP" - || return 1
    SMAP_CAPI=$work/native
    cp -R "$lib" "$SMAP_CAPI" && rm -rf "$SMAP_CAPI/aarch64" || return 1
    export SMAP SMAP_CAPI
    DEBEMAIL=ada@example.org DEBFULLNAME='Ada R&D/Lovelace' tools/build-packages "$work/ada" &
    DEBEMAIL='Zoë <zoe@example.org>' tools/build-packages "$work/zoe" && wait "$!" &&
        says_maintainer "$work/ada" 'Ada R&D/Lovelace <ada@example.org>' &&
        says_maintainer "$work/zoe" 'Zoë <zoe@example.org>'
)

# An address without a host, and one of two lines, which would be another field.
refuses_maintainer() {
    for address in nobody "$(printf 'a@example.org>\nOrigin: <b@example.org')"; do
        DEBEMAIL=$address SMAP=$SMAP SMAP_CAPI=$lib tools/build-packages "$work/refused" 2>"$work/said"
        [ "$?" -eq 2 ] && grep '^build-packages: DEBEMAIL and DEBFULLNAME give no name and' "$work/said" &&
            [ ! -e "$work/refused" ] || return 1
    done
}

# Each in its form; and what comes before a release is replaced by it.
numbers() {
    dpkg --compare-versions "$debian_version" le "$library_version" || return 1
    for package in $debs $arm_debs; do
        [ "$(dpkg-deb -f "$package" Version)" = "$debian_version" ] || return 1
        [ "$(dpkg-deb -f "$package" Installed-Size)" -gt 0 ] || return 1
    done
    grep -x "Version: $debian_version" "$dist/smap_$debian_version.dsc" || return 1
    [ ! -e "$npm_tgz" ] || for folder in npm npm-platform; do
        grep -x "  \"version\": \"$version\"," "$work/unpacked/$folder/package/package.json" || return 1
    done
    set -- libsmap-dev/usr/lib/x86_64-linux-gnu "archive/$archive/lib"
    [ -z "$arm_debs" ] || set -- "$@" arm64-libsmap-dev/usr/lib/aarch64-linux-gnu "archive/$arm_archive/lib"
    for folder in "$@"; do
        grep -x "Version: $library_version" "$work/unpacked/$folder/pkgconfig/smap.pc" || return 1
    done
    module=usr/lib/python3/dist-packages/smap-$python_version.dist-info
    set -- "python3-smap/$module/METADATA"
    [ -z "$wheel" ] || set -- "$@" "wheel/smap-$python_version.dist-info/METADATA" \
        "programs/smap_programs-$python_version.dist-info/METADATA" "sdist/smap-$python_version/PKG-INFO"
    for file in "$@"; do
        grep -x "Version: $python_version" "$work/unpacked/$file" || return 1
    done
}

# Everything that is compiled for a processor is in the packages of its name.
is_for_its_processor() {
    find "$work/unpacked" -type f \( -path '*/bin/smap' -o -path '*/smap_programs/smap' -o -name 'libsmap.so.0' \
        -o -name smap.node \) >"$work/compiled.list"
    while IFS= read -r file; do
        machine='Advanced Micro Devices X86-64'
        case ${file#"$work/unpacked/"} in arm* | npm-arm* | *linux-aarch64*) machine=AArch64 ;; esac
        readelf -h "$file" | grep "Machine: *$machine" || return 1
    done <"$work/compiled.list" >"$work/machines"
    [ -z "$arm_debs" ] || [ "$(grep -c AArch64 "$work/machines")" -ge 4 ]
}

# What the programs say has the commit before a release; the wheel has that of the archive. The source package has
# the commit in a file.
programs_say_commit() {
    [ -z "$wheel" ] ||
        cmp "$work/unpacked/programs/smap_programs/smap" "$work/unpacked/archive/$archive/bin/smap" || return 1
    set -- smap/usr/bin/smap "archive/$archive/bin/smap"
    [ ! -e "$npm_platform_tgz" ] || set -- "$@" npm-platform/package/bin/smap
    for program in "$@"; do
        [ "$("$work/unpacked/$program" --version)" = "$says" ] || return 1
    done
    tar -xOJf "$dist/smap_$debian_version.tar.xz" --wildcards '*/COMMIT' >"$work/commit" 2>/dev/null
    tools/version commit | diff - "$work/commit"
}

# What is compiled wants no loader and no library: a Linux is enough for the programs, and for the libraries any C
# library of the process. node-smap is for Debian's alone.
wants_no_library() {
    find "$work/unpacked" -path '*/node-smap' -prune -o -type f \( -path '*/bin/smap' -o -path '*/smap_programs/smap' \
        -o -name 'libsmap.so.0' -o -name smap.node \) -print >"$work/compiled.list"
    [ "$(wc -l <"$work/compiled.list")" -ge 4 ] && while IFS= read -r file; do
        readelf -l -d "$file" >"$work/headers" && ! grep -E 'INTERP|NEEDED' "$work/headers" || return 1
    done <"$work/compiled.list"
}

# The first release whose library has versions of names, without which no program starts that wants them: this
# one, until that is made.
first_with_versions() {
    if dpkg --compare-versions "$debian_version" lt 0.3.0; then echo "$debian_version"; else echo 0.3.0; fi
}

# The symbols file has each name of the library, with its version and the number of that release.
has_symbols() {
    file=$work/unpacked/libsmap0/DEBIAN/symbols
    objdump -T "$work/unpacked/libsmap0/usr/lib/x86_64-linux-gnu/libsmap.so.0" |
        sed -n 's/.* \(SMAP_[0-9.]*\)  *\([^ ]*\)$/\2@\1/p' | sort >"$work/names-of-library"
    sed -n 's/^ \([^ ]*\) .*/\1/p' "$file" | sort | diff "$work/names-of-library" - &&
        grep -x " smap_open@SMAP_0\.1 $(first_with_versions)" "$file"
}

# Each Debian package has the pages of docs/ that its files name.
has_pages() {
    for package in $debs; do
        name=${package##*/}
        name=${name%%_*}
        docs=$work/unpacked/$name/usr/share/doc/$name
        find "$work/unpacked/$name/usr" -path "$docs" -prune -o -type f -exec zgrep -I -o -h '[A-Z]*\.md' {} + |
            sort -u >"$work/pages"
        while IFS= read -r page; do
            [ -e "$docs/$page" ] || [ -e "$docs/$page.gz" ] || {
                echo "$name: $page"
                return 1
            }
        done <"$work/pages"
    done
}

# The symbols that were stripped from a file are in the package beside its own, under the number of its build.
keeps_symbols() {
    id=$(readelf -n "$work/unpacked/$1/$2" | sed -n 's/^ *Build ID: //p')
    file=$work/unpacked/$1-dbgsym/usr/lib/debug/.build-id/${id%"${id#??}"}/${id#??}.debug
    ! nm "$work/unpacked/$1/$2" 2>/dev/null | grep ' T ' && nm "$file" | grep -x "[0-9a-f]* T $3"
}

keeps_all_symbols() {
    keeps_symbols smap usr/bin/smap main && keeps_symbols libsmap0 usr/lib/x86_64-linux-gnu/libsmap.so.0 smap_open
}

# By it Debian's tools find what a program wants of the library.
finds_dependency() {
    wants=$work/wants
    mkdir -p "$wants/debian" && cp packaging/debian/control "$wants/debian" || return 1
    printf '#include "smap.h"\nint main(void) { return !smap_code_name(0, NULL, 0); }\n' >"$wants/program.c"
    cc -I"$lib" -o "$wants/program" "$wants/program.c" "$lib/libsmap.so" &&
        (cd "$wants" && dpkg-shlibdeps -O -S"$work/unpacked/libsmap0" program >found) &&
        grep -F "libsmap0 (>= $(first_with_versions))" "$wants/found"
}

# A library whose names have no versions isn't packed.
refuses_other_names() {
    cp -r "$lib" "$work/unversioned" && rm "$work/unversioned"/libsmap.so* &&
        cc -shared -nostdlib -Wl,-soname,libsmap.so.0 -o "$work/unversioned/libsmap.so.0" \
            -Wl,--whole-archive "$work/unversioned/libsmap.a" -Wl,--no-whole-archive || return 1
    ! SMAP=$SMAP SMAP_CAPI=$work/unversioned tools/build-packages "$work/none" 2>"$work/said" || return 1
    grep '^dpkg-gensymbols: .*: some new symbols appeared' "$work/said" && [ -z "$(ls "$work/none")" ]
}

# No license has been chosen, so there is no file that has one; and the packages of symbols have names alone, since
# the kit writes nothing else for debuggers. Nothing else may be an error or a warning.
lintian_is_content() {
    lintian --allow-root --no-tag-display-limit -L '>=warning' "$dist"/*.deb "$dist"/*.dsc >"$work/lintian" \
        2>"$work/lintian.err"
    cat "$work/lintian.err"
    grep '^[EW]: ' "$work/lintian" | grep -v -e ' no-copyright-file$' -e ' no-debian-copyright-in-source$' \
        -e '-dbgsym: debug-file-with-no-debug-symbols ' && return 1
    # shellcheck disable=SC2086
    set -- $debs $arm_debs
    [ "$(grep -c '^E: .* no-copyright-file$' "$work/lintian")" -eq $# ]
}

test_release() {
    try 'the packages are made' makes || return 1
    counts_arm
    counts_python
    counts_node
    try 'the packages are made again out of their source, with the same bytes' makes_the_same
    try 'and so are the Debian packages by dpkg-buildpackage' source_makes_the_same
    try 'the sums are right' sums
    try 'all that is packed can be unpacked' unpacks
    try 'nothing packed names a folder of this machine' names_no_folder
    try 'what the packages hold is root'\''s, and of that day' belongs_to_root
    try 'all that is made has the number of VERSION' numbers
    try 'the programs say it, and before a release the commit' programs_say_commit
    try 'the Debian packages name their maintainer' names_maintainer
    try 'what is no maintainer is refused' refuses_maintainer
    try 'the programs and the libraries want no other library' wants_no_library
    try 'what is compiled is for the processor that its package names' is_for_its_processor
    try 'the Debian packages have the pages that their files name' has_pages
    try 'the Debian package of the library has its symbols' has_symbols
    try 'there are packages with the symbols that were stripped' keeps_all_symbols
    if has cc 'what a program wants of the library'; then
        try 'Debian'\''s tools find what a program wants of the library' finds_dependency
        try 'a library with other names is not packed' refuses_other_names
    fi
    if has lintian 'lintian'; then
        try 'lintian has nothing to say but that there is no license, and of symbols' lintian_is_content &&
            echo 'lintian: no-copyright-file in each package, since no license has been chosen'
    fi
    return 0
}
