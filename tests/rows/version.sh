# shellcheck shell=sh disable=SC2154
# What the rows about versions use besides, read by `.` behind work.sh.

# The names of files of a release on some pages, each once.
files_on() {
    grep -h -o -E '(lib|python3-|node-)?smap[0-9a-z_-]*[_-][0-9]+\.[0-9]+\.[^] `"();,]+' "$@" | LC_ALL=C sort -u
}

# Those of these names whose number isn't in the form that files of their kind have.
misnamed() {
    number=$(version) && python=$(version python) && debian=$(version debian) || return
    while IFS= read -r name; do
        case $name in
        smap-"$python".tar.gz | smap-"$python"-py3-none-*.whl | smap_programs-"$python"-py3-none-*.whl) ;;
        smap-"$number".tgz | smap-linux-x64-"$number".tgz | smap-linux-arm64-"$number".tgz) ;;
        smap-"$number"-linux-x86_64.tar.gz | smap-"$number"-linux-aarch64.tar.gz) ;;
        *smap*_"$debian"_amd64.deb | *smap*_"$debian"_arm64.deb | *smap*_"$debian"_all.deb) ;;
        smap_"$debian".dsc | smap_"$debian".tar.xz) ;;
        *) echo "$name" ;;
        esac
    done
}

# A copy of the tools in the folder copy, with this in VERSION, and this in COMMIT if it is given.
copy_with() {
    mkdir -p copy
    cp -R "$rows/../../tools" copy
    printf '%s\n' "$1" >copy/VERSION
    [ -z "$2" ] || printf '%s\n' "$2" >copy/COMMIT
}

# A program that has the commit at three places.
program_of() {
    printf 'a\0smap 1.2.3-dev (commit %s)\n\0(commit %s)(commit %s)\377(commit)\n\nz' "$1" "$1" "$1"
}
