# shellcheck shell=sh disable=SC2154
# What the rows about man pages use, read by `.` after work.sh.

# The options of a page, one a line.
options_of_page() {
    grep -o 'Fl [-a-zA-Z]*' "$1" | sed 's/Fl /-/' | sort -u
}

# The options that a text of help names.
options_of_help() {
    grep -o -e '--*[a-zA-Z][-a-z]*' | grep -e '^--[a-z]' -e '^-[hoqvV]$' | sort -u
}

# Runs the example of a page: its lines that begin with `$ ` as commands, in the folder $work. Says where
# what they write isn't what the page says, and how many there were.
run_example() {
    sed -n '/^\.Ss Examples/,$p' "$1" | sed -e '1,/^\.Bd/d' -e '/^\.Ed/,$d' -e 's/\\e/\\/g' >example
    : >commands
    : >wanted
    while IFS= read -r line; do
        case $line in
        '$ '*) printf '%s\n' "${line#* }" >>commands ;;
        *) printf '%s\n' "$line" >>wanted ;;
        esac
    done <example
    mkdir bin
    ln -s "$SMAP" bin/smap
    ln -s smap bin/smap-trace
    ln -s smap bin/smap-maps
    ln -s smap bin/smap-view
    PATH=$work/bin:$PATH sh ./commands >written 2>&1
    diff wanted written
    grep -c '' commands
}
