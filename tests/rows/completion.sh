# shellcheck shell=sh disable=SC2154
# What the rows about completions use, read by `.` after work.sh.

completion=$rows/../../packaging/completion

commands_of_maps="check tidy flatten lint repair compose extract comment inline outline contents rename debug-id diff"

# The programs, and the commands of two of them.
all_commands() {
    echo smap
    smap --help | sed -n '/^Commands:/,/^$/s/^  \([a-z]*\) .*/smap \1/p'
    printf '%s\n' smap-trace smap-view
    for command in $commands_of_maps; do
        echo "smap-maps $command"
    done
}

# The long options that the completion of a shell has for a command, one a line: those of its bash, zsh or
# fish.
options_in() {
    case $1 in
    bash) sed -n "s/^$2: //p" "$completion/smap.bash" | tr ' ' '\n' ;;
    zsh)
        echo --help
        awk -v "start=    ('$2') options+=(" '
            $0 == start { inside = 1; next }
            /^    \) ;;$/ { inside = 0 }
            inside' "$completion/_smap" |
            sed -n "s/^[^[]*\(--[a-z-]*\)=*\[.*/\1/p"
        ;;
    fish)
        program=${2%% *}
        # An option without a condition is one of each command.
        sed -n "s/^complete -c $program \(.*-l [a-z-]* .*\)/\1/p" "$completion/$program.fish" |
            awk -v "command=${2#"$program"}" '
                !/-n / { print; next }
                command == "" { if (/-n __fish_use_subcommand /) print; next }
                { split($0, part, "\x27") }
                index(part[2], "_from") && index(part[2] " ", command " ")
            ' | sed 's/.*-l \([a-z-]*\) .*/--\1/'
        ;;
    esac | sort -u
}

# The long options of the help of a command.
options_of_help() {
    program=${1%% *}
    case $1 in
    smap\ *) smap "${1#smap }" --help ;;
    *) "$program" --help ;;
    esac | grep -o -e '--[a-z][-a-z]*' | sort -u
}

# Says where the options of a completion aren't those of the help, and how many commands were compared. The
# help of smap-maps has the options of all its commands, so these are compared with those of its completion
# together.
compare() {
    : >of-maps
    all_commands >commands
    while read -r command; do
        options_in "$1" "$command" >completed
        case $command in
        smap-maps*) cat completed >>of-maps ;;
        *)
            options_of_help "$command" >helped
            diff helped completed || echo "$command"
            ;;
        esac
    done <commands
    options_of_help smap-maps >helped
    sort -u of-maps | diff helped - || echo smap-maps
    grep -c '' commands
}

# Says which options that a completion has for a command of smap-maps that command doesn't take.
refused_by_maps() {
    for command in $commands_of_maps; do
        options_in "$1" "smap-maps $command" | while read -r option; do
            smap-maps "$command" "$option" 2>&1 | grep -e 'unexpected argument' -e ' has no '
        done
    done
    :
}
