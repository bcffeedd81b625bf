# Completion of smap-events for fish. tests/library/event_lines.py compares its options with --help.

complete -c smap-events -s h -l help -d 'Print help'
complete -c smap-events -s V -l version -d 'Print the version'
complete -c smap-events -l no-raw -d 'Do not keep stacks as they were'
complete -c smap-events -l names -d 'Give frames the names of functions, where they are sure'
complete -c smap-events -x -l context -d 'Show so many lines of the source around that of a frame'
complete -c smap-events -n '__smap_events_has_url' -f -a '(__smap_events_maps)'

# Whether the word that is completed has a =. Without one it is a file of events, which fish completes itself.
function __smap_events_has_url
    string match -q -r '^[^-].*=' -- (commandline -ct | string collect)
end

# Leaves the URL alone, and completes the file or the folder after its last =: maps and folders or, if there are
# none, any file. Names with control characters are left out, since a name is a line, up to a tab.
function __smap_events_maps
    # the word is as it was typed, and a quote may be open
    set -l typed (commandline -ct | string collect)
    set -l word (string unescape -- $typed; or string unescape -- $typed\'; or string unescape -- $typed\")
    set -l path (string replace -r '.*=' '' -- $word)
    set -l head (string replace -r '[^=]*$' '' -- $word)
    set -l found $path*.map $path*/
    set -q found[1]; or set found $path*
    for name in $found
        string match -q -r '[[:cntrl:]]' -- $name; or printf '%s\n' $head$name
    end
end
