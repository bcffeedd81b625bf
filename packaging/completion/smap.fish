# Completion of smap for fish. tests/rows/completion.rows compares its options with --help.

complete -c smap -f
complete -c smap -s h -l help -d 'Print help'
complete -c smap -n __fish_use_subcommand -l version -d 'Print the version'

complete -c smap -n __fish_use_subcommand -a check -d 'Validate a map'
complete -c smap -n __fish_use_subcommand -a tidy -d 'Write a map in canonical form'
complete -c smap -n __fish_use_subcommand -a flatten -d 'Convert an index map to a flat map'
complete -c smap -n __fish_use_subcommand -a lookup -d 'Find the original position of a generated one'
complete -c smap -n __fish_use_subcommand -a respell -d 'Re-encode a bare mappings string'
complete -c smap -n __fish_use_subcommand -a translate -d 'Translate a stack trace'
complete -c smap -n __fish_use_subcommand -a scripts -d 'Count the scripts that a stack trace names'
complete -c smap -n __fish_use_subcommand -a compose -d 'Write one map for a chain of maps'

complete -c smap -n __fish_use_subcommand -a trace -d 'Translate the stack traces of a log'
complete -c smap -n __fish_use_subcommand -a maps -d 'Check, tidy, flatten, lint or repair maps'
complete -c smap -n __fish_use_subcommand -a lint -d 'Say why the maps of a build don\'t work'
complete -c smap -n __fish_use_subcommand -a repair -d 'Mend maps that are refused for small faults'
complete -c smap -n __fish_use_subcommand -a view -d 'Make a page of a map'

# These are the programs of that name, and lint and repair commands of smap-maps.
function __smap_as
    set -l words (commandline -opc)[3..]
    complete -C (string join ' ' -- $argv (string escape -- $words) (commandline -ct))
end
complete -c smap -n '__fish_seen_subcommand_from trace' -a '(__smap_as smap-trace)'
complete -c smap -n '__fish_seen_subcommand_from maps' -a '(__smap_as smap-maps)'
complete -c smap -n '__fish_seen_subcommand_from lint' -a '(__smap_as smap-maps lint)'
complete -c smap -n '__fish_seen_subcommand_from repair' -a '(__smap_as smap-maps repair)'
complete -c smap -n '__fish_seen_subcommand_from view' -a '(__smap_as smap-view)'

complete -c smap -n '__fish_seen_subcommand_from tidy' -l relative -d 'Write source URLs relative to BASE'
complete -c smap -n '__fish_seen_subcommand_from translate' -l hide-ignored -d 'Leave out frames in ignored sources'
complete -c smap -n '__fish_seen_subcommand_from translate' -l anywhere -d 'Find positions anywhere in a line'
complete -c smap -n '__fish_seen_subcommand_from translate' -l ignore-query -d 'Ignore a query behind the URL of a script'
complete -c smap -n '__fish_seen_subcommand_from translate' -l names -d 'Write the names of functions in frames'
complete -c smap -n '__fish_seen_subcommand_from compose' -l relative -d 'Write source URLs relative to BASE'
complete -c smap -n '__fish_seen_subcommand_from compose' -l thin -d 'Leave out mappings that change no original'
complete -c smap -n '__fish_seen_subcommand_from compose' -l used -d 'Leave out sources that no mapping has'
