# Completes the command and options of swimunwrap in fish.
complete -c swimunwrap -n 'not __fish_seen_subcommand_from stream' -f
complete -c swimunwrap -s h -l help -d 'Print help'
complete -c swimunwrap -l key-file -r -F -d 'Read keys of the cluster from this file'
complete -c swimunwrap -l accept-clear -d 'With keys, also read what is not encrypted'
complete -c swimunwrap -n 'not __fish_seen_subcommand_from stream' -s V -l version -d 'Print version'
complete -c swimunwrap -n 'not __fish_seen_subcommand_from stream' -l skip -d 'Leave out lines that cannot be read'
complete -c swimunwrap -n 'not __fish_seen_subcommand_from stream' -a stream -d 'Print the push/pull stream in one direction of a connection'
