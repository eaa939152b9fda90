# Completes the commands and options of swimtab in fish.
# __swimtab_is COMMANDS..: whether the command is one of these; without any, whether there is none yet.
function __swimtab_is
    set -l words (commandline -opc)
    test (count $argv) -eq 0; and test (count $words) -eq 1; or contains -- "$words[2]" $argv
end

complete -c swimtab -n 'not __swimtab_is list merge relate loop' -f
complete -c swimtab -n '__swimtab_is; or __swimtab_is list merge relate loop run' -s h -l help -d 'Print help'
complete -c swimtab -n __swimtab_is -s V -l version -d 'Print version'
complete -c swimtab -n __swimtab_is -a list -d 'Print the merged table of push/pull streams'
complete -c swimtab -n __swimtab_is -a merge -d 'Print that table as one push/pull stream'
complete -c swimtab -n __swimtab_is -a relate -d 'Compare the tables of two streams'
complete -c swimtab -n __swimtab_is -a loop -d 'Exchange the tables of two streams over a socket'
complete -c swimtab -n __swimtab_is -a run -d 'Replay a script from standard input'
