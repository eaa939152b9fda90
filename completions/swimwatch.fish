# Completes the commands and options of swimwatch in fish.
# __swimwatch_is COMMANDS..: whether the command is one of these; without any, whether there is none yet.
function __swimwatch_is
    set -l words (commandline -opc)
    test (count $argv) -eq 0; and test (count $words) -eq 1; or contains -- "$words[2]" $argv
end
set -l commands members timeline claims talkers dump chart probes health why spread distances report pull diff

complete -c swimwatch -n __swimwatch_is -f
complete -c swimwatch -n "__swimwatch_is; or __swimwatch_is $commands" -s h -l help -d 'Print help'
complete -c swimwatch -n __swimwatch_is -s V -l version -d 'Print version'
complete -c swimwatch -n __swimwatch_is -a members -d 'Print the members as they are at the end of the captures'
complete -c swimwatch -n __swimwatch_is -a timeline -d 'Print each change as it is read'
complete -c swimwatch -n __swimwatch_is -a claims -d 'Print each claim about a member as it is read'
complete -c swimwatch -n __swimwatch_is -a talkers -d 'Print what each sender sent, by kind'
complete -c swimwatch -n __swimwatch_is -a dump -d 'Write the table of all claims as one push/pull stream'
complete -c swimwatch -n __swimwatch_is -a chart -d 'Draw who was in the cluster, and in what state'
complete -c swimwatch -n __swimwatch_is -a probes -d 'Print what each member made of its probes'
complete -c swimwatch -n __swimwatch_is -a health -d 'Print how healthy each member is'
complete -c swimwatch -n __swimwatch_is -a why -d 'Print why members were suspected'
complete -c swimwatch -n __swimwatch_is -a spread -d 'Print when each member first heard or said each piece of news'
complete -c swimwatch -n __swimwatch_is -a distances -d 'Print how long the way between members takes'
complete -c swimwatch -n __swimwatch_is -a report -d 'Write one page about all of it'
complete -c swimwatch -n __swimwatch_is -a pull -d 'Ask live members for their tables'
complete -c swimwatch -n __swimwatch_is -a diff -d 'Print what changed between two captures, streams or members'

# __swimwatch_option COMMANDS ARGUMENTS..: an option of these commands.
function __swimwatch_option
    complete -c swimwatch -n "__swimwatch_is $argv[1]" $argv[2..-1]
end
set -l views members timeline claims talkers chart probes health why spread distances report
set -l rules members timeline claims talkers dump chart report diff
set -l named timeline claims chart health why spread report
set -l probing probes health why report
set -l printing members timeline claims talkers probes health why spread distances pull diff

__swimwatch_option "$commands" -l key-file -r -F -d 'Read keys of the cluster from this file'
__swimwatch_option "$commands" -l accept-clear -d 'With keys, also believe what is not encrypted'
__swimwatch_option "$commands" -l label -x -d 'The label of the cluster'
__swimwatch_option "$printing" -l json -d 'Print one JSON object on each line'
__swimwatch_option "$rules" -l wait -x -d 'Seconds after which memberlist forgets a dead member'
__swimwatch_option "members report" -l suspicion-mult -x -d "memberlist's SuspicionMult"
__swimwatch_option "members diff" -l at -x -d 'The members as they were at this time'
__swimwatch_option "$views" -l from -x -d 'Show only what was captured from this time on'
__swimwatch_option "$views" -l to -x -d 'Show only what was captured until this time'
__swimwatch_option "$views dump" -l for -x -d 'Listen only for this long'
__swimwatch_option "members timeline chart report" -l start -r -F -d 'Begin with the table in this file'
__swimwatch_option "$views dump" -l port -x -d 'Read only what is sent from or to this port'
__swimwatch_option "members timeline" -l merge -d 'Make one view of all captures'
__swimwatch_option "$named" -l member -x -d 'Show only this member'
__swimwatch_option probes -l prober -x -d 'Show only the probes of this member'
__swimwatch_option "probes distances" -l target -x -d 'Show only what concerns this member'
__swimwatch_option "$probing" -l probe-timeout -x -d "memberlist's ProbeTimeout"
__swimwatch_option "$probing" -l probe-interval -x -d "memberlist's ProbeInterval"
__swimwatch_option why -l agent-log -r -F -d 'Compare this log of an agent'
__swimwatch_option "timeline pull" -l events -d 'Show only the user events of Serf'
__swimwatch_option pull -l every -x -d 'Ask again after this time'
__swimwatch_option pull -l count -x -d 'With --every: end after asking this often'
__swimwatch_option pull -l metrics -r -F -d 'With --every: write metrics to this file'
__swimwatch_option pull -l forget -x -d 'With --every: keep a dead member that no answer names only for this time'
__swimwatch_option "pull diff" -l timeout -x -d 'Seconds to wait for the answer of a member'
__swimwatch_option pull -l dump -d 'Write the table as one push/pull stream'
__swimwatch_option pull -f -a '(__fish_print_hostnames)'
functions -e __swimwatch_option
