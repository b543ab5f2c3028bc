# The completion of dbus-wire's commands and options, for fish.

# A match rule, KEY=VALUE,.., as far as it is written, and what its last part can be: a key that the rule does not have
# yet, or a type.
function __dbus_wire_rule
    set -l front (string match -r '^.*,' -- (commandline -ct))
    set -l last (string replace -r '^.*,' '' -- (commandline -ct))
    if string match -q 'type=*' -- $last
        printf '%s\n' "$front"type={signal,method_call,method_return,error}
    else if not string match -q '*=*' -- $last
        for key in type sender interface member path path_namespace destination arg0 arg0path arg0namespace
            string match -q "*,$key=*" -- ",$front"; or echo "$front$key="
        end
    end
end

set -l commands show json list check count calls swap filter encode handshake help

complete -c dbus-wire -n "not __fish_seen_subcommand_from $commands" -f
complete -c dbus-wire -n "not __fish_seen_subcommand_from $commands" -a show -d 'Write each message as text'
complete -c dbus-wire -n "not __fish_seen_subcommand_from $commands" -a json -d 'Write each message as a line of JSON'
complete -c dbus-wire -n "not __fish_seen_subcommand_from $commands" -a list -d 'Write each message as one line'
complete -c dbus-wire -n "not __fish_seen_subcommand_from $commands" -a check -d 'Say whether the whole input is messages'
complete -c dbus-wire -n "not __fish_seen_subcommand_from $commands" -a count -d 'Count the messages of each type, sender, member and so on'
complete -c dbus-wire -n "not __fish_seen_subcommand_from $commands" -a calls -d 'List the calls, and what came of each'
complete -c dbus-wire -n "not __fish_seen_subcommand_from $commands" -a swap -d 'Write each message in another byte order'
complete -c dbus-wire -n "not __fish_seen_subcommand_from $commands" -a filter -d 'Write the messages that match a rule'
complete -c dbus-wire -n "not __fish_seen_subcommand_from $commands" -a encode -d 'Write the messages that lines of JSON spell'
complete -c dbus-wire -n "not __fish_seen_subcommand_from $commands" -a handshake -d 'List the lines before the messages'
complete -c dbus-wire -n "not __fish_seen_subcommand_from $commands" -a help -d 'Write the help'
complete -c dbus-wire -s h -l help -f -d 'Write the help'
complete -c dbus-wire -n "not __fish_seen_subcommand_from $commands" -s V -l version -f -d 'Write the version'
complete -c dbus-wire -n '__fish_seen_subcommand_from help' -f -a 'show json list check count calls swap filter encode handshake help'
# bench/options.py writes the rows of the options.
complete -c dbus-wire -n '__fish_seen_subcommand_from swap encode' -l to -x -a 'l B' -d 'The byte order to write'
complete -c dbus-wire -n '__fish_seen_subcommand_from handshake' -l side -x -a 'client server' -d 'The side whose lines they are'
complete -c dbus-wire -n '__fish_seen_subcommand_from show' -l time -f -d 'Write the time of each message before it'
complete -c dbus-wire -n '__fish_seen_subcommand_from show' -l escape -f -d 'Escape hidden characters'
complete -c dbus-wire -n '__fish_seen_subcommand_from json' -l no-time -f -d 'Leave out the times'
complete -c dbus-wire -n '__fish_seen_subcommand_from json' -l safe-integers -f -d 'Write integers beyond 2^53 - 1 as strings'
complete -c dbus-wire -n '__fish_seen_subcommand_from encode' -l safe-integers -f -d 'Take integers beyond 2^53 - 1 only as strings'
complete -c dbus-wire -n '__fish_seen_subcommand_from list' -l width -x -d 'Cells of a line'
complete -c dbus-wire -n '__fish_seen_subcommand_from calls' -l members -f -d 'Sum the calls up by their members'
complete -c dbus-wire -n '__fish_seen_subcommand_from calls' -l unanswered -f -d 'List the calls without a reply'
complete -c dbus-wire -n '__fish_seen_subcommand_from calls' -l errors -f -d 'List the calls that an error answered'
complete -c dbus-wire -n '__fish_seen_subcommand_from calls' -l slower -x -d 'List the calls replied to later'
complete -c dbus-wire -n '__fish_seen_subcommand_from show json list count swap filter' -l invert -f -d 'Select the messages that match no rule'
complete -c dbus-wire -n '__fish_seen_subcommand_from show json list count swap filter' -l may-match -f -d 'Select those that a rule may match'
complete -c dbus-wire -n '__fish_seen_subcommand_from show json list count swap filter' -l as-bus -f -d 'Match as a bus does'
complete -c dbus-wire -n '__fish_seen_subcommand_from show json list count swap filter' -l owner -x -d 'The owner of a well-known name'
complete -c dbus-wire -n '__fish_seen_subcommand_from show json list count swap filter' -l learn-owners -f -d 'Learn owners from the input'
complete -c dbus-wire -n '__fish_seen_subcommand_from swap filter' -l raw -f -d 'Write raw messages, also of a file'
complete -c dbus-wire -n '__fish_seen_subcommand_from show json list swap filter' -l json -f -d 'Tell what is refused as JSON'
complete -c dbus-wire -n '__fish_seen_subcommand_from check count calls' -l json -f -d 'Tell what is refused as JSON'
complete -c dbus-wire -n '__fish_seen_subcommand_from show json list check count calls swap filter encode' -l explain -f -d 'Explain what is refused'
complete -c dbus-wire -n '__fish_seen_subcommand_from show json list check count calls filter' -l keep-going -f -d 'Go on after a refused message'
complete -c dbus-wire -n '__fish_seen_subcommand_from encode' -l keep-going -f -d 'Go on after a refused line'
complete -c dbus-wire -n '__fish_seen_subcommand_from show json list check count calls filter' -l resync -f -d 'The same, and look for where messages begin again'
complete -c dbus-wire -n '__fish_seen_subcommand_from show json list check count calls filter' -l resync-window -x -d 'The same within so many bytes'
complete -c dbus-wire -n '__fish_seen_subcommand_from encode' -l max-line -x -d 'Most bytes of a line'
complete -c dbus-wire -n '__fish_seen_subcommand_from show json list filter' -l skip -x -d 'Messages to skip first'
complete -c dbus-wire -n '__fish_seen_subcommand_from show json list filter' -l limit -x -d 'Most messages to write'
complete -c dbus-wire -n '__fish_seen_subcommand_from show json list filter' -l check-rest -f -d 'Read and check the rest after these'
complete -c dbus-wire -n '__fish_seen_subcommand_from show json list count swap filter' -f -a '(__dbus_wire_rule)'
complete -c dbus-wire -n '__fish_seen_subcommand_from show json list check count calls swap filter' -l handshake -x -a 'client server' -d 'The side whose handshake comes before the messages'
complete -c dbus-wire -n '__fish_seen_subcommand_from show json list check count calls swap filter encode' -l max-message -x -d 'Most bytes of a message'
complete -c dbus-wire -n '__fish_seen_subcommand_from show json list check count calls swap filter encode' -l max-array -x -d 'Most bytes of the contents of an array'
complete -c dbus-wire -n '__fish_seen_subcommand_from show json list check count calls swap filter encode' -l max-depth -x -d 'Most containers open at once'
complete -c dbus-wire -n '__fish_seen_subcommand_from show json list check count calls swap filter encode' -l fds -x -a 'any below-count' -d 'Which indexes of file descriptors a body may have'
