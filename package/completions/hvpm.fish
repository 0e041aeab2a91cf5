# Completes the words of hvpm in fish.

complete -c hvpm -f
complete -c hvpm -s h -l help -d 'Print help'
complete -c hvpm -n __fish_use_subcommand -s V -l version -d 'Print version'

complete -c hvpm -n __fish_use_subcommand -a run -d 'Runs a script of calls, accesses and phases, and prints its audit'
complete -c hvpm -n __fish_use_subcommand -a check -d 'Tells whether an audit is one that a run of the script may write'
complete -c hvpm -n __fish_use_subcommand -a explain -d 'Runs a script, and tells each event and its answer in words'
complete -c hvpm -n __fish_use_subcommand -a trace -d 'Runs a script, and prints each event with its effect as JSON'
complete -c hvpm -n __fish_use_subcommand -a report -d 'Runs a script, and prints its events as a page for a browser'
complete -c hvpm -n __fish_use_subcommand -a serve -d 'Answers each line of standard input at once'
complete -c hvpm -n __fish_use_subcommand -a draw -d 'Runs a script, and prints the state at its end as a graph for Graphviz'
complete -c hvpm -n __fish_use_subcommand -a asm -d 'Prints the script that a text with names of calls, fields and registers means'
complete -c hvpm -n __fish_use_subcommand -a help -d 'Print this message or the help of the given subcommand(s)'

complete -c hvpm -n '__fish_seen_subcommand_from run check explain trace report draw asm' -F
complete -c hvpm -n '__fish_seen_subcommand_from run check explain trace report draw' -l names -d 'Take a script whose lines may be by names, as asm does'
complete -c hvpm -n '__fish_seen_subcommand_from run' -l serial -d 'Run the lines in the script\'s order, and start no thread'
complete -c hvpm -n '__fish_seen_subcommand_from run' -l table -d 'Print the table of partitions after the audit'
complete -c hvpm -n '__fish_seen_subcommand_from check' -l prefix -d 'Take an audit that ends early'
complete -c hvpm -n '__fish_seen_subcommand_from check' -l no-rules -d 'Compare no names of rules'
complete -c hvpm -n '__fish_seen_subcommand_from check' -l json -d 'Print the verdict as JSON'
complete -c hvpm -n '__fish_seen_subcommand_from trace' -l perfetto -d 'Print one trace for Perfetto or chrome://tracing'
complete -c hvpm -n '__fish_seen_subcommand_from serve' -l json -d 'Answer each line with one line of JSON'
complete -c hvpm -n '__fish_seen_subcommand_from serve' -l names -d 'Take lines that may be by names, as asm does'
complete -c hvpm -n '__fish_seen_subcommand_from draw' -l sequence -d 'Print the messages and signals as a sequence chart in SVG'
complete -c hvpm -n '__fish_seen_subcommand_from draw' -x -l to -d 'Stop after N events'
complete -c hvpm -n '__fish_seen_subcommand_from draw' -x -l from -d 'Begin the chart at event N'
complete -c hvpm -n '__fish_seen_subcommand_from draw' -x -l only -d 'Draw only what partition ID, or its processor ID.VP, has, does or gets'
complete -c hvpm -n '__fish_seen_subcommand_from help' -a 'run check explain trace report serve draw asm help'
