# Completions of hsplan-stream for fish, written by tools/gate/write_grammar.py.

complete -c hsplan-stream -n "not __fish_seen_subcommand_from places plan answer check report interfaces faults" -f -a "places plan answer check report interfaces faults"
complete -c hsplan-stream -n "not __fish_seen_subcommand_from places plan answer check report interfaces faults" -l help -d 'show what the commands do'
complete -c hsplan-stream -n "not __fish_seen_subcommand_from places plan answer check report interfaces faults" -l version -d 'show the version'
complete -c hsplan-stream -n "__fish_seen_subcommand_from places plan answer check report interfaces" -l settings -r -F -d 'sites and hosts, TOML'
complete -c hsplan-stream -n "__fish_seen_subcommand_from places plan answer check report faults" -l log -r -F -d 'a log, CSV'
complete -c hsplan-stream -n "__fish_seen_subcommand_from places plan answer check report interfaces" -l values -r -F -d 'a value list'
complete -c hsplan-stream -n "__fish_seen_subcommand_from places plan answer check report interfaces faults" -l help -d 'show what the commands do'
complete -c hsplan-stream -n "__fish_seen_subcommand_from plan answer check report faults" -l costs -r -F -d 'costs from regions to sites, CSV'
complete -c hsplan-stream -n "__fish_seen_subcommand_from plan answer check report faults" -l capacity -r -F -d 'capacities of servers, CSV'
complete -c hsplan-stream -n "__fish_seen_subcommand_from answer check report" -l prices -r -F -d 'a certificate by prices'
complete -c hsplan-stream -n "__fish_seen_subcommand_from answer" -l fronts -x -d 'number of fronts'
complete -c hsplan-stream -n "__fish_seen_subcommand_from answer" -l front -x -d 'number of this front, from 0'
complete -c hsplan-stream -n "__fish_seen_subcommand_from report" -l kind -x -a "load region" -d 'what is shown'
complete -c hsplan-stream -n "__fish_seen_subcommand_from faults" -l demand -r -F -d 'queries of regions for handles, CSV'
