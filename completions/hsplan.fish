# Completions of hsplan for fish, written by tools/gate/write_grammar.py.

complete -c hsplan -n "not __fish_seen_subcommand_from locate site plan check dispatch report" -f -a "locate site plan check dispatch report"
complete -c hsplan -n "__fish_seen_subcommand_from locate" -l option -x -a "na local handle" -d 'what the site hashes'
complete -c hsplan -n "__fish_seen_subcommand_from locate" -l servers -x -d 'number of servers'
complete -c hsplan -n "__fish_seen_subcommand_from locate plan check dispatch report" -l settings -r -F -d 'sites and hosts, TOML'
complete -c hsplan -n "__fish_seen_subcommand_from locate plan check dispatch report" -l values -r -F -d 'a value list'
complete -c hsplan -n "__fish_seen_subcommand_from site" -l index -x -d 'index of the value'
complete -c hsplan -n "__fish_seen_subcommand_from plan check dispatch report" -l demand -r -F -d 'queries of regions for handles, CSV'
complete -c hsplan -n "__fish_seen_subcommand_from plan check dispatch report" -l costs -r -F -d 'costs from regions to sites, CSV'
complete -c hsplan -n "__fish_seen_subcommand_from plan check dispatch report" -l capacity -r -F -d 'capacities of servers, CSV'
complete -c hsplan -n "__fish_seen_subcommand_from check dispatch report" -l plan -r -F -d 'a certificate'
complete -c hsplan -n "__fish_seen_subcommand_from dispatch" -l log -r -F -d 'a log, CSV'
complete -c hsplan -n "__fish_seen_subcommand_from dispatch" -l fronts -x -d 'number of fronts'
complete -c hsplan -n "__fish_seen_subcommand_from report" -l kind -x -a "load region shortage" -d 'what is shown'
