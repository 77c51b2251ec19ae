# completion of latex2mathml in fish
complete -c latex2mathml -f
complete -c latex2mathml -n '__fish_use_subcommand' -a 'inline block document html'
complete -c latex2mathml -n '__fish_seen_subcommand_from html' -F
