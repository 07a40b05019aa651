# Completions of fish for permit_clerk: its commands, and the option of one. The names of files behind < are fish's own affair.
complete -c permit_clerk -f
complete -c permit_clerk -n __fish_use_subcommand -a certify -d 'certify a journal with its day file behind it'
complete -c permit_clerk -n __fish_use_subcommand -a carry -d 'write the file with which the office goes on'
complete -c permit_clerk -n '__fish_seen_subcommand_from carry' -l in-force -d 'only the trucks that have a permit in force'
