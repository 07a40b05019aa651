# Completions of fish for permit_cli: its commands and its options. The names of files behind < are fish's own affair.
complete -c permit_cli -f
complete -c permit_cli -n __fish_use_subcommand -a check -d 'judge one truck'
complete -c permit_cli -n __fish_use_subcommand -a day -d 'run an office for a day'
complete -c permit_cli -n __fish_use_subcommand -a make -d 'make a day file from a number'
complete -c permit_cli -n __fish_use_subcommand -a trial -d 'run that day on one thread'
complete -c permit_cli -n __fish_use_subcommand -a audit -d 'check a journal against its day file'
complete -c permit_cli -n __fish_use_subcommand -a design -d 'rate one truck by three design loads'
complete -c permit_cli -n __fish_use_subcommand -a convoy -d 'rate trucks that follow each other'
complete -c permit_cli -n __fish_use_subcommand -a reroute -d 'run a day, and apply again for each recalled permit'
complete -c permit_cli -l seed -x -d 'the number that a day is made from, 0 to 65535'
complete -c permit_cli -l size -x -d 'the size of a day that is made, 1 to 40'
complete -c permit_cli -l trucks -x -d 'how many trucks follow each other, 2 to 16'
complete -c permit_cli -l gap -x -d 'the least inches between two of them, 1 to 3000'
