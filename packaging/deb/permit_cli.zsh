#compdef permit_cli
# Completions of zsh for permit_cli: its commands and its options. The names of files behind < are zsh's own affair.
_arguments \
    '--seed=[the number that a day is made from]:a number from 0 to 65535: ' \
    '--size=[the size of a day that is made]:a number from 1 to 40: ' \
    '--trucks=[how many trucks follow each other]:a number from 2 to 16: ' \
    '--gap=[the least inches between two of them]:a number from 1 to 3000: ' \
    '1:command:((check\:"judge one truck" day\:"run an office for a day" make\:"make a day file from a number" trial\:"run that day on one thread" audit\:"check a journal against its day file" design\:"rate one truck by three design loads" convoy\:"rate trucks that follow each other" reroute\:"run a day, and apply again for each recalled permit"))'
