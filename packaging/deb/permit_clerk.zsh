#compdef permit_clerk
# Completions of zsh for permit_clerk: its commands, and the option of one. The names of files behind < are zsh's own affair.
_arguments \
    '--in-force[with carry, only the trucks that have a permit in force]' \
    '1:command:((certify\:"certify a journal with its day file behind it" carry\:"write the file with which the office goes on"))'
