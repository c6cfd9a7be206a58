#compdef mcrace
# Completions of mcrace for zsh.
local at=
if (( CURRENT > 2 )); then
    at=$words[2]
    shift words
    (( CURRENT-- ))
fi
case $at in
%(zsh)s
esac
