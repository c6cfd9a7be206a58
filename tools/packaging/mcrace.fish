# Completions of mcrace for fish.
complete -c mcrace -f
%(fish)s
