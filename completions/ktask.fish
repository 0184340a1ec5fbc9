# Completions of ktask for fish: put this file into ~/.config/fish/completions.

complete -c ktask -f
complete -c ktask -n __fish_use_subcommand -a run -d 'Run a program'
complete -c ktask -n __fish_use_subcommand -a bench -d 'Run a program of a family'
complete -c ktask -n __fish_use_subcommand -a plain -d 'Run a program on one thread'
complete -c ktask -n __fish_use_subcommand -a check -d 'Check a program'
complete -c ktask -n __fish_use_subcommand -a print -d 'Print a program in its canonical form'
complete -c ktask -n __fish_use_subcommand -a help -d 'Print how each command is called'
complete -c ktask -n '__fish_seen_subcommand_from run plain check print' -F
complete -c ktask -n '__fish_seen_subcommand_from bench' -a 'fib grid chain' -d 'Family'
complete -c ktask -n '__fish_seen_subcommand_from run bench' -l workers -x -d 'Threads, 1 to 64'
complete -c ktask -n '__fish_seen_subcommand_from run plain' -l superblocks -x -d 'Superblocks of the pool, 1 to 1024'
complete -c ktask -n '__fish_seen_subcommand_from run plain' -l units -x -a '8 16 32 64 128 256 512' -d 'Units of a superblock'
complete -c ktask -n '__fish_seen_subcommand_from run plain' -l limit -x -d 'Most activations, 1 to 4000000'
complete -c ktask -n '__fish_seen_subcommand_from run plain' -l trace -d 'Report each activation and task'
