# Completions of ordtx for fish.

function __ordtx_command
    contains -- (commandline -opc)[2] $argv
end

complete -c ordtx -f
complete -c ordtx -s h -l help -d 'Print help'
complete -c ordtx -s V -l version -d 'Print version'

complete -c ordtx -n __fish_use_subcommand -a run -d 'Runs the transactions of a document on workers'
complete -c ordtx -n __fish_use_subcommand -a serial -d 'Runs the transactions by number on one thread'
complete -c ordtx -n __fish_use_subcommand -a carry -d 'Prints a document of the objects as they end'
complete -c ordtx -n __fish_use_subcommand -a check -d 'Reads a document, and prints how much it has'
complete -c ordtx -n __fish_use_subcommand -a locate -d 'Reads a document, and prints where its first fault is'
complete -c ordtx -n __fish_use_subcommand -a help -d 'Print help'
complete -c ordtx -n '__ordtx_command help' -a 'run serial carry check locate help'

complete -c ordtx -n '__ordtx_command run serial carry check locate' -F
complete -c ordtx -n '__ordtx_command run serial carry check' -l workers -x -a '1 2 4 8 16 32 64' -d 'How many workers there are, 1 to 64'
complete -c ordtx -n '__ordtx_command run' -l cut -x -a '1 4 16 64 256 1000' -d 'How many transactions a worker takes at a time'
complete -c ordtx -n '__ordtx_command run' -l audit -d 'Print also how often each transaction was run'
complete -c ordtx -n '__ordtx_command run' -l why -d 'Print also which operations ended each round'
complete -c ordtx -n '__ordtx_command carry' -l into -r -F -d 'Print the document NEXT with each of these objects as it ends'
complete -c ordtx -n '__ordtx_command run' -l progress -d 'Show on standard error how far the run is'
