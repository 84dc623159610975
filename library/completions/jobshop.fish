# Made from the help of the program: run checks/completions --write.
function __jobshop
    complete -c jobshop -n "__fish_seen_subcommand_from $argv[1]" $argv[2..]
end
complete -c jobshop -s h -l help -d 'Print help'
complete -c jobshop -n __fish_use_subcommand -f -a list -d 'Lists the instances of a text'
complete -c jobshop -n __fish_use_subcommand -f -a check -d 'Judges a schedule of an instance'
complete -c jobshop -n __fish_use_subcommand -f -a solve -d 'Searches a schedule of least makespan'
complete -c jobshop -n __fish_use_subcommand -f -a help -d 'Print help'
__jobshop help -f -a 'list check solve'
__jobshop list -l format -x -a 'orlib taillard routes' -d 'How the instance text is written'
__jobshop check -l format -x -a 'orlib taillard routes' -d 'How the instance text is written'
__jobshop check -l name -x -d 'The instance of this name'
__jobshop solve -l format -x -a 'orlib taillard routes' -d 'How the instance text is written'
__jobshop solve -l name -x -d 'The instance of this name'
__jobshop solve -l rounds -x -d 'Maximum number of rounds, 0 to 100000'
__jobshop solve -l budget -x -d 'Nodes that the search of a piece takes before it leaves the rest open, 1 to 10000000'
__jobshop solve -l piece -x -d 'Open nodes in a piece, 1 to 1000'
__jobshop solve -l order -x -a 'kept bound' -d 'Which open nodes a round takes first'
__jobshop solve -l workers -x -d 'Threads that search side by side, 1 to 64'
__jobshop solve -l gantt -d 'Draws the schedule below the report'
functions -e __jobshop
