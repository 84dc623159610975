# Made from the help of the program: run checks/completions --write.
_jobshop() {
    local offered=
    case $COMP_CWORD:${COMP_WORDS[1]}:$3:$2 in
    1:*) offered='list check solve help -h --help' ;;
    2:help:*) offered='list check solve' ;;
    *:--format:*) offered='orlib taillard routes' ;;
    *:--name:*) offered='' ;;
    *:--rounds:*) offered='' ;;
    *:--budget:*) offered='' ;;
    *:--piece:*) offered='' ;;
    *:--order:*) offered='kept bound' ;;
    *:--workers:*) offered='' ;;
    *:list:*:-*) offered='--format -h --help' ;;
    *:check:*:-*) offered='--format --name -h --help' ;;
    *:solve:*:-*) offered='--format --name --rounds --budget --piece --order --workers --gantt -h --help' ;;
    *) compopt -o default ;;
    esac
    mapfile -t COMPREPLY < <(compgen -W "$offered" -- "$2")
}
complete -F _jobshop jobshop
