# Completion of lrcheck for bash: its options, and names of files. Grammar files come first, and others where there are none.

# Prints the names that go on from a word: folders, and files with these endings.
_lrcheck_files() {
    local word=$1 ending
    shift
    compgen -d -- "$word"
    for ending; do compgen -f -X "!*.$ending" -- "$word"; done
}

_lrcheck() {
    local word=$2 option=$3 names='' name
    local options='--summary --states --json --grammar --sarif --parse --page --all --settled --trees --steps --without-precedences
        --plain --grmtools --expect --help --version'
    [[ $option != '=' ]] || option=${COMP_WORDS[COMP_CWORD - 2]}
    COMPREPLY=()
    case " ${COMP_WORDS[*]:1:COMP_CWORD - 1} " in *' -- '*) option=-- ;; esac
    case $option,$word in
    --expect,* | --steps,*) compopt +o bashdefault +o default 2>/dev/null ;;
    --page,*) names=$(_lrcheck_files "$word" html) ;;
    --,*) names=$(_lrcheck_files "$word" y yy ypp) ;;
    *,-*) names=$(compgen -W "$options" -- "$word") ;;
    *) names=$(_lrcheck_files "$word" y yy ypp) ;;
    esac
    while IFS= read -r name; do
        [[ -z $name ]] || COMPREPLY+=("$name")
    done <<<"$names"
}

complete -F _lrcheck -o filenames -o bashdefault -o default lrcheck
