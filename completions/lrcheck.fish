# Completion of lrcheck for fish: its options, and names of files, grammar files first.

# Prints the names that go on from the word: files with this ending, which is a regular expression, folders, and other files.
function __lrcheck_files
    set -l word (commandline -ct | string replace -r -- '^--page=' '')
    set -l names (complete -C "__fish_command_without_completions $word")
    string match -r -- "^.*\.$argv\$" $names
    string match -- '*/' $names
    string join -- \n $names
end

complete -c lrcheck -k -x -a '(__lrcheck_files "(?:y|yy|ypp)")'
complete -c lrcheck -l summary -d 'Tells the verdict of each file alone'
complete -c lrcheck -l states -d 'Shows the states of the parser, or adds them to --json'
complete -c lrcheck -l json -d 'Tells what was found as JSON'
complete -c lrcheck -l grammar -d 'Prints the grammar alone, as lrt reads it, or adds it to --json'
complete -c lrcheck -l sarif -d 'Tells what was found as a log of SARIF 2.1.0'
complete -c lrcheck -l parse -d 'Parses each line of standard input by the grammar, and tells its tree'
complete -c lrcheck -l page -k -x -a '(__lrcheck_files html)' -d 'Writes a page for a browser, of one file'
complete -c lrcheck -l all -d 'Shows each conflict by itself, with its state, and all places of warnings'
complete -c lrcheck -l settled -d 'Shows also what precedences resolve'
complete -c lrcheck -l trees -d 'Draws both trees of each sentence'
complete -c lrcheck -l steps -x -d 'Looks for a sentence with two trees for N steps a conflict; 0 for no search'
complete -c lrcheck -l without-precedences -d 'Leaves precedences out of the grammars'
complete -c lrcheck -l plain -d 'Uses no colours, and folds no lines'
complete -c lrcheck -l grmtools -d 'Takes each file for one of grmtools'
complete -c lrcheck -l expect -x -d 'Expects N shift/reduce conflicts, whatever the file says'
complete -c lrcheck -s h -l help -d 'Print help'
complete -c lrcheck -s V -l version -d 'Print version'
