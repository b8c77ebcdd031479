#compdef lrcheck
# Completion of lrcheck for zsh: its options, and names of files. Grammar files come first, and others where there are none.

_arguments -S \
    '--summary[Tells the verdict of each file alone]' \
    '--states[Shows the states of the parser, or adds them to --json]' \
    '--json[Tells what was found as JSON]' \
    '--grammar[Prints the grammar alone, as lrt reads it, or adds it to --json]' \
    '--sarif[Tells what was found as a log of SARIF 2.1.0]' \
    '--parse[Parses each line of standard input by the grammar, and tells its tree]' \
    '--page=[Writes a page for a browser, of one file]:page:_files -g "*.html(-.)"' \
    '--all[Shows each conflict by itself, with its state, and all places of warnings]' \
    '--settled[Shows also what precedences resolve]' \
    '--trees[Draws both trees of each sentence]' \
    '--steps=[Looks for a sentence with two trees for N steps a conflict; 0 for no search]:number: ' \
    '--without-precedences[Leaves precedences out of the grammars]' \
    '--plain[Uses no colours, and folds no lines]' \
    '--grmtools[Takes each file for one of grmtools]' \
    '--expect=[Expects N shift/reduce conflicts, whatever the file says]:number: ' \
    '(- *)'{-h,--help}'[Print help]' \
    '(- *)'{-V,--version}'[Print version]' \
    '*:grammar file:_files -g "*.(y|yy|ypp)(-.)"'
