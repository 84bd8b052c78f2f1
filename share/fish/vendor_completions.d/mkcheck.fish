# Completes the words of mkcheck and of its tools in fish.

set -l commands graph check repair verify since simulate explain
complete -c mkcheck -n "not __fish_seen_subcommand_from $commands" -f
complete -c mkcheck -n "not __fish_seen_subcommand_from $commands" -l version -d 'Print the version'
complete -c mkcheck -l help -d 'Print help'
complete -c mkcheck -n __fish_use_subcommand -a graph -d 'Print the targets in serial order'
complete -c mkcheck -n __fish_use_subcommand -a check -d 'Say yes, or no and why'
complete -c mkcheck -n __fish_use_subcommand -a repair -d 'Print the lines that are missing'
complete -c mkcheck -n __fish_use_subcommand -a verify -d 'Test a certificate'
complete -c mkcheck -n __fish_use_subcommand -a since -d 'Print the files of an old build to remove'
complete -c mkcheck -n __fish_use_subcommand -a simulate -d 'Run a plan'
complete -c mkcheck -n __fish_use_subcommand -a explain -d 'Say what a finding or a fault means'
set -l judging graph check repair verify since simulate
complete -c mkcheck -n "__fish_seen_subcommand_from $judging" -s f -r -d 'The makefile'
complete -c mkcheck -n "__fish_seen_subcommand_from $judging" -s r -d 'Leave out the default text'
complete -c mkcheck -n "__fish_seen_subcommand_from $judging" -s b -r -d 'The recorded footprints'
complete -c mkcheck -n "__fish_seen_subcommand_from $judging" -s w -d 'Print faults in words'
complete -c mkcheck -n "__fish_seen_subcommand_from $judging" -l json -d 'Print one JSON value'
complete -c mkcheck -n '__fish_seen_subcommand_from graph' -s c -d 'Print the commands'
complete -c mkcheck -n '__fish_seen_subcommand_from check' -s c -d 'Print only the certificate'
complete -c mkcheck -n '__fish_seen_subcommand_from check' -s e -x -d 'Print the plan of a finding'
complete -c mkcheck -n '__fish_seen_subcommand_from repair' -l part -d 'Print lines for a part'
complete -c mkcheck -n '__fish_seen_subcommand_from verify' -s k -r -d 'The certificate'
complete -c mkcheck -n '__fish_seen_subcommand_from simulate' -s p -r -d 'The plan'
complete -c mkcheck -n '__fish_seen_subcommand_from explain' -f \
    -a "(mkcheck explain 2>/dev/null | string replace -r ':.*' '' | string split ' ')"

for tool in mkcheck-audit mkcheck-record mkcheck-import mkcheck-report
    complete -c $tool -l help -d 'Print help'
    complete -c $tool -l version -d 'Print the version'
    complete -c $tool -s f -r -d 'The makefile'
end
for tool in mkcheck-audit mkcheck-record mkcheck-import
    complete -c $tool -s C -x -a '(__fish_complete_directories)' -d 'The folder of the project'
    complete -c $tool -l no-replay -d 'Do not run each recipe again'
end
for tool in mkcheck-audit mkcheck-import
    complete -c $tool -s S -x -a '(__fish_complete_directories)' -d 'Where the tool is started'
end
for tool in mkcheck-record mkcheck-import
    complete -c $tool -l fixed -r -d 'Files under it never change'
    complete -c $tool -l trust -r -d 'Take its recipe as it is'
end
for tool in mkcheck-record mkcheck-report
    complete -c $tool -s r -d 'Leave out the default text'
end

complete -c mkcheck-audit -l from -x -a 'posix make ninja' -d 'Who reads it'
complete -c mkcheck-audit -l diff -d 'Show the lines to add'
complete -c mkcheck-audit -l fix -d 'Write the lines, and audit again'
complete -c mkcheck-audit -l baseline -r -d 'Take the findings in a file as accepted'
complete -c mkcheck-audit -l fixed -x -a '(__fish_complete_path)' -d 'What lies there never changes'
complete -c mkcheck-audit -l trust -x -d 'Take the recipe of a target as it is'
complete -c mkcheck-audit -l allow-unjudged -d 'Status 0 also where not all was judged'
complete -c mkcheck-audit -l format -x -a 'text json sarif github html' -d 'The form of the answer'
complete -c mkcheck-audit -s o -r -d 'Where that form goes'
complete -c mkcheck-audit -l no-record -d 'Judge what was recorded before'
complete -c mkcheck-audit -l fresh-only -d 'No answer where a source changed'
complete -c mkcheck-audit -l no-fresh-only -d 'An answer where a source changed'

complete -c mkcheck-record -l update -r -d 'Record only what changed'
complete -c mkcheck-record -s o -r -d 'Where the footprints go'
complete -c mkcheck-record -l keep -x -a '(__fish_complete_directories)' -d 'Keep the build for since'
complete -c mkcheck-record -l in-place -d 'Run in the folder itself'
complete -c mkcheck-record -l again -d 'Run all twice'
complete -c mkcheck-record -l make -d 'Let make run all too'
complete -c mkcheck-record -s k -d 'Go on where a recipe fails'
complete -c mkcheck-record -l strict -d 'Take a doubt for an error'
complete -c mkcheck-record -l opaque -r -d 'Its recipe may start a make'
complete -c mkcheck-record -l answer -r -d 'Where what it came to goes, as JSON'

complete -c mkcheck-import -l from -x -a 'make ninja' -d 'The build tool'
complete -c mkcheck-import -s o -x -a '(__fish_complete_directories)' -d 'Where the translation goes'
complete -c mkcheck-import -l build -d 'Translate a real build'
complete -c mkcheck-import -l only -x -a 'read translate graph record check' -d 'This step alone'
complete -c mkcheck-import -l look -d 'Say what will be judged'
complete -c mkcheck-import -l keep -d 'Take targets that are there'
complete -c mkcheck-import -l configured -x -a '(__fish_complete_directories)' \
    -d 'A folder that was configured'

complete -c mkcheck-report -s b -r -d 'The recorded footprints'
complete -c mkcheck-report -s o -r -d 'Where the report goes'
complete -c mkcheck-report -l sarif -d 'Write SARIF 2.1.0'
complete -c mkcheck-report -l dot -d 'Write the graph for Graphviz'
complete -c mkcheck-report -l whole -d 'With --dot, a large graph whole'
