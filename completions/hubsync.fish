# Completion of hubsync's words for fish: to be put into ~/.config/fish/completions.
# The gate compares the words with those of the program (.ci/words).
complete -c hubsync -f

complete -c hubsync -n __fish_use_subcommand -a check -d 'Say whether the profiles may run at the same time'
complete -c hubsync -n __fish_use_subcommand -a certify -d 'Write certificates of a safe set, which anyone can check again'
complete -c hubsync -n __fish_use_subcommand -a verify -d 'Say whether the certificates of the input show that the set is safe'
complete -c hubsync -n __fish_use_subcommand -a clashes -d 'List all clashes, and all rules that may be broken'
complete -c hubsync -n __fish_use_subcommand -a mend -d 'Find lines that make the set safe, and that only take away'
complete -c hubsync -n __fish_use_subcommand -a rounds -d 'Cut the profiles into rounds that may run at the same time'
complete -c hubsync -n __fish_use_subcommand -a plan -d 'Say which profiles Unison may run at the same time'
complete -c hubsync -n __fish_use_subcommand -a import -d 'Write a bundle of what Unison 2.51 to 2.53 may do by the profiles'
complete -c hubsync -n __fish_use_subcommand -a reach -d 'Say whether a profile of the input reaches a path'
complete -c hubsync -n __fish_use_subcommand -a run -d 'Run the jobs of a safe set on the state of the input'
complete -c hubsync -n __fish_use_subcommand -a help -d 'Show help'
complete -c hubsync -n __fish_use_subcommand -s h -l help -d 'Show help'
complete -c hubsync -n __fish_use_subcommand -s V -l version -d 'Show the version'

complete -c hubsync -n '__fish_seen_subcommand_from check certify verify clashes mend rounds plan import reach run' -s h -l help -d 'Show help'
complete -c hubsync -n '__fish_seen_subcommand_from check certify verify clashes mend rounds plan import run' -F
complete -c hubsync -n '__fish_seen_subcommand_from check certify verify clashes mend rounds plan import run' -l rules -r -F -d 'The file of the rules'
complete -c hubsync -n '__fish_seen_subcommand_from check certify verify clashes mend rounds run' -l state -r -F -d 'The file of the state'
complete -c hubsync -n '__fish_seen_subcommand_from check certify verify clashes mend rounds run' -l certificates -r -F -d 'The file of the certificates'
complete -c hubsync -n '__fish_seen_subcommand_from check certify verify clashes mend rounds plan import run' -l strict -d 'Exit with 1 in place of 0 if a yes may mislead'
complete -c hubsync -n '__fish_seen_subcommand_from check clashes mend rounds reach' -l unison -d 'Answer about what Unison 2.51 to 2.53 may do by the profiles'
complete -c hubsync -n '__fish_seen_subcommand_from check clashes mend rounds plan import' -l hosts -r -F -d 'The file of a table of hosts, for Unison'
complete -c hubsync -n '__fish_seen_subcommand_from check clashes mend rounds plan import' -l verbose -d 'List on standard error all lines that do not count for Unison'
complete -c hubsync -n '__fish_seen_subcommand_from run' -l workers -x -a '(seq 1 16)' -d 'How many workers run the jobs'
complete -c hubsync -n '__fish_seen_subcommand_from run' -l rounds -d 'Run the rounds of the set one after another'
complete -c hubsync -n '__fish_seen_subcommand_from run' -l in-order -d 'Run the jobs of any set as if one after another, in their order'
complete -c hubsync -n '__fish_seen_subcommand_from clashes' -l dot -d 'Draw what clashes as a graph for Graphviz'
complete -c hubsync -n '__fish_seen_subcommand_from rounds' -l alone -d 'For Unison, let each profile that cannot be read run alone'
complete -c hubsync -n '__fish_seen_subcommand_from mend' -l bundle -d 'Write the bundle with the lines in place'
complete -c hubsync -n '__fish_seen_subcommand_from help' -a 'check certify verify clashes mend rounds plan import reach run help'
