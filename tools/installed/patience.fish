# Completion of patience for fish.
set -l commands solve replay deal rules
complete -c patience -n "not __fish_seen_subcommand_from $commands" -f -a "$commands"
complete -c patience -n "not __fish_seen_subcommand_from $commands" -l help -d 'one screen of help'
complete -c patience -n "not __fish_seen_subcommand_from $commands" -l version -d 'name and version'
complete -c patience -n "__fish_seen_subcommand_from $commands" -a "(for f in '@SHARE@'/games/*.json; basename \$f .json; end)"
complete -c patience -n '__fish_seen_subcommand_from solve' -x -l nodes -d 'positions at most'
complete -c patience -n '__fish_seen_subcommand_from solve' -x -l cache -d 'finished positions to remember'
complete -c patience -n '__fish_seen_subcommand_from solve' -x -l narrow -d 'positions of a restricted search'
complete -c patience -n '__fish_seen_subcommand_from solve' -x -l way -a 'foundations suits both'
complete -c patience -n '__fish_seen_subcommand_from solve' -x -l memo -a 'linked lru'
complete -c patience -n '__fish_seen_subcommand_from solve deal' -x -l seed -d 'the number of a deal'
