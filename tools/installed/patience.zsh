#compdef patience
# Completion of patience for zsh.
_patience() {
    local -a commands solving
    commands=(
        'solve:decide a deal' 'replay:say whether moves win' 'deal:print the deal of a number'
        'rules:print the rules in full'
    )
    solving=(
        '--nodes[positions to expand at most]:number:' '--cache[finished positions to remember]:number:'
        '--narrow[positions of a restricted search]:number:' '--way[how it is restricted]:way:(foundations suits both)'
        '--memo[how positions are remembered]:memo:(linked lru)'
    )
    if (( CURRENT == 2 )); then
        _describe 'command' commands
        return
    fi
    local rules='1:rules:_patience_rules'
    shift words
    (( CURRENT-- ))
    case $words[1] in
    solve) _arguments $rules '2:deal:_files' $solving '--seed[the deal of this number]:number:' ;;
    deal) _arguments $rules '--seed[the number of the deal]:number:' ;;
    replay) _arguments $rules '2:deal:_files' '3:line:_files' ;;
    rules) _arguments $rules ;;
    esac
}
_patience_rules() {
    local -a games
    games=('@SHARE@'/games/*.json(N:t:r))
    _alternative 'games:game:($games)' 'files:rules file:_files'
}
_patience "$@"
