# Completion of patience for bash.
_patience() {
    local current=${COMP_WORDS[COMP_CWORD]} before=${COMP_WORDS[COMP_CWORD - 1]} command=${COMP_WORDS[1]}
    local commands='solve replay deal rules'
    COMPREPLY=()
    if [ "$COMP_CWORD" -eq 1 ]; then
        mapfile -t COMPREPLY < <(compgen -W "$commands --help --version" -- "$current")
        return
    fi
    case $before in
    --way) mapfile -t COMPREPLY < <(compgen -W 'foundations suits both' -- "$current"); return ;;
    --memo) mapfile -t COMPREPLY < <(compgen -W 'linked lru' -- "$current"); return ;;
    --*) return ;;
    esac
    case $current in
    --*)
        local options=
        case $command in
        solve) options='--nodes --cache --narrow --way --memo --seed' ;;
        deal) options='--seed' ;;
        esac
        mapfile -t COMPREPLY < <(compgen -W "$options" -- "$current")
        return
        ;;
    esac
    mapfile -t COMPREPLY < <(compgen -f -- "$current")
    if [ "$COMP_CWORD" -eq 2 ]; then
        local games
        games=$(cd '@SHARE@/games' 2>/dev/null && printf '%s\n' *.json | sed 's/\.json$//')
        mapfile -t -O "${#COMPREPLY[@]}" COMPREPLY < <(compgen -W "$games" -- "$current")
    fi
}
complete -o filenames -F _patience patience
