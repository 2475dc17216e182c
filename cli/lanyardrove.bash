# bash completion for lanyardrove

_lanyardrove()
{
    local current=${COMP_WORDS[COMP_CWORD]} previous=${COMP_WORDS[COMP_CWORD-1]}
    local options input="--offset --length --swap --hex -h --help"
    COMPREPLY=()
    if [ "$COMP_CWORD" -eq 1 ]; then
        mapfile -t COMPREPLY < <(compgen -W "check repair dump draw report diff translate edit asm lint help --help --version" -- "$current")
        return
    fi
    case ${COMP_WORDS[1]} in
    check) options="-q --quiet -v --verbose --failures --all --format --f3dex2 $input" ;;
    repair) options="--afresh --check -i --in-place -o --output $input" ;;
    report) options="--f3dex2 --memory --start --texture --steps -o --output $input" ;;
    dump) options="--brief --asm --from --to --around --f3dex2 $input" ;;
    diff) options="-q --quiet --format -o --output $input" ;;
    translate) options="--start -o --output -h --help" ;;
    edit) options="-i --in-place -o --output $input" ;;
    lint) options="-W --warn --format --f3dex2 $input" ;;
    asm) options="-o --output -h --help" ;;
    help) mapfile -t COMPREPLY < <(compgen -W "check repair dump draw report diff translate edit asm lint" -- "$current"); return ;;
    draw) options="--f3dex2 --memory --start --texture --image -o --output $input" ;;
    *) return ;;
    esac
    case $previous in
    --memory) mapfile -t COMPREPLY < <(compgen -W "64K 1M 4M 8M" -- "$current"; compgen -f -- "$current"); return ;;
    --format)
        local forms="text gcc github json sarif"
        [ "${COMP_WORDS[1]}" = diff ] && forms="text json"
        mapfile -t COMPREPLY < <(compgen -W "$forms" -- "$current"); return ;;
    -W|--warn)
        local names="fill-texture depth-image combine-mode texture-memory sync-full data-run swapped all"
        mapfile -t COMPREPLY < <(compgen -W "$(printf 'no-%s ' $names) $names" -- "$current"); return ;;
    --start|--f3dex2|--image|--offset|--length|--from|--to|--around) return ;;
    esac
    if [[ $current == -* ]]; then
        mapfile -t COMPREPLY < <(compgen -W "$options" -- "$current")
    else
        compopt -o filenames 2>/dev/null
        mapfile -t COMPREPLY < <(compgen -f -- "$current")
    fi
}
complete -F _lanyardrove lanyardrove
