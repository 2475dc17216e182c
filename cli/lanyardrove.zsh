#compdef lanyardrove
# zsh completion for lanyardrove, installed as _lanyardrove

_lanyardrove()
{
    local -a commands input options memory display warnings
    commands=(check repair dump draw report diff translate edit asm lint)
    input=('--offset=:byte:' '--length=:bytes:' --swap --hex -h --help '*:list:_files')
    display='--f3dex2=:offset:'
    memory=($display '--memory=:memory:{compadd 64K 1M 4M 8M; _files}' '--start=:address:' '--texture=:texture:_files')
    if (( CURRENT == 2 )); then
        compadd -- $commands help --help --version
        return
    fi
    case $words[2] in
    check) options=($display -q --quiet -v --verbose --failures --all '--format=:form:(text gcc github json sarif)') ;;
    repair) options=(--afresh --check -i --in-place '-o:output:_files' '--output=:output:_files') ;;
    dump) options=($display --brief --asm '--from=:place:' '--to=:place:' '--around=:place:') ;;
    draw) options=($memory '--image=:image:' '-o:output:_files' '--output=:output:_files') ;;
    report) options=($memory --steps '-o:output:_files' '--output=:output:_files') ;;
    diff) options=(-q --quiet '--format=:form:(text json)' '-o:output:_files' '--output=:output:_files') ;;
    translate)
        options=('--start=:offset:' '-o:output:_files' '--output=:output:_files')
        input=(-h --help '*:memory:_files') ;;
    edit) options=(-i --in-place '-o:output:_files' '--output=:output:_files') ;;
    lint)
        warnings=(fill-texture depth-image combine-mode texture-memory sync-full data-run swapped all)
        options=($display '--format=:form:(text gcc github json sarif)' "-W:warning:(${warnings/#/no-} $warnings)" "--warn=:warning:(${warnings/#/no-} $warnings)") ;;
    asm)
        options=('-o:output:_files' '--output=:output:_files')
        input=(-h --help '*:text:_files') ;;
    help) compadd -- $commands; return ;;
    *) return ;;
    esac
    shift words
    (( CURRENT-- ))
    _arguments $options $input
}

_lanyardrove "$@"
