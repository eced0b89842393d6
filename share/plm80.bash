# Completion of plm80's commands, options and files for bash; `make install` puts it where bash-completion looks for it.
# What stands between `# from` and `# end` is written by tools/completion.

_plm80() {
    local word=${COMP_WORDS[COMP_CWORD]} before=${COMP_WORDS[COMP_CWORD - 1]} options words
    COMPREPLY=()
    # ADDRESS=FILE is three words if bash parts words at =, else one.
    if [[ $word == '=' ]]; then
        word=
    elif [[ $before == --rom && $word == *=* ]]; then
        mapfile -t COMPREPLY < <(compgen -P "${word%%=*}=" -f -- "${word#*=}")
        return
    fi
    case $before in
        # from values
        --name | --code | --stack | --common | --data | --memory | --stack-size | --memory-size | --rom-range | --ram-range | --quiet-ram | --handler | --steps | --outputs | --last | --from | --count | --first | --start | --length | --fill | --entry | --case) return ;;
        # end
    esac
    if [[ $COMP_CWORD -eq 1 ]]; then
        # from program
        words='lib link locate map module check explain calls stores follow report run trace cover inputs absolute extract compare find suggest cases list regions help --why -h --help -V --version'
        # end
        COMPREPLY=($(compgen -W "$words" -- "$word"))
        return
    fi
    case ${COMP_WORDS[1]} in
        # from commands
        lib) options='--why -h --help' ;;
        link) options='--name --out --map --reasons --why -h --help' ;;
        locate) options='--code --stack --common --data --memory --stack-size --memory-size --rom-range --ram-range --board --restart --publics --why -h --help' ;;
        map) options='--code --stack --common --data --memory --stack-size --memory-size --why -h --help' ;;
        module) options='--why -h --help' ;;
        check) options='--names --board --why -h --help' ;;
        explain) options='--all --names --board --why -h --help' ;;
        calls) options='--dot --names --board --why -h --help' ;;
        stores) options='--names --quiet-ram --board --why -h --help' ;;
        follow) options='--names --quiet-ram --list --interrupted --handler --board --why -h --help' ;;
        report) options='--why -h --help' ;;
        run) options='--steps --outputs --last --dump --names --board --why -h --help' ;;
        trace) options='--from --count --steps --outputs --names --board --why -h --help' ;;
        cover) options='--steps --outputs --names --board --why -h --help' ;;
        inputs) options='--why -h --help' ;;
        absolute) options='--first --start --name --rom --why -h --help' ;;
        extract) options='--first --length --fill --sum --why -h --help' ;;
        compare) options='--first --fill --names --why -h --help' ;;
        find) options='--first --why -h --help' ;;
        suggest) options='--rom-range --ram-range --board --entry --case --why -h --help' ;;
        cases) options='--out --why -h --help' ;;
        list) options='--reached --asm --names --why -h --help' ;;
        regions) options='--why -h --help' ;;
        # end
        help)
            # from help
            words='lib link locate map module check explain calls stores follow report run trace cover inputs absolute extract compare find suggest cases list regions help'
            # end
            [[ $COMP_CWORD -eq 2 ]] && COMPREPLY=($(compgen -W "$words" -- "$word"))
            return
            ;;
        *) return ;;
    esac
    if [[ $word == -* ]]; then
        COMPREPLY=($(compgen -W "$options" -- "$word"))
    else
        compopt -o filenames 2> /dev/null
        mapfile -t COMPREPLY < <(compgen -f -- "$word") # (A path may have blanks.)
    fi
}
complete -F _plm80 plm80
