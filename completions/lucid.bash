# Completion of the words of lucid, lucid_explain and lucid_show in bash. In ~/.bashrc: . FOLDER/completions/lucid.bash

# The input names of the program in the file $2 that the command $1 finds, each with a `=` behind it.
_lucid_inputs() {
    "$1" --flat "$2" 2>/dev/null </dev/null | sed -n 's/^input \(.*\)$/\1=/p'
}

_lucid() {
    local options='--count --depth --policy --age --room --stats --print --columns --cycles --why --check --flat --from-flat --make'
    local current=${COMP_WORDS[COMP_CWORD]} before=${COMP_WORDS[COMP_CWORD - 1]} program='' is_value='' i
    if [[ ${1##*/} == lucid_show ]]; then
        options='--at --as --depth --names --cells --steps --count --policy --age --room'
    fi
    COMPREPLY=()
    # bash parts words at `=`
    if [[ $current == '=' ]]; then
        current='' is_value=yes
    elif [[ $before == '=' ]]; then
        before=${COMP_WORDS[COMP_CWORD - 2]} is_value=yes
    fi
    case $before in
        --policy)
            mapfile -t COMPREPLY < <(compgen -W 'keep none age last' -- "$current")
            return ;;
        --as)
            mapfile -t COMPREPLY < <(compgen -W 'outline grid svg' -- "$current")
            return ;;
        --at | --names | --cells | --count | --depth | --age | --room | --columns | --why | --make)
            return ;;
        --check)
            is_value=yes ;;
    esac
    # the first word that is no option and no option's value
    for ((i = 1; i < COMP_CWORD; i++)); do
        case ${COMP_WORDS[i]} in
            --at | --as | --names | --cells | --count | --depth | --policy | --age | --room | --columns | --why | --check | --make)
                if [[ ${COMP_WORDS[i + 1]} == '=' ]]; then i=$((i + 2)); else i=$((i + 1)); fi ;;
            -*) ;;
            *)
                program=${COMP_WORDS[i]}
                break ;;
        esac
    done
    if [[ -z $is_value && $current == -* ]]; then
        mapfile -t COMPREPLY < <(compgen -W "$options" -- "$current")
    elif [[ -z $is_value && -n $program ]]; then
        mapfile -t COMPREPLY < <(compgen -W "$(_lucid_inputs "${COMP_WORDS[0]%_show}" "$program")" -- "$current")
        compopt -o nospace 2>/dev/null
    else
        mapfile -t COMPREPLY < <(compgen -f -- "$current")
        compopt -o filenames 2>/dev/null
    fi
    return 0
}

complete -F _lucid lucid lucid_explain lucid_show
