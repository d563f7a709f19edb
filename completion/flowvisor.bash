# Completion of the words of flowvisor and flowvisor-tool in bash.

# Files of a name that ends so, and folders on the way to them; any file where there is none. The program
# takes no word that begins with `-`.
_flowvisor_files() {
    local word=$1 ending=$2
    mapfile -t COMPREPLY < <(compgen -f -X "![!-]*$ending" -- "$word")
    if ((${#COMPREPLY[@]} > 0)); then
        mapfile -t -O "${#COMPREPLY[@]}" COMPREPLY < <(compgen -d -X '-*' -- "$word")
    else
        mapfile -t COMPREPLY < <(compgen -f -X '-*' -- "$word")
    fi
    compopt -o filenames 2> /dev/null
}

# A file stands behind < and >, in words that are none of the program's.
_flowvisor_redirected() {
    [[ ${COMP_WORDS[COMP_CWORD - 1]} == *[\<\>] ]] && _flowvisor_files "${COMP_WORDS[COMP_CWORD]}" ''
}

_flowvisor() {
    local word=${COMP_WORDS[COMP_CWORD]}
    COMPREPLY=()
    _flowvisor_redirected && return
    case $COMP_CWORD:${COMP_WORDS[1]} in
        1:*) mapfile -t COMPREPLY < <(compgen -W 'check replay gen serve flatten --help -h --version' -- "$word") ;;
        2:check | 2:replay | 2:serve | 2:flatten | 4:flatten) _flowvisor_files "$word" .toml ;;
        3:replay) _flowvisor_files "$word" .rec ;;
    esac
}

# The options of a subcommand of flowvisor-tool.
_flowvisor_tool_options() {
    case $1 in
        lint) echo '--help -h --strict --resolve --under' ;;
        explain) echo '--help -h --switch --under' ;;
        try) echo '--help -h --slice --switch --ports --command --packet-out' ;;
        show) echo '--help -h --switch-port --policy --slice' ;;
        to-pcap) echo '--help -h --recording' ;;
        from-pcap) echo '--help -h --switch-port --policy --slice --attach --direct --drop' ;;
        compare) echo '--help -h --switch-port --policy --slice --attach' ;;
        watch) echo '--help -h --switch-port --slice --how --log --http --public --to-end' ;;
        clean) echo '--help -h --ovs --to --switch' ;;
        *) echo '--help -h' ;;
    esac
}

_flowvisor_tool() {
    local word=${COMP_WORDS[COMP_CWORD]} before=${COMP_WORDS[COMP_CWORD - 1]} command=${COMP_WORDS[1]}
    COMPREPLY=()
    _flowvisor_redirected && return
    if ((COMP_CWORD == 1)); then
        mapfile -t COMPREPLY < <(compgen -W 'lint explain try show to-pcap from-pcap compare watch clean --help -h --version' -- "$word")
        return
    fi
    case $before:$command:$word in
        --policy:*) _flowvisor_files "$word" .toml ;;
        --recording:*) _flowvisor_files "$word" .rec ;;
        --under:*) _flowvisor_files "$word" .toml ;;
        --command:*) mapfile -t COMPREPLY < <(compgen -W 'add modify modify_strict delete delete_strict' -- "$word") ;;
        --switch:* | --switch-port:* | --slice:* | --attach:* | --direct:* | --drop:* | --ports:* | --http:* | --ovs:* | --to:*) ;;
        *:-*) mapfile -t COMPREPLY < <(compgen -W "$(_flowvisor_tool_options "$command")" -- "$word") ;;
        lint:lint:* | --strict:lint:* | --resolve:lint:* | *:explain:* | *:try:*) _flowvisor_files "$word" .toml ;;
        *:lint:*) ;;
        *.toml:watch:* | from-pcap:from-pcap:* | compare:compare:*) _flowvisor_files "$word" .pcap ;;
        *:watch:*) _flowvisor_files "$word" .toml ;;
        *) _flowvisor_files "$word" '' ;;
    esac
}

complete -F _flowvisor flowvisor
complete -F _flowvisor_tool flowvisor-tool
