# Completion of pefidx for bash: source this file, or put it into the folder
# of bash-completion as `pefidx`.

_pefidx() {
    local word=${COMP_WORDS[COMP_CWORD]} verb=${COMP_WORDS[1]}
    local previous=${COMP_WORDS[COMP_CWORD - 1]} place=$((COMP_CWORD - 1))
    COMPREPLY=()
    if ((COMP_CWORD == 1)); then
        mapfile -t COMPREPLY < <(compgen -W 'pack build query answer inspect audit repack
            migrate export blocks bquery iquery segments merge remap generate' -- "$word")
        return
    fi
    # Options and their values; place 1 is the word behind the verb.
    case $verb:$place:$previous in
        build:4:--format)
            mapfile -t COMPREPLY < <(compgen -W '1 2' -- "$word")
            return ;;
        query:3:--plan | answer:3:--plan | segments:*:--plan)
            mapfile -t COMPREPLY < <(compgen -W 'exhaustive wand maxscore' -- "$word")
            return ;;
        build:3:*)
            mapfile -t COMPREPLY < <(compgen -W '--format' -- "$word")
            return ;;
        query:2:* | answer:2:*)
            mapfile -t COMPREPLY < <(compgen -W '--plan' -- "$word")
            return ;;
        segments:1:*) ;;
        segments:*)
            # The option is the last: behind it and its value stands nothing.
            [[ " ${COMP_WORDS[*]:0:COMP_CWORD} " == *" --plan "* ]] && return
            [[ $word == -* ]] && mapfile -t COMPREPLY < <(compgen -W '--plan' -- "$word")
            [[ $word == -* ]] && return ;;
    esac
    case $verb:$place in
        pack:1 | build:1 | answer:1 | export:2 | remap:[13]) _pefidx_bases "$word" ;;
        pack:2 | build:2 | query:1 | inspect:1 | audit:1 | repack:[12] | migrate:[12] | \
            export:1 | iquery:1 | blocks:[12] | bquery:[12] | remap:2 | segments:* | merge:*)
            compopt -o filenames 2> /dev/null
            mapfile -t COMPREPLY < <(compgen -f -- "$word") ;;
    esac
}

# Folders, and the names of collections: files .docs without this ending.
_pefidx_bases() {
    local file
    compopt -o filenames 2> /dev/null
    mapfile -t COMPREPLY < <(compgen -d -- "$1")
    while IFS= read -r file; do
        [[ -d $file ]] || COMPREPLY+=("${file%.docs}")
    done < <(compgen -f -X '!*.docs' -- "$1")
}

complete -F _pefidx pefidx
