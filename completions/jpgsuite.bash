# Completions of jpgsuite and its commands: completions/make wrote this from completions/table.
_jpgsuite_commands='jpegtran djpeg cjpeg rdjpgcom wrjpgcom'
_jpgsuite_rows=(
    'jpegtran -copy 1 none,comments,all'
    'jpegtran -crop 2 TEXT'
    'jpegtran -flip 1 horizontal,vertical'
    'jpegtran -rotate 2 90,180,270'
    'jpegtran -transpose 1 -'
    'jpegtran -transverse 6 -'
    'jpegtran -upright 1 -'
    'jpegtran -trim 3 -'
    'jpegtran -grayscale 1 -'
    'jpegtran -greyscale 1 -'
    'jpegtran -progressive 1 -'
    'jpegtran -scans 1 FILE'
    'jpegtran -huffman 1 plain,fitted'
    'jpegtran -restart 1 TEXT'
    'jpegtran -outfile 4 FILE'
    'djpeg -pnm 1 -'
    'djpeg -ppm 1 -'
    'djpeg -bmp 1 -'
    'djpeg -targa 1 -'
    'djpeg -grayscale 2 -'
    'djpeg -greyscale 2 -'
    'djpeg -nosmooth 3 -'
    'djpeg -dct 2 int'
    'djpeg -scale 1 1/1'
    'djpeg -outfile 4 FILE'
    'djpeg -preview 3 TEXT'
    'cjpeg -targa 1 -'
    'cjpeg -quality 1 TEXT'
    'cjpeg -grayscale 2 -'
    'cjpeg -greyscale 2 -'
    'cjpeg -baseline 1 -'
    'cjpeg -progressive 1 -'
    'cjpeg -scans 4 FILE'
    'cjpeg -huffman 1 plain,fitted'
    'cjpeg -restart 1 TEXT'
    'cjpeg -sample 2 TEXT'
    'cjpeg -qtables 2 FILE'
    'cjpeg -dct 2 int'
    'cjpeg -outfile 4 FILE'
    'wrjpgcom -replace 1 -'
    'wrjpgcom -comment 1 TEXT'
    'wrjpgcom -cfile 2 FILE'
)

# What the value of a switch is: names, FILE, TEXT, or - if it takes none. A word means a switch as in the commands: a
# prefix of its name that has at least its shortest form, in either case.
_jpgsuite_value() {
    local tool=$1 word=${2,,} row name shortest value
    for row in "${_jpgsuite_rows[@]}"; do
        read -r row name shortest value <<< "$row"
        if [[ $row == "$tool" && ${#word} -gt $shortest && $name == "$word"* ]]; then
            echo "$value"
            return
        fi
    done
}

_jpgsuite() {
    local tool=${1##*/} from=1 word=$2 value=- taken=0 at row name alone=""
    COMPREPLY=()
    # Another program of the same name has other switches.
    [[ $tool == jpgsuite || $(readlink -f -- "$(type -P -- "$1")") == */jpgsuite ]] || return
    if [[ $tool == jpgsuite ]]; then
        if ((COMP_CWORD == 1)); then
            COMPREPLY=($(compgen -W "$_jpgsuite_commands --help --version" -- "$word"))
            compopt +o default
            return
        fi
        tool=${COMP_WORDS[1]}
        from=2
    fi
    # Only the first word may be one of these, and nothing follows it.
    ((COMP_CWORD > from)) || alone="--help --version"
    [[ ${COMP_WORDS[from]} != --help && ${COMP_WORDS[from]} != --version ]] || ((COMP_CWORD == from)) || taken=1
    # Which value is expected at the word, if any, and whether a file was named before it.
    for ((at = from; at < COMP_CWORD; at++)); do
        if [[ $value != - ]]; then
            value=-
        elif [[ ${COMP_WORDS[at]} == -* ]]; then
            value=$(_jpgsuite_value "$tool" "${COMP_WORDS[at]}")
            value=${value:--}
        else
            taken=1
        fi
    done
    # If nothing is offered here, bash offers files.
    if [[ $taken == 1 || $value == TEXT ]]; then
        compopt +o default
    elif [[ $value == - && $word == -* ]]; then
        for row in "${_jpgsuite_rows[@]}"; do
            read -r row name value <<< "$row"
            [[ $row != "$tool" ]] || COMPREPLY+=($(compgen -W "$name" -- "$word"))
        done
        COMPREPLY+=($(compgen -W "$alone" -- "$word"))
        compopt +o default
    elif [[ $value != - && $value != FILE ]]; then
        COMPREPLY=($(compgen -W "${value//,/ }" -- "$word"))
        compopt +o default
    fi
}

complete -o default -F _jpgsuite jpgsuite $_jpgsuite_commands
