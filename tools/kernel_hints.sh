# shellcheck shell=sh disable=SC2154
# What is often meant at the place of a fault: read by tools/explain, which has the input and prints. Each hint is one line.

# What is around a place. lead: all tokens before it; before: the last 400 bytes, without comments and with single spaces; tight: the same
# without a space at its end; left: the word that tight ends with; statement: what of tight begins the statement; after: the next 40 bytes;
# word: the word that after begins with.
look_around() {
    lead=$(between 0 "$1" | tr -d '\000' | sed 's,//.*,,' | tr -d ' \t\r\n')
    before=$(between "$(($1 > 400 ? $1 - 400 : 0))" "$1" | tr -d '\000' | sed 's,//.*,,' | tr -s ' \t\r\n' ' ')
    after=$(tail -c "+$(($1 + 1))" "$input" | head -c 40 | tr -d '\000' | tr '\t\r\n' '   ')
    tight=${before% }
    left=${tight##*[!A-Za-z0-9_]}
    statement=${tight##*[;\{\}]}
    statement=${statement# }
    word=${after%%[!A-Za-z0-9_]*}
}

# K1: a character that begins no token.
hint_at_character() {
    case $after in
    $(printf '\357\273\277')*) more "the file begins with a byte order mark: save it without one" ;;
    '/*'*) more "a comment begins with two slashes and ends with its line" ;;
    '/'*) more "there is no division, and a comment begins with two slashes" ;;
    '.'*) more "numbers have no fraction; the bounds of a loop have two points between them" ;;
    '#'* | '%'* | "'"* | '"'* | '`'*)
        if [ -z "$lead" ]; then
            more "is this a kernel? It is a text that begins with: kernel NAME {"
        else
            case $after in
            '%'*) more "there is no remainder and no division: leave them to the code that calls the kernel" ;;
            '#'*) more "there is no preprocessor, and a comment begins with two slashes" ;;
            *) more "a kernel has no texts and no characters, only whole numbers" ;;
            esac
        fi
        ;;
    '?'* | ':'*) more "there is no c ? a : b: write sel(c, a, b), which is a if c is not 0, and otherwise b" ;;
    '~'*) more "there is no ~: x ^ -1 turns every bit of x" ;;
    '!'*) more "there is no !: a branch compares by != or has an else" ;;
    esac
}

# K3, first: a text that is no kernel from its first word on.
hint_at_beginning() {
    case $after in
    ';'* | 'slots '*) more "this is a code, as plan prints it: ./pebble exec VALUES runs it" ;;
    [Kk][Ee][Rr]*) more "the first word is kernel, and here it is '$word': a kernel is a text that begins with: kernel NAME {" ;;
    *) more "a kernel is a text that begins with: kernel NAME {" ;;
    esac
}

# K3 at a word.
hint_at_word() {
    case $before in
    *[0-9])
        case ${before##*[!0-9]}$word in
        0[xX]*[!0-9A-Fa-fxX]* | 0[xX]) more "numbers are decimal" ;;
        0[xX]????????????????*) more "numbers are decimal" ;;
        0[xX]*) more "numbers are decimal: ${before##*[!0-9]}$word is $(printf '%d' "0x${word#?}")" ;;
        *) more "a number is decimal and has no letters after it" ;;
        esac
        return
        ;;
    esac
    case $left/$word in
    else/if) more "write else { if .. { .. } }" ;;
    inout/?*) more "no element is both input and output: declare an in and an out of two names" ;;
    const/?*) more "there are no named constants: write the number itself" ;;
    return/?*) more "a kernel returns nothing: assign its outputs" ;;
    int/?* | long/?* | short/?* | unsigned/?* | float/?* | double/?* | char/?* | void/?* | let/?* | var/?* | int[0-9]*_t/?*)
        more "there are no types: in, out or tmp declares a name, and every value is a whole number of 64 bits" ;;
    */in | */out | */tmp)
        case $tight in
        *[\;\{\}]) more "all declarations come before the first statement: move this one up" ;;
        esac
        ;;
    esac
}

# K3 at a round bracket.
hint_at_call() {
    case $statement/$left in
    */in | */out | */tmp | */by | */else | */if | */kernel) ;;
    'kernel '*) more "a kernel has no parameters: kernel NAME { in x; out y; .. }" ;;
    */while) more "the only loop is: for i in 0..4 { .. }" ;;
    */abs) more "there is no function abs: max(x, -x) is the absolute value of x" ;;
    */?*) more "there is no function $left: there are min, max, sel and mad" ;;
    esac
}

# K3 at a sign of a relation that is not allowed there.
hint_at_relation() {
    case $statement in
    'if ('* | 'if('*) more "a branch has no parentheses: if i < 3 { .. }" ;;
    'if '*) more "a branch compares two indices once: nest a second if in it" ;;
    *) more "a comparison is not a value: min, max and sel(c, a, b) choose without one" ;;
    esac
}

# K3: no kernel goes on here.
hint_at_syntax() {
    case $tight@$after in
    *'@<<'* | *'<@<'*) more "there are no shifts: x << 3 is x * 8"; return ;;
    *'@>>'* | *'>@>'*) more "there is no right shift and no division: leave them to the code that calls the kernel"; return ;;
    *'@&&'* | *'&@&'* | *'@||'* | *'|@|'*) more "there is no && and no ||: nest a second if, and & and | of values work on their bits"; return ;;
    *'@**'* | *'*@*'*) more "there is no power: write the product"; return ;;
    esac
    case $statement/$after in
    'for '* | for/*) more "a loop is written: for i in 0..4 { .. }, or with a step: for i in 0..4 by 2 { .. }" ;;
    'if '*/=* | 'if('*/=*) more "a branch compares by ==" ;;
    */[-+*\&\|^]=*) more "there is no ${after%%=*}=: write the whole assignment, as in y = y ${after%%=*} x;" ;;
    */++* | */--*) more "there is no ++ and no --: write y = y + 1;" ;;
    */[\<\>]* | */[=!]=*) hint_at_relation ;;
    */\(*) hint_at_call ;;
    'in '*/,* | 'out '*/,* | 'tmp '*/,*) more "a declaration has one name: in a; in b;" ;;
    */,*)
        case ${tight##*[} in
        "$tight" | *\]*) ;;
        *) more "two indices have brackets of their own: a[i][j]" ;;
        esac
        ;;
    */\[*)
        case $tight in
        *\]) more "an array has at most two sizes" ;;
        esac
        ;;
    */\;*)
        case $tight in
        *\}) more "no semicolon follows a closing brace" ;;
        esac
        ;;
    */[A-Za-z_]*) hint_at_word ;;
    esac
}

# K7: the element that is asked for, with the turn and the sizes.
hint_at_index() {
    command -v python3 >/dev/null 2>&1 || return 0
    element=$(python3 "$here/tools/walk_fault.py" "$1" <"$input" 2>/dev/null)
    [ -z "$element" ] || more "it is $element"
}

# What is often meant at a fault: hint CODE PLACE.
hint() {
    look_around "$2"
    case $1 in
    K1) hint_at_character ;;
    K3) if [ -z "$lead" ]; then hint_at_beginning; else hint_at_syntax; fi ;;
    K7) hint_at_index "$2" ;;
    esac
}
