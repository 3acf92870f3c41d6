# What the commands beside it share: their words are checked, and numbers become bytes.

wrong() {
    printf 'samples/%s: %s\n' "$(basename "$0")" "$1" >&2
    exit 2
}

# number WHAT MOST WORD
number() {
    [[ $3 =~ ^[0-9]{1,5}$ ]] && ((10#$3 <= $2)) || wrong "$1 must be a number from 0 to $2: $3"
}

# The form of a date; whether there is such a day is for the program to say.
date_word() {
    [[ $1 =~ ^[0-9]{4}-[0-9]{2}-[0-9]{2}$ ]] || wrong "DATE must have the form YYYY-MM-DD: $1"
}

# The book's path from anywhere.
book() {
    [[ -f $1 && -r $1 ]] || wrong "no such book: $1"
    realpath "$1"
}

byte() {
    printf "\\$(printf %03o "$((10#$1))")"
}

# A number in two bytes, high byte first.
two_bytes() {
    byte $((10#$1 / 256))
    byte $((10#$1 % 256))
}

# Day and month in a byte each, and the year in two, of YYYY-MM-DD.
date_bytes() {
    byte "${1:8}"
    byte "${1:5:2}"
    two_bytes "${1:0:4}"
}
