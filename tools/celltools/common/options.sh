# The options of a tool of sh, which reads this file with its own words: --help prints the comment at the tool's head, and --version what tools/launch prints.
# It leaves the words that aren't options. `launch` is set to the path of tools/launch.
tool=$(readlink -f -- "$0")
launch=${tool%/tools/*}/tools/launch
tool=tools/${tool##*/tools/}

print_help() {
    sed -n '2,/^[^#]/ s/^# \{0,1\}//p' "$0"
    cat <<'END'

Options of every program of this repository:
  -h, --help  print this text
  --version   print the version, and what the programs were proved with
  --          end of the options: a name after it may begin with -
END
}

# Ends the tool because of its words.
refuse_words() {
    printf '%s: %s (%s --help lists the words and options)\n' "${0##*/}" "$1" "$tool" >&2
    exit 2
}

case ${1-} in
-h | --help)
    print_help && exit
    exit 2
    ;;
--version) exec "$launch" --version ;;
--) shift ;;
-*[![:print:]]*) refuse_words "there is no such option" ;;
-?*) refuse_words "there is no option '$1'" ;;
esac
