# What the tools in bash do alike, sourced at their head. --help prints the text at the head of the tool. Else the tool goes
# on at the top of the repository, from whichever folder and through whichever link it was called.
if [ "${1-}" = --help ]; then
    sed -n '2,/^[^#]/s/^# \{0,1\}//p' "$0"
    exit 0
fi
cd "$(dirname "$(readlink -f "$0")")/.."

# progress WORDS..: what is done next, for a person who waits
progress() { if [ -t 2 ]; then echo "$(basename "$0"): $*" >&2; fi; }
