# What the launcher says in words: the help, and a sentence for each status of the program but 0.

say() { echo "tgap: $*" >&2; }

# What the user calls the launcher, and where the documents lie: a package puts both elsewhere.
called=./tgap
documents=

# Puts these names into a text.
placed() {
    if [ "$called$documents" = ./tgap ]; then cat; else sed -e "s|\./tgap|$called|g" -e "s#\(^\|[ \"]\)\(docs\|examples\)/#\1$documents\2/#g"; fi
}

help_text() {
    placed <<'END'
One map of areas, kept once and served at every scale.

usage: ./tgap COMMAND WORD...

  check MAP [OBJECT RULES]
      tells whether MAP is sound, and its first fault where it is not
      ./tgap check examples/two_squares.tgap
      ./tgap check examples/columbus.json areas examples/columbus.rules.json

  slice MAP STEP [OBJECT RULES]
      gives the map after STEP mergers: its faces, and the lines between them. In
      place of STEP, --faces N takes the first with at most N faces, --scale 1:N the
      first whose areas are not too small for that scale (by ./tgap steps)
      ./tgap slice examples/two_squares.tgap 1

  packet MAP FROM TO [OBJECT RULES]
      gives what leads from the slice after FROM mergers to the finer one after TO
      ./tgap packet examples/two_squares.tgap 1 0

  replay SLICE PACKET
      gives the slice that a packet makes of the slice at which it begins
      ./tgap slice examples/two_squares.tgap 1 > coarse
      ./tgap packet examples/two_squares.tgap 1 0 > packet
      ./tgap replay coarse packet

  grid N
      counts a generated map of N rows, its last slice, and the way back from it
      ./tgap grid 40

  borders MAP STEP
      tells which borders of a listing are left after STEP mergers
      ./tgap borders examples/two_squares.tgap 1

  serve MAP PORT WORKERS VERSIONS [OBJECT RULES]
      answers HTTP at 127.0.0.1:PORT until it is stopped: WORKERS connections at a
      time, and at most VERSIONS versions of the map
      ./tgap serve examples/two_squares.tgap 8080 4 16

  keep MAP JOURNAL PORT WORKERS VERSIONS [OBJECT RULES]
      serves as serve does, and stores each edit in the file JOURNAL before it says
      that it is published; a later start makes all edits again from there
      ./tgap keep examples/two_squares.tgap journal 8080 4 16

Tools beside the program, in Python over GDAL and Shapely; each has its own --help:

  import       makes a map and its rules of any file of areas that GDAL reads
  where        tells a refusal by the areas and places of the data
  export       writes a slice as TopoJSON, GeoJSON, GeoPackage or a picture
  steps        lists the steps of a map, and the one that suits a scale
  loss         measures how far the areas of a slice differ from those of the map
  publish      writes a map as one file that any web server can give, or tests one
  journal      tells what a journal of edits has, and makes one edit of all of them

MAP is the file of a listing. With OBJECT and RULES it is the file of a topology
(TopoJSON), OBJECT the name of one of its objects, or - for the only one, and RULES
the file of its rules. For a file, but for JOURNAL, - is the standard input.

  build               proves the sources of this checkout and builds their program;
                      it wants rt, the command of the Rattle toolchain, takes about
                      an hour from nothing, and ends where its caller does
  --help, -h, help    this text; help COMMAND, or COMMAND --help, tells of one alone
  --version           the version, the sum of the sources, and the toolchain that
                      proved them

The program that is run is the released one where it is that of the sources beside
it. Else it is the one that was built here, where no source is newer; else the
released one of older sources, with a warning.

The answer comes on the standard output. The status is 0 where it was done; else a
sentence on the standard error tells what was wrong.

docs/guide.md     from your own data to a map that is accepted
docs/formats.md   the texts, the refusals, and the statuses
END
}

# The help of one command: its paragraph of the whole text.
help_of() {
    case $1 in
        borders | check | slice | packet | replay | grid | serve | keep) help_text | sed -n "/^  $1 /,/^\$/p" | sed "1s|^ *|usage: $called |" ;;
        *) say "'$1' is no command ($called --help lists them)"; return 2 ;;
    esac
}

# Whether a word is a number as the program reads it, between two others.
is_number() {
    case $1 in "" | *[!0-9]* | 0?* | ???????????*) return 1 ;; esac
    [ "$1" -ge "$2" ] && [ "$1" -le "$3" ]
}

# The words that a command takes; nothing where there is no such command.
words_of() {
    case $1 in
        borders) echo "MAP STEP" ;;
        check) echo "MAP [OBJECT RULES]" ;;
        slice) echo "MAP STEP [OBJECT RULES]" ;;
        packet) echo "MAP FROM TO [OBJECT RULES]" ;;
        replay) echo "SLICE PACKET" ;;
        grid) echo "N" ;;
        serve) echo "MAP PORT WORKERS VERSIONS [OBJECT RULES]" ;;
        keep) echo "MAP JOURNAL PORT WORKERS VERSIONS [OBJECT RULES]" ;;
    esac
}

# What is wrong with the words, which the program did not take: the command, the first that is no number of its kind, or how many they are.
wrong_words() {
    command=$1 given=$(($# - 1))
    wanted=$(words_of "$command")
    [ -n "$wanted" ] || { echo "'$command' is no command"; return; }
    shift
    for name in $wanted; do
        [ $# -gt 0 ] || break
        case $name in
            STEP | FROM | TO) least=0 most=4294967295 ;;
            N) least=1 most=147 ;;
            PORT) least=1 most=65535 ;;
            WORKERS) least=1 most=16 ;;
            VERSIONS) least=1 most=64 ;;
            *) least="" ;;
        esac
        if [ -n "$least" ] && ! is_number "$1" $least $most; then
            echo "$name is a whole number from $least to $most, written the shortest way, and '$1' is none"
            return
        fi
        shift
    done
    case $command,$given in
        check,[13] | borders,2 | replay,2 | slice,[24] | packet,[35] | serve,[46] | keep,[57]) echo "a word is no text in UTF-8" ;;
        *) echo "the words of $command are $wanted, and it got $given" ;;
    esac
}

# The first of the files that cannot be read, and why; all of them where that cannot be seen.
wrong_file() {
    for file in "$@"; do
        [ -e "$file" ] || { echo "there is no file '$file'"; return; }
        [ ! -d "$file" ] || { echo "'$file' is a folder and no file"; return; }
        [ -r "$file" ] || { echo "the file '$file' may not be read"; return; }
    done
    echo "'$1'${2:+ or '$2'} could not be read"
}

# Whether files can be read, as far as that can be seen.
are_readable() {
    for file in "$@"; do
        [ "$file" = - ] || { [ ! -d "$file" ] && [ -r "$file" ]; } || return
    done
}

# Whether the program finds a map sound, by the words that name it.
is_sound() { "$program" check "$@" >/dev/null 2>&1 </dev/null; }

# Whether a file is empty or begins as a journal does.
begins_as_journal() { [ "$(head -c 1 <"$1" | tr -d '\000\001' | wc -c)" -eq 0 ]; }

# Why a journal could not be opened, as far as that can be seen.
wrong_journal() {
    case $1 in */*) folder=${1%/*} ;; *) folder=. ;; esac
    if [ -d "$1" ]; then
        echo "'$1' is a folder and no journal"
    elif [ ! -e "$1" ] && [ ! -d "${folder:-/}" ]; then
        echo "there is no folder '$folder' for the journal"
    elif [ ! -e "$1" ]; then
        echo "the journal '$1' could not be made"
    elif [ ! -f "$1" ]; then
        echo "'$1' is no plain file, as a journal is"
    elif [ ! -r "$1" ] || [ ! -w "$1" ]; then
        echo "the journal '$1' may not be read and written"
    elif begins_as_journal "$1"; then
        echo "the journal '$1' is held by another program that keeps it, or its disk failed"
    else
        echo "'$1' does not begin as a journal, and is left as it is"
    fi
}

# What is wrong with the steps, given the command, its first file and its numbers.
wrong_steps() {
    if [ "$1" = packet ] && [ "$3" -lt "$4" ]; then
        echo "a packet leads to a finer slice, so FROM, $3, may not be below TO, $4"
    else
        echo "the map in '$2' has fewer than $3 steps, and the answer tells its last one"
    fi
}

# Says what a status of the program means, for the words of its command line, and where the documents tell more.
explain() {
    status=$1
    shift
    # The second file that the words name, and the object before it.
    case ${1-},$# in
        replay,3) object="" second=$3 ;;
        check,4) object=$3 second=$4 ;;
        slice,5) object=$4 second=$5 ;;
        packet,6) object=$5 second=$6 ;;
        serve,7) object=$6 second=$7 ;;
        keep,8) object=$7 second=$8 ;;
        *) object="" second="" ;;
    esac
    # Whether it is the journal that is at fault: its map is read and checked before it.
    case $status,${1-} in
        3,keep) ! are_readable "$2" ${second:+"$second"} || set -- journal "$@" ;;
        4,keep) ! is_sound "$2" ${second:+"$object" "$second"} || set -- journal "$@" ;;
    esac
    more="${documents}docs/formats.md, \"The command line\""
    case $status,${1-} in
        2,) help_text >&2; return ;;
        2,*) fault=$(wrong_words "$@") more="$called --help, and $more" ;;
        3,journal) fault=$(wrong_journal "$4") more="${documents}docs/formats.md, \"A journal of edits\"" ;;
        3,*) fault=$(wrong_file "$2" ${second:+"$second"}) ;;
        4,journal)
            fault="the edits in the journal '$4' cannot be made again. journal-entry I: the number of entry I, counted from 0, does not follow, or the map in '$3' takes no such"
            fault="$fault edit, so that the journal may be that of another map; journal-long N: there are N edits, and VERSIONS, $7, has to be above N; input-long: the file is too long"
            more="${documents}docs/formats.md, \"A journal of edits\""
            ;;
        4,replay) fault="the slice in '$2' or the packet in '$3' is longer than 67,108,864 bytes" ;;
        4,*)
            fault="the map in '$2'${second:+ or its rules in '$second'} are not as they must be, and the answer tells the first fault"
            [ -n "$second" ] || fault="the map in '$2' is not as it must be, and the answer tells its first fault"
            fault="$fault; $called where '$2'${object:+ '$object'} on that answer names the areas and the place"
            more="${documents}docs/formats.md, \"Faults of a map\", and ${documents}docs/guide.md, \"When it is refused\""
            ;;
        5,*) fault=$(wrong_steps "$@") ;;
        6,*) fault="the answer could not be written whole to the standard output: the disk may be full, or what reads it has ended" ;;
        7,*) fault="there was not enough memory for '${2-}'" more="${documents}docs/performance.md" ;;
        8,*)
            [ "$1" != keep ] || shift
            fault="port $3 could not be had, since another program has it or it is kept for the administrator, or a connection could not be taken" more="${documents}docs/deployment.md"
            ;;
        9,*)
            fault="the slice in '$2' or the packet in '$3' is not as it must be, or they do not fit each other: the answer tells the line or the step"
            more="${documents}docs/formats.md, \"Slices, windows and packets\""
            ;;
        126,* | 127,*) fault="'$program' could not be started: it wants Linux on x86-64, with the GNU C library $least_library or newer" more="${documents}README.md" ;;
        # What stopped the reader of the answer, or was sent by the user, is no fault.
        129,* | 130,* | 141,* | 143,*) return ;;
        *) fault="the program ended with status $status, and was stopped by a signal where that is above 128" more="${documents}docs/guide.md" ;;
    esac
    say "$fault (status $status; more in $more)"
}
