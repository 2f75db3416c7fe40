# What the launcher, release/make and the gate share: the sums of the sources, and whether they are those of the released executable.
# Its functions are called at the top of the repository. None calls git, and only those of the stamp, which the launcher alone uses, look at times.

released=release/tgap-x86_64-linux
sums=release/SOURCES
stamp=release/.checked

# The names of all sources below crates/.
source_files() { find crates/*/src crates/*/specs crates/*/proofs ! -type d; }

# A line of sha256sum for crates.txt and for each source, in one order everywhere.
source_sums() { { echo crates.txt && source_files | LC_ALL=C sort; } | tr '\n' '\0' | xargs -0 sha256sum --; }

# Whether there are sources here: a package has the released executable alone.
has_sources() { [ -e crates.txt ]; }

# One sum for all sources, or for those of the released executable where there are none here.
sum_of_sources() { { if has_sources; then source_sums; else grep -v -e '^#' -e " $released\$" "$sums"; fi; } | sha256sum | cut -d ' ' -f 1; }

# What is not as SOURCES has it, a line for each file; nothing where SOURCES is true of the checkout and of the released executable.
differences() {
    [ -f "$sums" ] || { echo "$sums is missing"; return; }
    has_sources || { is_released_one || echo "$released is another"; return; }
    wrong=$(LC_ALL=C sha256sum -c --quiet "$sums" 2>/dev/null) || wrong=${wrong:-$sums cannot be read by sha256sum}
    [ -z "$wrong" ] || echo "$wrong" | sed -e 's/: FAILED open or read$/ is missing/' -e 's/: FAILED$/ is another/'
    # Each file that SOURCES lists is there, or is told above; so where the numbers are the same, none was added.
    [ "$(grep -c '^[^#]' "$sums")" -eq $(($(source_files | wc -l) + 2)) ] || added_source
}

# The first source that SOURCES does not list.
added_source() {
    name=$(source_files | awk 'NR == FNR { known[substr($0, 67)]; next } !($0 in known) { print; exit }' "$sums" - 2>/dev/null)
    echo "${name:-a source} is not in $sums"
}

# The line of the toolchain that made the released executable.
released_by() { sed -n 's/^# toolchain //p' "$sums"; }

# Whether the released executable is the one of its own line in SOURCES, whatever the sources are.
is_released_one() { grep -x "[0-9a-f]*  $released" "$sums" 2>/dev/null | sha256sum -c >/dev/null 2>&1; }

# The stamp spares the launcher the sums of all sources: a call that found no difference leaves it, and a later one trusts it where nothing has changed
# since. Where the tools, the rights or the file system do not give what it wants, there is none, and nothing is said.

# What has changed after the stamp's time, of all that `differences` looks at. The time of a change, unlike that of the bytes, cannot be set back. What
# was moved has a new one, and so has a folder in which a name is new or gone. A link counts as changed, since what it leads to may change unseen.
changed_since_stamp() {
    find crates.txt "$released" "$sums" crates crates/* -maxdepth 0 \( -cnewer $stamp -o -type l \) &&
        find crates/*/src crates/*/specs crates/*/proofs \( -cnewer $stamp -o -type l \)
}

# The time of the stamp; nothing where that lies ahead, so that the clock was set back.
time_of_stamp() { find $stamp -type f ! -newermt now -printf '%T@'; }

# Whether nothing differs, by the stamp. It holds its own time, so a copy that has another one is not trusted.
is_checked() {
    [ -f $stamp ] && read -r time <$stamp && [ -n "$time" ] && [ "$(time_of_stamp)" = "$time" ] && changes=$(changed_since_stamp) && [ -z "$changes" ]
} 2>/dev/null

# Makes a stamp that is not trusted yet, and gives its time: one second ago by the clock of its file system, since changes within one tick of a clock
# have one time. It gives nothing where the stamp itself, which was changed just now, is not seen to be.
begin_stamp() {
    rm -f $stamp
    touch $stamp && touch -r $stamp -d '-1 second' $stamp && [ -n "$(find $stamp -cnewer $stamp)" ] && time_of_stamp
} 2>/dev/null

# Has the stamp trusted, by its time. Of two calls that write it at once, one vouches for the time that it has in the end, or it is not trusted.
keep_stamp() { echo "$1" >$stamp && touch -d "@$1" $stamp; } 2>/dev/null

# What `differences` tells, by the stamp where that is trusted.
stamped_differences() {
    is_checked && return
    begun=$(begin_stamp)
    found=$(differences)
    if [ -n "$begun" ] && [ -z "$found" ]; then keep_stamp "$begun"; else rm -f $stamp 2>/dev/null; fi
    [ -z "$found" ] || echo "$found"
}
