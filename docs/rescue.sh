# shellcheck shell=sh
# Functions for the recipes of READING.md, for sh and bash: they need perl and ffs_find. They read copy.img, and put, clear_inode,
# older_magic, exchange, directories, new_root, zeros and refill write to further.img. What can't be done is said on standard error, with
# status 1, and nothing is written; directories says what it leaves.
#
#   . ./rescue.sh            also sets order, bsize and fsize, and lets a variable that isn't set be an error (set -u)
#
#   sizes                    sets order, bsize and fsize, as the first superblock in copy.img has them, and from=copy.img
#   keep                     makes further.img the copy, and sets these anew. What a full disk cut short isn't kept
#   place I                  the byte where inode I lies
#   maps                     what ffs_find lost prints of the image `from`, or a complaint
#   lost                     the fragments that the maps mark and no inode has: first and last of each range, by ffs_find lost
#   lost_blocks              the first fragment of each whole block among these
#   words B                  the words of the indirect block at fragment B, each after its number
#   joined B                 the file list: the words of the indirect block at B that aren't 0, where these rise, and the lost blocks, rising
#   rising                   lost blocks whose words rise, as those of an indirect block do, and how many words each has
#   whole                    how many bytes the image should have, by its superblock
#   last_copy                the sector of the superblock's copy in the last group, by its superblock
#   groups                   of each group the fragment at which its block begins, and the bytes of its inode map, by its superblock
#   all_used                 makes every.img, a copy in which all maps of inodes say that all are in use, and those of fragments begin after them
#   list_names [-m] IMAGE [I]
#                            all names (below directory I) as fls of Sleuthkit prints them; with -m with all attributes, where some come twice
#   recover IMAGE PLACE [I]  copies what has a name (below directory I) into a directory by tsk_recover of Sleuthkit. That would write elsewhere
#                            where a name is or has in it `..`, beside slashes: then nothing is copied. What has no place of its own there, or
#                            has too long a path, becomes PLACE.I, by its inode I
#   copy_inode IMAGE I FILE  copies the bytes of inode I, whatever its mode is, into a file. Holes, and what can't be read, take no place in it
#   unnamed                  copies what no entry names, by the report, from the image `from` into a directory unnamed.d
#   bad_areas START          what ffs_find owner prints of each fragment in the bad areas of copy.map, where the volume begins at sector START
#                            list_names, recover and unnamed name the inodes that can't be read to their end, as where a size is more than the
#                            addresses hold, and read what they can. They make a copy for that, bounded.img, and remove it
#   put BYTE WIDTH NUMBER    writes a number of so many bytes into further.img, in the byte order of the image
#   entries FIRST LENGTH [I] what looks like an entry in these bytes, of inode I alone where it is given, also where no directory
#                            has it: byte, number, record length, type, length of the name, name (control bytes are shown as ?)
#   clear_inode I            makes inode I of further.img zeros
#   older_magic              takes the magic of a UFS2 that was there before out of further.img, at the two places where Sleuthkit takes it for one
#   exchange I J             exchanges the inodes I and J of further.img
#   directories              puts anew in further.img the inode of each directory that has its `.` among the entries on standard input,
#                            where that is free, in fragments that nothing has. What comes after its first fragment is taken
#                            where its first entry didn't fit before. Its links are 2, and its mode 700 (755 of the root)
#   new_root F               puts inode 2 anew in further.img, as a directory that has nothing but `.` and `..`, in the fragment F, which is free,
#                            or lost and all zeros
#   zeros B                  makes the indirect block at fragment B of further.img zeros, where it is one of one file alone
#   refill B                 the same, and names the blocks of the file list in it, a line each, in its order

# In zsh the name `path` is that of its search path
[ -z "${ZSH_VERSION-}" ] || { echo "rescue.sh: it is for sh and bash, and this is zsh: start one of them first" >&2; return 1; }
set -u

complain() {
    echo "$*" >&2
    return 1
}

sizes() {
    # shellcheck disable=SC2046
    set -- $(ffs_find copies copy.img | tr / ' ' | awk '$2 == "little" || $2 == "big" { print; exit }')
    [ $# -gt 3 ] || { complain "rescue.sh: no superblock of copy.img is accepted, so order, bsize and fsize aren't set"; return 1; }
    # shellcheck disable=SC2034
    order=$2 bsize=$3 fsize=$4 from=copy.img
}

# is_cut: whether further.img is shorter than the copy, and than its superblock says, which it has where the recipe surplus took sectors out
is_cut() (
    has=$(wc -c <further.img)
    [ "$has" -lt "$(wc -c <copy.img)" ] && ! [ "$has" -ge "$(whole further.img)" ] 2>/dev/null
)

keep() {
    [ -s further.img ] || { complain "keep: there is no further.img, or it is empty"; return 1; }
    ! is_cut || { complain "keep: further.img is shorter than copy.img, and than its superblock says (is the disk full?)"; return 1; }
    mv further.img copy.img && sizes
}

place() {
    ffs_find inode "$1" copy.img | sed -n 's/^byte //p' | grep . || complain "place: no inode $1 is found: see ffs_find inode $1 copy.img"
}

maps() (
    found=$(ffs_find lost "$from") || [ $? = 1 ] || { complain "ffs_find lost: $found"; exit 1; }
    echo "$found" | grep '^no map' >&2 || :
    echo "$found"
)

lost() (
    found=$(maps) || exit 1
    echo "$found" | awk '$1 == "lost" { print $2, (NF > 2 ? $4 : $2) }'
)

by_superblock() {
    perl -e '$name = $ARGV[0]; open F, "<", $name or die "$name: $!\n"; seek F, 8192, 0; read F, $super, 1376;
        $magic = substr $super, 1372; $magic =~ /^(\0\x01\x19\x54|\x54\x19\x01\0)$/s or die "no superblock is at byte 8192 of $name\n";
        @super = unpack $magic =~ /^\0/ ? "N*" : "V*", $super;
        ($sblkno, $cblkno, $iblkno, $dblkno, $cgoffset, $cgmask, $size, $ncg, $fsize, $csaddr, $cssize, $ipg, $fpg) =
            @super[2 .. 7, 9, 11, 13, 38, 39, 46, 47];
        sub start { my $c = shift; $c * $fpg + $cgoffset * ($c & ~$cgmask & 0xffffffff) }
        print $size * $fsize, " ", (start($ncg - 1) + $sblkno) * $fsize / 512, " $fpg $csaddr ", $cssize / $fsize, "\n";
        for ($c = 0; $c < $ncg; $c++) {
            print start($c) + $cblkno, " ", $ipg / 8, " ", start($c) + $iblkno, " ", start($c) + $sblkno, " ", start($c) + $dblkno, "\n";
        }' "${1:-copy.img}"
}

whole() {
    by_superblock "$@" | sed 's/ .*//; q'
}

last_copy() {
    by_superblock | awk '{ print $2; exit }'
}

groups() {
    by_superblock | sed 1d
}

all_used() (
    found=$(groups | grep .) || { complain "all_used: every.img isn't made"; exit 1; }
    if cp copy.img every.new && echo "$found" | perl -e '($order, $bsize, $fsize) = @ARGV; $word = $order eq "little" ? "V" : "N";
        open F, "+<", "every.new" or die "every.new: $!\n";
        while (<STDIN>) {
            ($g, $length) = split;
            $block = pack "x4 $word x84 $word$word x68", 0x90255, 168, 168 + $length;
            seek F, $g * $fsize, 0; print F $block, "\377" x $length, "\0" x ($bsize - 168 - $length);
        }
        close F or die "every.new: $!\n"' "$order" "$bsize" "$fsize"; then
        mv every.new every.img
    else
        rm -f every.new
        complain "all_used: every.img isn't made (is the disk full?)"
        exit 1
    fi
)

# faults IMAGE TYPE..: what keeps the tools from reading inodes of these types to their end, a line each: the byte and width of a field, the
# number by which it can be read, and why. It is a size that is more than the addresses hold (of a file, by 1 MiB), or than the volume, or an
# address outside of it; of a directory also a word outside of it, or a size that isn't whole chunks of 512 bytes. The words of a file stay,
# since their block may be another file's
faults() {
    [ "${order-}" ] || return 0
    by_superblock "$1" 2>/dev/null | perl -e '($order, $bsize, $fsize, $name, @types) = @ARGV;
        ($word, $half, $quad) = $order eq "little" ? qw(V v Q<) : qw(N n Q>);
        open F, "<", $name or die "$name: $!\n";
        ($n, $frag) = ($bsize / 4, $bsize / $fsize); $wanted{oct $_} = 1 for @types;
        ($bytes) = split " ", <STDIN>; $end = $bytes / $fsize; $i = 0;
        sub words { seek F, $_[0] * $fsize, 0; read F, my $piece, $bsize; unpack "$word*", $piece }
        sub last_block {
            my ($f, $level) = @_; my @words = words($f);
            for (my $k = $#words; $k >= 0; $k--) { return $level ? $k * $n ** $level + last_block($words[$k], $level - 1) : $k + 1 if $words[$k] }
            0;
        }
        sub first_bad {
            my ($f, $level) = @_; my ($k, $below) = 0;
            for (words($f)) {
                return $k if $_ && $_ + $frag > $end;
                return $k + $below if $_ && $level && ($below = first_bad($_, $level - 1)) >= 0;
                $k += $n ** $level;
            }
            -1;
        }
        sub fault { my ($at, $width, $value, $why) = @_; print $place + $at, " $width $value inode $i: $why\n" }
        while (<STDIN>) {
            (undef, $length, $table) = split; seek F, $table * $fsize, 0; read F, $inodes, 1024 * $length;
            for ($k = 0; 128 * $k < length $inodes; $k++, $i++) {
                next if $i < 2 || substr($inodes, 128 * $k, 2) eq "\0\0";
                $inode = substr $inodes, 128 * $k, 128; $place = $table * $fsize + 128 * $k;
                ($mode, $size, @to) = unpack "$half x6 $quad x24 ${word}15 x4 $word", $inode;
                $type = $mode & 0170000; $held = 512 * pop @to;
                next if !$wanted{$type} || $type == 0120000 && !$held && $size < 60;
                @begin = (0 .. 11, 12, 12 + $n, 12 + $n + $n ** 2); @holds = ((1) x 12, $n, $n ** 2, $n ** 3);
                for ($last = 14; $last >= 0 && !$to[$last]; $last--) {}
                $most = $last < 0 ? 0 : ($begin[$last] + $holds[$last]) * $bsize;
                if ($type == 0120000 && !$held) {
                    $most = index substr($inode, 40, 60) . "\0", "\0";
                } elsif ($size > $most || $size > $bytes) {
                    $most = ($begin[$last] + last_block($to[$last], $last - 12)) * $bsize if $last > 11;
                    $most = $held if $last < 12 && $held < $most && $held > $most - $bsize;
                }
                $most = $size if $size < $most || $type == 0100000 && $size < $most + (1 << 20);
                $most += -$most % 512 if $type == 040000;
                $most = 0 if $most > $bytes;
                if ($type == 040000) {
                    for (12 .. 14) {
                        next if !$to[$_] || $to[$_] + $frag > $end || $begin[$_] * $bsize >= $most || ($bad = first_bad($to[$_], $_ - 12)) < 0;
                        $most = ($begin[$_] + $bad) * $bsize if ($begin[$_] + $bad) * $bsize < $most;
                    }
                }
                fault(8, 8, $most, "its size is $size, and " . ($most ? "it is read up to byte $most" : "it is passed over")) if $size != $most;
                next if $type == 0120000 && !$held;
                for (0 .. 14) {
                    last if $begin[$_] * $bsize >= $most;
                    $count = $_ == int($most / $bsize) && $_ < 12 ? int(($most % $bsize + $fsize - 1) / $fsize) : $frag;
                    fault(40 + 4 * $_, 4, 0, "its address $_ is $to[$_], outside of the volume, and it has zeros there") if $to[$_] + $count > $end && $to[$_];
                }
            }
        }' "$order" "$bsize" "$fsize" "$@"
}

# bounded IMAGE TYPE..: the name of the image to read in place of that: itself, or a copy without the faults, which are named
bounded() {
    found=$(faults "$@") || found=
    [ "$found" ] || { echo "$1"; return; }
    echo "$found" | cut -d ' ' -f 4- >&2
    # shellcheck disable=SC2016
    if cp "$1" bounded.img && chmod u+w bounded.img && echo "$found" | perl -e 'open F, "+<", "bounded.img" or die "bounded.img: $!\n";
        while (<STDIN>) {
            ($at, $width, $value) = split; $bytes = substr pack("Q>", $value), -$width;
            seek F, $at, 0; print F $ARGV[0] eq "little" ? scalar reverse $bytes : $bytes;
        }
        close F or die "bounded.img: $!\n"' "$order"; then
        echo bounded.img
    else
        rm -f bounded.img
        complain "of $1 nothing is read, since bounded.img isn't made (is the disk full?)"
    fi
}

# For awk, over the lines of fls -p: what fls and tsk_recover leave out, or would write to one place. They don't look into a directory more than
# 128 deep, or whose path has more than 4096 bytes (here that begins anew at 100 and 1800), or whose entry has the type of something else
# shellcheck disable=SC2016
of_listing='
    function deep(path) { return length(path) > 1800 || gsub("/", "/", path) > 98 }
    function above(path) { return match(path, "/[^/]*$") ? substr(path, 1, RSTART - 1) : "" }
    function inode(line) { sub(/:$/, "", line); sub(/.* /, "", line); sub(/[^0-9].*/, "", line); return line }
    function kind(line) { return line ~ /^.\/d/ ? "D" : line ~ /^.\/[rl]/ ? "F" : "" }
    function unread(line, path) { return line ~ /^[d-]\/d/ ? deep(path) : kind(line) == "D" }
    function tell(line, mark) {
        if (!kind(line)) return
        print kind(line) "\t" mark "\t" inode(line) "\t" $2
        delete read[inode(line)]; more = 1
    }
    $1 == "fault" { print; next }
    deep(above($2)) { next }
    $1 ~ /^[d-]\/d/ && !deep($2) { read[inode($1)] }
    END { if (more) for (i in read) print "read\t-\t" i "\t-" }'

# listed WORDS..: the whole lines that fls prints by these words, and `fault` after them where it fails, also where it is killed within a line
listed() {
    { fls "$@" || printf '\nfault\n'; } |
        awk '$0 == "fault" { print; held = ""; next } held != "" { print held } { held = $0 } END { if (held != "") print held }'
}

newline='
'
# next_of: takes the first line off `todo`, as i and path. It fails where i was done already, or is below such a one
next_of() {
    case $left in *read*) done=$done$(printf '%s\n' "$left" | awk '$1 == "read" { printf "%s ", $3 }') ;; esac
    left='' line=${todo%%"$newline"*} && todo=${todo#"$line"} && todo=${todo#"$newline"}
    [ "$line" ] || return 1
    i=${line%%"$tab"*} path=${line#*"$tab"}
    case $done in *" ${i:-2} "*) return 1 ;; esac
    done="$done${i:-2} "
}

is_whole() {
    case $newline$left$newline in *"${newline}fault$newline"*) return 1 ;; esac
}

list_names() (
    # shellcheck disable=SC2030,SC2031
    export LC_ALL=C
    # shellcheck disable=SC2030
    how='' tab=$(printf '\t') done=" " left='' status=0
    [ "$1" != -m ] || { how="-m"; shift; }
    image=$(bounded "$1" 40000) || exit 1
    todo="${2-}$tab"
    exec 3>&1
    while [ "$todo" ]; do
        next_of || continue
        [ ! "$how" ] || { printf '%s\n' "$path"; fls -r -m / -f ufs1 "$image" ${i:+"$i"}; } |
            awk 'NR == 1 { before = $0; next } { print substr($0, 1, 3) before substr($0, 4) }'
        left=$({ printf '\t%s\n' "$path"; listed -r -p -f ufs1 "$image" ${i:+"$i"}; } | awk -F "$tab" -v how="$how" 'NR == 1 { before = $2; next }'"$of_listing"'
            { is_unread = unread($1, $2); $2 = before $2 } !how { print $1 "\t" $2 | "cat >&3" } is_unread { tell($1, "-") }')
        is_whole || complain "list_names: the list of what is in /$path isn't whole" || status=1
        [ -z "$left" ] || todo=$(printf '%s\n' "$left" | awk -F "$tab" '$1 == "D" { print $3 "\t" $4 "/" }')$newline$todo
    done
    rm -f bounded.img
    exit $status
)

# again IMAGE PLACE [I]: copies the files that tsk_recover, by what it `said`, couldn't write. What can't be read of them is zeros
# shellcheck disable=SC2031
again() {
    {
        printf '%s\n' "$said" | start="Error writing file: $2/" awk '
            index($0, ENVIRON["start"]) == 1 { $0 = substr($0, length(ENVIRON["start"]) + 1); sub("^/*", ""); print }'
        echo
        listed -r -u -p -f ufs1 "$1" ${3:+"$3"}
    } | awk -F '\t' '!$0 { listed = 1 } !listed { wanted[$0] = 1; next }
        $1 ~ /^.\/[rl]/ && $2 in wanted { sub(/:$/, "", $1); sub(/.* /, "", $1); sub(/[^0-9].*/, "", $1); print $1 "\t" $2 }' |
        while IFS=$tab read -r number name; do copy_inode "$1" "$number" "$2/$name" || :; done
}

# recovered IMAGE PLACE [I]: as recover, of an image where no size is too large
recovered() (
    # shellcheck disable=SC2030,SC2031
    export LC_ALL=C
    tab=$(printf '\t') done=" " left='' status=0
    todo="${3-}$tab$2"
    exec 3>&1
    while [ "$todo" ]; do
        next_of || continue
        left=$(listed -r -u -p -f ufs1 "$1" ${i:+"$i"} | { sort -t "$tab" -k 2 || echo fault; } | awk -F "$tab" -v before=${#path} '
            ("/" $2 "/") ~ "/[.][.]/" { print "away\t-\t-\t" $2 }'"$of_listing"'
            $2 == same && inode($1) != inode(held) { if (!told) tell(held, "="); tell($1, "="); told = 1; next }
            { same = $2; held = $1; if (told = unread($1, $2) || $1 ~ /^d\/r/) tell($1, length($2) + before > 2000 ? "=" : "-") }')
        is_whole || complain "recover: the list of what becomes $path isn't whole, so more may be left out" || status=1
        away=''
        case $left in *away*) away=$(printf '%s\n' "$left" | grep '^away' | cut -f 4) ;; esac
        [ -z "$away" ] || { complain "recover: of $1 nothing is copied into $path, since a name leads out of it: $away" || status=1; continue; }
        said=$({ tsk_recover -a ${i:+-d "$i"} -f ufs1 "$1" "$path" >&3; } 2>&1) || status=1
        [ -z "$said" ] || { complain "$said" || status=1; again "$1" "$path" ${i:+"$i"} || status=1; }
        while IFS=$tab read -r kind mark number name; do
            to=$path/$name
            case $mark in =) to=$2.$number ;; esac
            case $kind in
                D) [ ! -e "$to" ] || [ -d "$to" ] || to=$2.$number ;;
                F) [ ! -e "$to" ] || to=$2.$number ;;
                *) continue ;;
            esac
            [ "$to" != "$2.$number" ] || echo "recover: $name, inode $number, is copied as $to"
            case $kind in
                D) todo=$todo$newline$number$tab$to ;;
                F) mkdir -p "$(dirname "$to")" && copy_inode "$1" "$number" "$to" || status=1 ;;
            esac
        done <<EOF
$left
EOF
    done
    # Of a small file that a full disk doesn't take tsk_recover says nothing
    [ ! -d "$2" ] || { probe=$(mktemp "$2/full.XXXXXX") && head -c 65536 /dev/urandom >"$probe"; } 2>/dev/null ||
        complain "recover: the disk is full, so files in $2 may be empty or cut short" || status=1
    rm -f "${probe-}"
    exit $status
)

recover() (
    status=0 image=$(bounded "$1" 100000 40000 120000) || exit 1
    recovered "$image" "$2" ${3:+"$3"} || status=$?
    rm -f bounded.img
    exit $status
)

copy_inode() {
    perl -e '($name, $i, $file) = @ARGV; open F, "<", $name or die "$name: $!\n"; seek F, 8192, 0; read F, $super, 1376;
        ($word, $half, $quad) = substr($super, 1372) eq "\x54\x19\x01\0" ? qw(V v Q<) : qw(N n Q>);
        ($iblkno, $cgoffset, $cgmask, $end, $ncg, $bsize, $fsize, $ipg, $fpg) = (unpack "$word*", $super)[4, 6, 7, 9, 11 .. 13, 46, 47];
        $i =~ /^[0-9]+$/ && $i < $ncg * $ipg or die "copy_inode: $name has no inode $i\n";
        ($n, $frag, $c, $last) = ($bsize / 4, $bsize / $fsize, int($i / $ipg), 0);
        seek F, ($fpg * $c + $cgoffset * ($c & ~$cgmask & 0xffffffff) + $iblkno) * $fsize + 128 * ($i % $ipg), 0; read F, $inode, 128;
        ($mode, $bytes, @to) = unpack "$half x6 $quad x24 ${word}15 x4 $word", $inode; $held = pop @to;
        open TO, ">", $file or die "$file: $!\n";
        sub piece {
            my ($f, $length) = @_;
            seek F, $f * $fsize, 0; $unread++ if $f * $fsize + $length > $end * $fsize || read(F, my $piece, $length) != $length;
            $piece;
        }
        sub block {
            my ($f, $k) = @_;
            my $piece = piece($f, $bytes - $k * $bsize < $bsize ? $bytes - $k * $bsize : $bsize); $last = ($k + 1) * $bsize;
            seek TO, $k * $bsize, 0; print TO $piece or die "$file: $!\n" if $piece =~ /[^\0]/;
        }
        sub below {
            my ($f, $level, $k) = @_; my @words = $read{$f}++ ? () : unpack "$word*", piece($f, $bsize);
            for (@words) {
                last if $k * $bsize >= $bytes;
                $level > 1 ? below($_, $level - 1, $k) : block($_, $k) if $_;
                $k += $n ** ($level - 1);
            }
        }
        if (($mode & 0170000) == 0120000 && !$held && $bytes < 60) { print TO substr $inode, 40, $bytes; $last = $bytes }
        else {
            for ($k = 0; $k < 12; $k++) { block($to[$k], $k) if $to[$k] && $k * $bsize < $bytes }
            for ($level = 1; $level < 4; $k += $n ** $level++) { below($to[11 + $level], $level, $k) if $to[11 + $level] }
        }
        print STDERR "inode $i: its size is $bytes, and the copy ends with its last block\n" and $bytes = $last if $bytes > $last + $end * $fsize;
        close TO and truncate $file, $bytes or die "$file: $!\n";
        die "inode $i: pieces that are outside of the volume, or of the image, have zeros: $unread\n" if $unread' "$@"
}

unnamed() (
    image=$(bounded "$from" 100000 40000 120000) || exit 1
    mkdir -p unnamed.d
    { fsck_ffs -n copy.img; echo "status $?"; } | sed -nE 's/^(UNREF|BAD.DUP) ([A-Z]+) I=([0-9]+).*/\2 \3/p; /^status [2-9]/p' | while read -r kind i; do
        case $kind in
            status) complain "unnamed: the check ends with $i, so it names none" || : ;;
            FILE) copy_inode "$image" "$i" unnamed.d/"$i" || : ;;
            *) recovered "$image" unnamed.d/"$i".d "$i" || : ;;
        esac
    done
    rm -f bounded.img
    ! rmdir unnamed.d 2>/dev/null || complain "unnamed: the report names none"
)

bad_areas() (
    found=$(maps) || exit 1
    awk '$2 ~ /^0x/ && $3 != "+" { print $1, $2 }' copy.map | while read -r at size; do
        echo "area $(((at - 512 * $1) / fsize)) $(((at + size - 1 - 512 * $1) / fsize))"
    done | { cat; echo "$found"; by_superblock; } | owners
)

# owners: of each fragment in the lines `area` of standard input what ffs_find owner prints of it, in one pass over the inodes; it wants the
# lines of maps and of by_superblock too. After an inode's eleventh fault it goes on
owners() {
    perl -e '($order, $bsize, $fsize) = @ARGV; ($word, $half, $quad) = $order eq "little" ? qw(V v Q<) : qw(N n Q>);
        open F, "<", "copy.img" or die "copy.img: $!\n";
        ($n, $frag, $wanted, $told, $lost) = ($bsize / 4, $bsize / $fsize, "", "", "");
        while (<STDIN>) {
            @line = split;
            if (/^area/) { push @areas, [$line[1] < 0 ? 0 : $line[1], $line[2]] }
            elsif (/^lost/) { for ($f = $line[1]; $f <= $line[-1]; $f++) { vec($lost, $f, 1) = 1 } }
            elsif (/^no map/) { $unmapped{$line[-1]} = 1 }
            elsif (@line == 5 && !$fpg) { ($bytes, undef, $fpg, $csaddr, $cssize) = @line; $size = $bytes / $fsize }
            elsif (@line == 5) { push @groups, [@line] }
        }
        for (@areas) { for ($f = $$_[0]; $f <= $$_[1] && $f < $size; $f++) { vec($wanted, $f, 1) = 1 } }
        sub reserved {
            my $f = shift; my $c = int($f / $fpg); my ($group, $length, $table, $super, $data) = @{$groups[$c]};
            return $f < ${$groups[0]}[3] ? "boot area" : $f >= $csaddr && $f < $csaddr + $cssize ? "summary" : "" if $f < $super || $f >= $data;
            return "superblock of group $c" if $f < $group;
            return "group block of group $c" if $f < $table;
            my $i = $c * 8 * $length + ($f - $table) * $fsize / 128;
            "inode table of group $c, inodes $i to " . ($i + $fsize / 128 - 1);
        }
        sub claim {
            my ($f, $count, $what) = @_;
            for (; $count--; $f++) {
                next if $f >= $size || !vec($wanted, $f, 1) || reserved($f);
                vec($told, $f, 1) = 1; print "$what\n";
            }
        }
        sub below {
            my ($f, $level, $k) = @_;
            return if !$f || $f >= $size;
            claim($f, $frag, "inode $i indirect block " . ++$indirect);
            seek F, $f * $fsize, 0; read F, my $piece, $bsize;
            my $each = $n ** ($level - 1);
            for (unpack "$word*", $piece) {
                last if $k >= $blocks;
                if ($level > 1) { below($_, $level - 1, $k) } elsif ($_) { claim($_, $frag, "inode $i block $k") }
                $k += $each;
            }
        }
        for (@groups) {
            my (undef, $length, $table) = @$_;
            seek F, $table * $fsize, 0; read F, my $inodes, 1024 * $length;
            for ($at = 0; $at < length $inodes; $at += 128, $number++) {
                ($mode, $bytes, @to) = unpack "$half x6 $quad x24 ${word}15 x4 $word", substr $inodes, $at, 128;
                next if $number < 2 || ($mode & 0170000) !~ /^(16384|32768|40960)$/ || ($mode & 0170000) == 40960 && !$to[15];
                ($i, $indirect, $blocks) = ($number, 0, int(($bytes + $bsize - 1) / $bsize));
                for ($k = 0; $k < 12 && $k < $blocks; $k++) {
                    $rest = int(($bytes - $k * $bsize + $fsize - 1) / $fsize);
                    claim($to[$k], $blocks < 13 && $rest < $frag ? $rest : $frag, "inode $i block $k") if $to[$k];
                }
                for (($k, $level) = (12, 1); $level < 4 && $k < $blocks; $k += $n ** $level++) { below($to[11 + $level], $level, $k) }
            }
        }
        for (@areas) {
            for ($f = $$_[0]; $f <= $$_[1] && $f < $size; $f++) {
                next if vec($told, $f, 1);
                $c = int($f / $fpg);
                print reserved($f) || (vec($lost, $f, 1) ? "lost" : $unmapped{$c} ? "no map in group $c" : "free"), "\n";
            }
        }' "$order" "$bsize" "$fsize"
}

put() {
    [ $# = 3 ] || { complain "put: wants a byte, a width and a number, and was given: $*"; return 1; }
    perl -e '($order, $at, $width, $number) = @ARGV;
        open F, "+<", "further.img" or die "put: further.img: $!\n";
        $at >= 8192 && $at + $width <= -s "further.img" or die "put: byte $at is of the boot area, or past the end of further.img\n";
        $width == 8 || $number < 1 << 8 * $width && $number >= -(1 << 8 * $width - 1) or die "put: $number takes more than $width bytes\n";
        $bytes = substr pack("Q>", $number), -$width;
        seek F, $at, 0; print F $order eq "little" ? scalar reverse $bytes : $bytes; close F or die "put: $!\n"' \
        "$order" $(($1)) "$2" $(($3))
}

entries() {
    perl -e 'open F, "<", "copy.img" or die "copy.img: $!\n"; ($order, $at, $length, $wanted) = @ARGV;
        ($fields, $word) = $order eq "little" ? ("VvCC", "V") : ("NnCC", "N");
        sub look {
            my $k = shift;
            return if $k % 4 || $k % 512 > 500;
            ($number, $record, $type, $count) = unpack $fields, substr $piece, $k, 8;
            return if $type < 1 || $type > 14;
            return if substr($piece, $k + 8, 504 - $k % 512) !~ /^([^\0]{1,255})\0/;
            $name = $1;
            return if $record > 512 || $name =~ m{/} ? $count != length $name || $name =~ /[^ -~]/ || $number >> 24
                : $count != length $name && $record != (length($name) + 12 & ~3) && $record != 512 - $k % 512;
            $name =~ tr/\1-\37\177/?/;
            print $at + $k, " $number $record $type $count $name\n";
        }
        for (seek F, $at, 0; $length > 0 && read F, $piece, $length < 1 << 20 ? $length : 1 << 20; $at += length $piece) {
            $length -= length $piece;
            if (defined $wanted) {
                for ($k = -1; ($k = index $piece, pack($word, $wanted), $k + 1) >= 0;) { look($k) }
            } else {
                while ($piece =~ /[\1-\16]/g) { look($-[0] - 6) if $-[0] % 4 == 2 && $-[0] > 5 }
            }
        }' "$order" $(($1)) $(($2)) ${3:+"$3"}
}

older_magic() (
    found=
    for at in 66908 263516; do
        case $(dd if=copy.img bs=4 skip=$((at / 4)) count=1 status=none | od -A n -t x1 | tr -d ' ') in
            19540119 | 19015419) found=$at && put "$at" 4 0 || exit 1 ;;
        esac
    done
    [ "$found" ] || complain "older_magic: there is none of a UFS2 where Sleuthkit looks for it"
)

clear_inode() (
    p=$(place "$1") && dd if=/dev/zero of=further.img bs=128 seek=$((p / 128)) count=1 conv=notrunc,nocreat status=none
)

exchange() (
    a=$(place "$1") && b=$(place "$2") && for at in "$a $b" "$b $a"; do
        dd if=copy.img of=further.img bs=128 skip=$((${at% *} / 128)) seek=$((${at#* } / 128)) count=1 conv=notrunc,nocreat status=none || exit 1
    done
)

# directory I F SIZE: puts inode I anew, as a directory of so many bytes whose blocks follow one another from fragment F on
directory() (
    p=$(place "$1") && clear_inode "$1" && put "$p" 2 "$([ "$1" = 2 ] && echo 040755 || echo 040700)" && put "$p + 2" 2 2 && put "$p + 8" 8 "$3" &&
        put "$p + 104" 4 "($3 + $fsize - 1) / $fsize * $fsize / 512" &&
        for k in $(seq 0 $((($3 - 1) / bsize))); do
            [ "$k" -gt 11 ] || put "$p + 40 + 4 * $k" 4 "$2 + $k * $bsize / $fsize" || exit 1
        done
)

# Of the lines of entries, in ascending order: inode, first fragment and size of each directory that begins among them. A chunk at the next
# fragment is taken for its own where the blocks allow it, and its first entry didn't fit into the chunk before
begun_directories() {
    awk -v fsize="$fsize" -v bsize="$bsize" '
        function last() { if (i) print i, at / fsize, 512 * (chunk + 1) - at; i = 0 }
        function need() { return 8 + 4 * int(($5 + 4) / 4) }
        function count() { if (int($1 / 512) != chunk) { chunk = int($1 / 512); live = 512 * chunk; room = 512 }
            if ($1 == live) { live += $3; room -= $2 ? need() : 0 } }
        function near() { return int($1 / 512) == chunk + 1 && (at % bsize == 0 || int($1 / 512) * 512 % bsize) }
        function follows() { return int($1 / 512) == chunk || near() && ($1 % fsize >= 512 || need() > room) }
        $5 == 1 && $6 == "." && $2 > 1 && $1 % fsize == 0 { last(); i = $2; at = $1; chunk = -1; count(); next }
        i && follows() { count(); next }
        i && near() { print "directories: what lies from byte", $1, "on may be of inode", i, "too" >"/dev/stderr" }
        { last() }
        END { last() }'
}

directories() (
    taken=" "
    begun_directories | sort -s -k 3,3nr | while read -r i f size; do
        class=$(ffs_find inode "$i" copy.img | sed -n 's/^class //p')
        case $class in file | directory) continue ;; esac
        why=$(for k in $(seq "$f" $((f + (size - 1) / fsize))); do ffs_find owner "$k" copy.img; done | grep -vE '^(lost|free|no map)' | head -n 1)
        case $taken in *" $i "*) why="a longer one was put" ;; esac
        case $class in partial | unknown) why="it isn't empty ($class): mend it, or clear it first" ;; esac
        if [ "$why" ]; then
            complain "directories: inode $i isn't put at fragment $f: $why"
        else
            taken="$taken$i " && directory "$i" "$f" "$size"
        fi
    done
)

new_root() (
    case $(ffs_find owner "$1" copy.img) in
        free | "no map"*) ;;
        lost)
            if [ "$(dd if=copy.img bs="$fsize" skip="$1" count=1 status=none | tr -d '\0' | wc -c)" -gt 0 ]; then
                complain "new_root: fragment $1 is lost, and has more than zeros"
                exit 1
            fi
            ;;
        *) complain "new_root: fragment $1 isn't free: see ffs_find owner $1 copy.img"; exit 1 ;;
    esac
    d=$(($1 * fsize)) && dd if=/dev/zero of=further.img bs="$fsize" seek="$1" count=1 conv=notrunc,nocreat status=none &&
        put $d 4 2 && put $d+4 2 12 && put $d+6 1 4 && put $d+7 1 1 && put $d+8 1 0x2e &&
        put $d+12 4 2 && put $d+16 2 500 && put $d+18 1 4 && put $d+19 1 2 && put $d+20 2 0x2e2e && directory 2 "$1" 512
)

words() {
    dd if=copy.img bs="$fsize" skip="$1" count=$((bsize / fsize)) status=none | od -A n -v -t u4 -w4 --endian="$order" | nl -v 0
}

lost_blocks() (
    found=$(lost) || exit 1
    echo "$found" | awk -v frag=$((bsize / fsize)) 'NF { for (f = frag * int(($1 + frag - 1) / frag); f + frag - 1 <= $2; f += frag) print f }'
)

joined() (
    : >list
    named=$(words "$1" | awk '$2 { print $2 }')
    echo "$named" | sort -nc 2>/dev/null || { complain "joined: the words of the block at fragment $1 don't rise, so their order isn't known"; exit 1; }
    { echo "$named"; lost_blocks; } | sort -nu | grep . >list
)

rising() {
    lost_blocks | while read -r b; do
        words "$b" | awk -v b="$b" 'bad { next } !$2 { z = 1; next } z || $2 <= last { bad = 1; next } { last = $2; n++ } END { if (!bad && n) print b, n }'
    done
}

zeros() {
    [ "$(ffs_find owner "$1" copy.img | sed 's/^inode [0-9]* indirect block [0-9]*$/indirect/')" = indirect ] ||
        { complain "fragment $1 isn't an indirect block of one file alone: see ffs_find owner $1 copy.img"; return 1; }
    dd if=/dev/zero of=further.img bs="$fsize" seek="$1" count=$((bsize / fsize)) conv=notrunc,nocreat status=none
}

refill() (
    count=$(grep -c '[0-9]' list) || :
    if [ "${count:-0}" = 0 ] || [ "$count" -gt $((bsize / 4)) ]; then
        complain "refill: the list has ${count:-no} blocks, and an indirect block names 1 to $((bsize / 4))"
        exit 1
    fi
    zeros "$1" && perl -ne 'BEGIN { ($order, $at) = splice @ARGV, 0, 2; open F, "+<", "further.img" or die "refill: further.img: $!\n"; seek F, $at, 0 }
        print F pack $order eq "little" ? "V" : "N", $_ if /[0-9]/; END { close F or die "refill: $!\n" }' "$order" $(($1 * fsize)) list
)

sizes
