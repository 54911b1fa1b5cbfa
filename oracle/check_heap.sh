# Shell functions with which `check` holds the program `heaps`; read in with `.`, after check's own functions.

# A line of a million bytes is one bad line.
run_heap_long_line() {
    {
        awk 'BEGIN { for (i = 0; i < 100000; i++) printf "0123456789"; print "" }'
        printf 'heap 4 2 1\nadd 8 16\nstats\n'
    } | "$out/$program" >"$work/got" 2>"$work/err"
    status=$?
    {
        printf 'bad line\n0 0\n0 0\n0 0 0 8\nrecord order 4 count 0 user 0 allocated 0 total 8\n'
        echo "heads 0 0 0 8$(printf ' 0%.0s' 4 5 6 7 8 9 10 11 12 13 14 15 16 17 18 19 20 21 22 23 24 25 26 27 28 29 30 31 32)"
        echo 'list 3 8'
    } >"$work/expected"
    verdict 'a line of a million bytes' "$(same "$work/expected" $status)"
}

# What the crate's heap does where the rules refuse is what docs/DIFFERENCES.md says of it.
run_heap_differences() {
    "$out/heap_differences" >"$work/got" 2>"$work/err"
    status=$?
    verdict 'what the crate does where the rules refuse' "$(same "$here/heap_differences.out" $status)"
}

# Arenas and ledgers longer than a line can lend.
run_heap_lengths() {
    "$out/heap_lengths" >"$work/got" 2>"$work/err"
    [ $? = 0 ] && why= || why=$(tail -n 1 "$work/got" "$work/err" | tr '\n' ' ')
    verdict 'the longest arena and ledger' "$why"
}

# Each clause of soundness is broken by a case, alone where that can be: a list that does not end meets itself, and where
# nothing is lent neither length is in range and no number of nodes is below the number of words.
run_heap_clauses() {
    for input in "$here"/cases-heap/*.in; do
        "$out/heaps" --clauses <"$input"
    done 2>"$work/err" | grep '^broken \[' | sort -u >"$work/got"
    for clause in 'ArenaLength, LedgerLength, ListsEnd' Order LedgerCount HeadsWithoutList 'ListsEnd, Disjoint, Total' LedgerZeroField \
        LedgerAscending LedgerRest LedgerClass LedgerHoldsRequest Aligned AboveZero InsideArena Disjoint User Allocated Total; do
        why="no case breaks it"
        grep -q -x -F -e "broken [$clause]" "$work/got" && why=
        verdict "cases break $clause" "$why"
    done
}

# run_heap_faults NAME INPUT..: the stand-in gives the outputs beside the inputs, and with any of its faults another.
run_heap_faults() {
    name=$1
    shift
    "$out/heap_stand_in" "$@" >"$work/got" 2>"$work/err"
    status=$?
    while IFS=: read -r fault said; do
        case "$fault,$said" in
        'None, not noticed') why= ;;
        None,*) why=$said ;;
        *' noticed by '*) why= ;;
        *) why=$said ;;
        esac
        verdict "$name and the fault $fault" "$why"
    done <"$work/got"
    why=
    [ "$(grep -c 'noticed by' "$work/got")" -ge 55 ] || why='fewer faults than there are'
    [ "$status" = 0 ] || why="exit status $status: $(first_line "$work/err")"
    verdict "$name and all faults" "$why"
}

# The recorded lines notice every fault as the cases do; where the product has heap_calls, it holds what record_heap makes.
run_heap_recorded() {
    "$here/record_heap" "$work/stored" >"$work/err" 2>&1
    status=$?
    why=
    [ "$status" = 0 ] || why="exit status $status: $(first_line "$work/err")"
    verdict 'recorded lines of heap_calls' "$why"
    cp "$work/stored/stdin" "$work/stored.in" && cp "$work/stored/stdout" "$work/stored.out"
    run_heap_faults 'recorded lines' "$work/stored.in"
    if [ ! -d "$repo/crates/heap_calls" ]; then
        echo 'not run: the stored lines of heap_calls, since there is no such crate'
        return
    fi
    for file in stdin stdout; do
        why=
        cmp -s "$work/stored/$file" "$repo/crates/heap_calls/$file" || why="record_heap makes another"
        verdict "stored $file of heap_calls" "$why"
    done
}

# run_heap_twice SEED: the stand-in without a fault, a second reading of the rules, prints the same for random lines.
run_heap_twice() {
    "$out/heaps" --random "$1" 20000 --lines >"$work/input" 2>"$work/err"
    "$out/heaps" <"$work/input" >"$work/expected" 2>"$work/err"
    "$out/heap_stand_in" <"$work/input" >"$work/got" 2>>"$work/err"
    status=$?
    verdict "a second reading of the rules, seed $1" "$(same "$work/expected" $status)"
}

# The lines of a random run on the crate altered last stop again when they are fed in.
run_heap_replay() {
    folder=$work/altered
    "$folder/$program" --random 1 20000 >"$work/input" 2>"$work/err"
    [ $? = 1 ] || { verdict 'replay of a random run of heaps' 'the random run did not stop'; return; }
    sed 's/.* of the replay): //' "$work/err" >"$work/expected"
    "$folder/$program" <"$work/input" >/dev/null 2>"$work/err"
    status=$?
    sed "s/^$program: line [0-9]*: //" "$work/err" >"$work/got"
    why=
    cmp -s "$work/expected" "$work/got" || why="another stop: $(first_line "$work/err")"
    [ "$status" = 1 ] || why="exit status $status, not 1"
    verdict 'replay of a random run of heaps' "$why"
}

run_altered_lists() {
    notices 'a pop that clears the word' linked_list.rs \
        '                self.head = unsafe { *item as *mut usize };' \
        '                self.head = unsafe { core::mem::take(&mut *item) as *mut usize };' \
        'heap 4 8 4\nadd 8 64\nalloc 8 8\n'
    notices 'a removal that clears the word' linked_list.rs \
        '            *(self.prev) = *(self.curr);' \
        '            *(self.prev) = core::mem::take(&mut *(self.curr));' \
        'heap 5 16 8\nadd 8 16\nadd 24 32\nadd 16 24\nalloc 8 8\nfree 16 8 8\n'
    notices 'a removal that cuts the list off' linked_list.rs \
        '            *(self.prev) = *(self.curr);' \
        '            *(self.prev) = 0;' \
        'heap 5 16 8\nadd 8 16\nadd 24 32\nadd 16 24\nalloc 8 8\nfree 16 8 8\n'
    notices 'a reader that stops after a node' linked_list.rs \
        '            self.curr = next;' \
        '            self.curr = ptr::null_mut(); let _ = next;' \
        'heap 4 8 4\nadd 8 64\nlist 3\n'
}

run_altered_heaps() {
    notices 'joining in the top class of a heap' lib.rs \
        '        while current_class < self.free_list.len() - 1 {' \
        '        while current_class < self.free_list.len() {' \
        'heap 4 8 4\nadd 16 32\nalloc 8 8\nfree 24 8 8\n'
    notices 'a heap release that never joins' lib.rs \
        '        while current_class < self.free_list.len() - 1 {' \
        '        while current_class + 64 < self.free_list.len() {' \
        'heap 5 8 4\nadd 16 32\nalloc 8 8\nfree 16 8 8\n'
    notices 'a grant of the upper half' lib.rs \
        '                            self.free_list[j - 1].push(block);' \
        '                            let half = self.free_list[j - 1].pop().unwrap(); self.free_list[j - 1].push(block); self.free_list[j - 1].push(half);' \
        'heap 5 8 4\nadd 16 32\nalloc 8 8\n'
    notices 'pieces behind the first' lib.rs \
        '                self.free_list[order].push(current_start as *mut usize);' \
        '                let first = self.free_list[order].pop(); self.free_list[order].push(current_start as *mut usize); if let Some(first) = first { self.free_list[order].push(first); }' \
        'heap 4 8 4\nadd 8 64\n'
    notices 'pieces of half the size in a heap' lib.rs \
        '            total += size;' \
        '            if size > 8 { size /= 2; order -= 1; } total += size;' \
        'heap 7 8 4\nadd 8 64\n'
    notices 'a start rounded down' lib.rs \
        '        start = (start + size_of::<usize>() - 1) & (!size_of::<usize>() + 1);' \
        '        start &= !size_of::<usize>() + 1;' \
        'heap 7 8 4\nadd 9 32\n'
    notices 'a refused heap grant that changes a figure' lib.rs \
        '    pub fn alloc(&mut self, layout: Layout) -> Result<NonNull<u8>, ()> {' \
        '    pub fn alloc(&mut self, layout: Layout) -> Result<NonNull<u8>, ()> { self.total += layout.size() / 64;' \
        'heap 7 8 4\nadd 8 64\nalloc 64 1\n'
    notices 'user bytes that are rounded' lib.rs \
        '                    self.user += layout.size();' \
        '                    self.user += size;' \
        'heap 7 8 4\nadd 8 64\nalloc 3 1\n'
    notices 'a total of a heap that forgets' lib.rs \
        '        self.total += total;' \
        '        self.total = total;' \
        'heap 7 8 4\nadd 8 16\nadd 24 32\n'
    notices 'a wrong stats function' lib.rs \
        '        self.user' \
        '        self.allocated' \
        'heap 7 8 4\nadd 8 64\nalloc 3 1\nstats\n'
}

# run_heaps SEED: everything about the program heaps.
run_heaps() {
    program=heaps
    for input in "$here"/cases-heap/*.in; do
        run_case "$input"
    done
    run_heap_clauses
    run_heap_faults 'cases' "$here"/cases-heap/*.in
    run_heap_recorded
    run_heap_twice 1
    run_heap_twice "$1"
    run_heap_differences
    run_heap_lengths
    run_heap_long_line
    run_usage 'an unknown option of heaps' --unknown
    run_usage 'a random run of heaps without a number of calls' --random 1
    run_usage 'lines of no random run of heaps' --lines
    run_random 'heaps' 1 200000 '1 2 3 4 5 6 7 9 10 11'
    run_random 'heaps' "$1" 200000 ''
    run_altered_heaps
    run_altered_lists
    run_heap_replay
}
