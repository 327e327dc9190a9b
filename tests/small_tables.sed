# For crates/closure/src/run.rt: tables that are full with a slot for each entry of the row, and three buckets.
s/if is_anew(s.rounds, &ands, &xors, &sides, work.entries) {/if is_anew(s.rounds, \&ands, \&xors, \&sides, work.entries + SLOTS - codes.len()) {/
s/^const BUCKETS: usize = 4093;$/const BUCKETS: usize = 3;/
