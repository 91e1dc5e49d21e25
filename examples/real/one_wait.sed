# liburcu's urcu.c: synchronize_rcu waits once in place of twice. The readers that the first wait found inside a critical section, with the
# number that counted then, are put back into the registry as if they had been waited for.
s/^\twait_for_readers\(&cur_snap_readers, NULL, &qsreaders\);$/\tcds_list_splice(\&cur_snap_readers, \&qsreaders);/
