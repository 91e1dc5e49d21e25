"""Small programs of two threads, searched with the reductions of `rseq_run outcomes` and without."""
