"""Shows a run of rseq_run: a listing, a trace, a picture; and makes scripts from short ones."""
