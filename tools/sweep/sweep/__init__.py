"""Many runs of rseq_run, each with its seed: which outcomes there are, how often each, and a log of each."""
