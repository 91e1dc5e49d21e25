"""Builds the C library musl for the machine of rseq_run, from Debian's source package."""
