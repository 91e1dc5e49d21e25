"""Litmus files in herd7's format, for RISC-V: read, made into programs, run, and told as herd7 tells them."""
