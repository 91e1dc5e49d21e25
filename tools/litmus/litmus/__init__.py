"""Litmus tests of memory and threads, made from a seed, and the exact set of outcomes of each."""
