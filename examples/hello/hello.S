# Writes a greeting (call 64, write) and exits with 0 (call 93, exit).
    .file   "hello.S"
    .section .rodata
greeting:
    .ascii  "Hello, hart\n"
    .equ    LENGTH, . - greeting

    .text
    .option norelax             # gp isn't set, so no address may be taken relative to it
    .globl  _start
_start:
    li      a0, 1               # standard output
    lla     a1, greeting
    li      a2, LENGTH
    li      a7, 64              # write
    ecall
    li      a0, 0
    li      a7, 93              # exit
    ecall
