# The blocks of percpu_lib, word by word as docs/BLOCKS.md has them. Each takes five labels (the retry label, the start,
# the post-commit address, the abort address, the word after the block), the registers of the area, of the data of
# processor 0 and of the value, and the address of its descriptor.
    .option norvc
    .option norelax

# Words 0 to 7: the processor, the address of the descriptor into the area's pointer, and the address of the data.
    .macro begins retry, start, area, cells, table, shift
    lw x5, 0(\area)
    lui x6, ((\table + 0x800) >> 12)
    addi x6, x6, \table - ((\table + 0x800) >> 12 << 12)
    sd x6, 8(\area)
\start:
    lw x6, 4(\area)
    bne x6, x5, \retry
    slli x5, x5, \shift
    add x5, x5, \cells
    .endm

# The jump at the post-commit address, and the signature.
    .macro leaves commit, after
\commit:
    j \after
    .word 0xF1401073
    .endm

# The abort handler, where the value has to come back or not.
    .macro aborts retry, abort, after
\abort:
    j \retry
\after:
    .endm

    .macro aborts_with retry, abort, after, value
\abort:
    mv \value, x28
    j \retry
\after:
    .endm

    .macro add_block retry, start, commit, abort, after, area, cells, value, table
\retry:
    begins \retry, \start, \area, \cells, \table, 6
    ld x6, 0(x5)
    add x6, x6, \value
    sd x6, 0(x5)
    leaves \commit, \after
    aborts \retry, \abort, \after
    .endm

    .macro push_block retry, start, commit, abort, after, area, cells, value, table
\retry:
    begins \retry, \start, \area, \cells, \table, 6
    ld x6, 0(x5)
    sd x6, 0(\value)
    sd \value, 0(x5)
    leaves \commit, \after
    aborts \retry, \abort, \after
    .endm

    .macro pop_block retry, start, commit, abort, after, area, cells, value, table
\retry:
    begins \retry, \start, \area, \cells, \table, 6
    ld \value, 0(x5)
    beqz \value, \commit
    ld x6, 0(\value)
    sd x6, 0(x5)
    leaves \commit, \after
    aborts \retry, \abort, \after
    .endm

    .macro alloc_block retry, start, commit, abort, after, area, cells, value, table
\retry:
    begins \retry, \start, \area, \cells, \table, 13
    ld x6, 0(x5)
    li \value, 0
    beqz x6, \commit
    addi x6, x6, -1
    slli x7, x6, 3
    add x7, x7, x5
    ld \value, 64(x7)
    sd x6, 0(x5)
    leaves \commit, \after
    aborts \retry, \abort, \after
    .endm

    .macro free_block retry, start, commit, abort, after, area, cells, value, table
\retry:
    mv x28, \value
    begins \retry, \start, \area, \cells, \table, 13
    ld x6, 0(x5)
    li x7, 512
    beq x6, x7, \commit
    slli x7, x6, 3
    add x7, x7, x5
    sd \value, 64(x7)
    addi x6, x6, 1
    li \value, 0
    sd x6, 0(x5)
    leaves \commit, \after
    aborts_with \retry, \abort, \after, \value
    .endm

# The slot of x6, and how many words of 8 bytes stand before word k.
    .macro slot
    andi x7, x6, 511
    slli x7, x7, 3
    add x7, x7, x5
    .endm

    .macro ringput_block retry, start, commit, abort, after, area, cells, value, table
\retry:
    mv x28, \value
    begins \retry, \start, \area, \cells, \table, 13
    mv x28, \value
    ld x6, 8(x5)
    ld x7, 0(x5)
    sub x7, x6, x7
    sltiu x7, x7, 513 - 4
    li \value, 0
    beqz x7, \commit
    mv \value, x28
    .irp k, 0, 1, 2, 3
    slot
    ld x29, 8 * \k(\value)
    sd x29, 64(x7)
    addi x6, x6, 1
    .endr
    sd x6, 8(x5)
    leaves \commit, \after
    aborts_with \retry, \abort, \after, \value
    .endm

    .macro ringget_block retry, start, commit, abort, after, area, cells, value, table
\retry:
    mv x28, \value
    begins \retry, \start, \area, \cells, \table, 13
    mv x28, \value
    ld x6, 0(x5)
    ld x7, 8(x5)
    sub x7, x7, x6
    sltiu x7, x7, 4
    li \value, 0
    bnez x7, \commit
    mv \value, x28
    .irp k, 0, 1, 2, 3
    slot
    ld x29, 64(x7)
    sd x29, 8 * \k(\value)
    addi x6, x6, 1
    .endr
    sd x6, 0(x5)
    leaves \commit, \after
    aborts_with \retry, \abort, \after, \value
    .endm

    .text
