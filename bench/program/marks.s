# The two marks that the plugin watches; the empty functions, one for each kind of call, that a count is taken against; and two functions
# whose counts are known, 10 and 22: where they are counted otherwise, nothing is believed.
    .text
    .globl mark_begin, mark_end
    .globl empty_step, empty_codec, empty_number, empty_check, empty_collect
    .globl straight_10, loop_22
mark_begin:
    ret
mark_end:
    ret
empty_step:
empty_codec:
empty_number:
empty_check:
empty_collect:
    ret
straight_10:
    .rept 8
    nop
    .endr
    xorl %eax, %eax
    ret
loop_22:
    movl $10, %eax
again:
    decl %eax
    jnz again
    ret
    .section .note.GNU-stack, "", @progbits
