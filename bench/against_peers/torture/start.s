# Where a compiled test starts and ends. It is linked at 1000; the stack is below 40000. At the end R0 is what main returned, or the argument of exit;
# abort ends with 177777. At `told` nothing was printed yet: both machines have made the same steps. Then R0 is printed in octal, with a new line.
        .text
        .globl  start, told, halted, _exit, _abort, ___main
start:  mov     $040000, sp
        clr     -(sp)
        clr     -(sp)
        jsr     pc, _main
        mov     r0, -(sp)
        jsr     pc, _exit

_abort: mov     $-1, r0
        br      told
_exit:  mov     2(sp), r0

told:   mov     r0, r1
        mov     $6, r2
        clr     r3
        br      first
digit:  asl     r1
        rol     r3
        asl     r1
        rol     r3
first:  asl     r1
        rol     r3
        add     $'0, r3
        jsr     pc, print
        clr     r3
        sob     r2, digit
        mov     $012, r3
        jsr     pc, print
# The byte is sent when the transmitter is ready again.
        tstb    *$0177564
        bpl     .-4
        halt
halted:

print:  tstb    *$0177564
        bpl     print
        movb    r3, *$0177566
___main:
        rts     pc
