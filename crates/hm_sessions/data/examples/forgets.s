@ A handler that counts in SRAM, and at each fourth call begins anew: there it uses r4, which it forgets to give back.
@ The schedule's region is 20001000 to 20001004.
.word 0x20010000, start+1
.org 0x40
.word count+1
.org 0x80
start: ldr r0,enable
 movs r1,#1
 str r1,[r0,#0]
 movs r2,#12
 movs r4,#0
 vdup.32 q0,r1
 dls lr,r2
again: vaddva.u32 r4,q0
 vadd.i32 q0,q0,r1
 le lr,again
 bkpt #0
count: ldr r0,mark
 ldr r1,[r0,#0]
 adds r1,#1
 cmp r1,#4
 bne keep
 movs r4,#0
 movs r1,#0
keep: str r1,[r0,#0]
 bx lr
.align 4
enable: .word 0xe000e100
mark: .word 0x20001000
