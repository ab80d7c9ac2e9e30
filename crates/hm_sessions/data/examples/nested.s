@ Two handlers of two priorities, the less urgent one with vector code. The schedule's floor leaves room for the thread's frame and for one without a
@ context of vector registers stacked on it: where the second interrupts the first inside its vector code, the frame does not fit.
.word 0x20010000, start+1
.org 0x40
.word slow+1, quick+1
.org 0x80
start: ldr r0,priority
 movs r1,#64
 strb r1,[r0,#0]
 ldr r0,enable
 movs r1,#3
 str r1,[r0,#0]
 movs r2,#12
 movs r4,#0
 vdup.32 q0,r1
 dls lr,r2
again: vaddva.u32 r4,q0
 vadd.i32 q0,q0,r1
 le lr,again
 bkpt #0
slow: movs r0,#3
 vdup.32 q0,r0
 bx lr
quick: bx lr
.align 4
priority: .word 0xe000e400
enable: .word 0xe000e100
