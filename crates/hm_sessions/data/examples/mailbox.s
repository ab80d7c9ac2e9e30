@ Two handlers and a mailbox. The first says that there is a buffer before it has written where; the second, which is more urgent, believes it.
@ The schedule's region is the mailbox and the buffer, 20001000 to 20001010.
.word 0x20010000, start+1
.org 0x40
.word give+1, take+1
.org 0x80
start: ldr r0,priority
 movs r1,#64
 strb r1,[r0,#0]
 ldr r0,enable
 movs r1,#3
 str r1,[r0,#0]
 movs r2,#12
 movs r4,#0
 vdup.32 q0,r1
 dls lr,r2
again: vaddva.u32 r4,q0
 vadd.i32 q0,q0,r1
 le lr,again
 bkpt #0
give: ldr r0,box
 movs r1,#1
 str r1,[r0,#0]
 ldr r2,buffer
 str r2,[r0,#4]
 bx lr
take: ldr r0,box
 ldr r1,[r0,#0]
 cmp r1,#0
 beq done
 ldr r2,[r0,#4]
 movs r1,#0
 str r1,[r0,#0]
 str r1,[r0,#4]
 str r1,[r2,#0]
done: bx lr
.align 4
priority: .word 0xe000e400
enable: .word 0xe000e100
box: .word 0x20001000
buffer: .word 0x20001008
