.word 0x20010000, start+1
start: ldr r0,place
 movs r1,#3
 vdup.32 q3,r1
next: vldrw.u32 q0,[r0,#0]
 vmul.i32 q1,q0,q3
 vadd.i32 q2,q1,q0
 vmax.s32 q2,q2,q3
 vstrw.32 q2,[r0,#0]
 b next
.align 4
place: .word 0x20000000
