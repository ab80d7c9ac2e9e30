@ The dot product of two lists of ten signed halfwords, in r4.
.word 0x20010000, start+1
start: ldr r0,left
 ldr r1,right
 movs r2,#10
 movs r4,#0
 dlstp.16 lr,r2
next: vldrh.u16 q0,[r0],#16
 vldrh.u16 q1,[r1],#16
 vmladava.s16 r4,q0,q1
 letp lr,next
 bkpt #0
.align 4
left: .word a
right: .word b1
a: .half 1,-2,3,-4,5,-6,7,-8,9,-10
b1: .half 10,20,30,40,50,60,70,80,90,100
