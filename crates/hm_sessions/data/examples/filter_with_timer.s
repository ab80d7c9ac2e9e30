@ Copies 20 halfwords to SRAM and sums their squares in r4, while the handler of the timer counts its interrupts. The schedule's region is 20001000 to 20001004.
.org 0
.word 0x20010000, start+1
.org 0x3c
.word tick+1
.org 0x80
start: ldr r0,cpacr
 ldr r1,full
 str r1,[r0,#0]
 ldr r0,systick
 movs r1,#9
 str r1,[r0,#4]
 movs r1,#3
 str r1,[r0,#0]
 ldr r0,src
 ldr r1,dst
 movs r2,#20
 movs r3,#20
 dlstp.16 lr,r2
copy: vldrh.u16 q0,[r0],#16
 vstrh.16 q0,[r1],#16
 letp lr,copy
 ldr r1,dst
 movs r4,#0
 dlstp.16 lr,r3
sum: vldrh.u16 q0,[r1],#16
 vmladava.s16 r4,q0,q0
 letp lr,sum
 movs r0,#24
 ldr r1,done
 bkpt #171
tick: push {r4,lr}
 ldr r0,mark
 ldr r1,[r0,#0]
 adds r1,#1
 str r1,[r0,#0]
 pop {r4,pc}
.align 4
cpacr: .word 0xe000ed88
full: .word 0x00f00000
systick: .word 0xe000e010
src: .word table
dst: .word 0x20000000
done: .word 0x20026
mark: .word 0x20001000
table: .half 1,2,3,4,5,6,7,8,9,10,11,12,13,14,15,16,17,18,19,20
