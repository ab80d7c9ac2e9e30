.word 0x20010000, start+1
start: ldr r0,place
next: ldr r3,[r0,#0]
 adds r3,r3,#1
 str r3,[r0,#0]
 eors r2,r3
 lsls r4,r3,#2
 b next
.align 4
place: .word 0x20000000
