@ A handler whose interrupt enters again at the end of the tick in which it returns. The schedule's region is 20001000 to 20001004.
.word 0x20010000, start+1
.org 0x40
.word count+1
.org 0x80
start: ldr r0,enable
 movs r1,#1
 str r1,[r0,#0]
 nop
 bkpt #0
count: ldr r0,mark
 ldr r1,[r0,#0]
 adds r1,#1
 str r1,[r0,#0]
 bx lr
.align 4
enable: .word 0xe000e100
mark: .word 0x20001000
