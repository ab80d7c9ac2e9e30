@ Copies 21 bytes to SRAM, 16 at a time; the tail goes under the predicate.
.word 0x20010000, start+1
start: ldr r0,from
 ldr r1,to
 movs r2,#21
 wlstp.8 lr,r2,done
copy: vldrb.u8 q0,[r0],#16
 vstrb.8 q0,[r1],#16
 letp lr,copy
done: bkpt #0
.align 4
from: .word bytes
to: .word 0x20000000
bytes: .byte 1,2,3,4,5,6,7,8,9,10,11,12,13,14,15,16,17,18,19,20,21
