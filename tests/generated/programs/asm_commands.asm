; program ASM commands by a table of addresses
; code 0000
; stack 23C0 0040
; data 2000 03C0
; stores 9
; case GO PEEK POKE FILL NONE
LAST:   EQU 2000H
COUNTS: EQU 2010H
AREA:   EQU 2100H
        LXI SP,2400H
        LXI H,COUNTS
        MVI C,4
ZERO:   MVI M,0
        INX H
        DCR C
        JNZ ZERO
LOOP:   IN 1
        SUI 'A'
        CPI 3
        JC KNOWN
        MVI A,3
KNOWN:  MOV E,A
        MVI D,0
        LXI H,COUNTS           ; how often each was given
        DAD D
        INR M
        LXI H,TABLE
        DAD D
        DAD D
        MOV A,M
        INX H
        MOV H,M
        MOV L,A
GO:     PCHL
PEEK:   IN 2
        MOV L,A
        MVI H,HIGH(AREA)
        MOV A,M
        OUT 2
        LXI H,LAST
        MOV M,A
        JMP LOOP
POKE:   IN 2
        MOV L,A
        MVI H,HIGH(AREA)
        IN 2
        MOV M,A
        LXI H,LAST
        MVI M,1
        JMP LOOP
FILL:   LXI H,AREA
        IN 2
FILL1:  MOV M,A
        INR L
        JNZ FILL1
        LXI H,LAST
        MVI M,2
        JMP LOOP
NONE:   LXI H,LAST
        MVI M,3
        INX H
        INR M
        JMP LOOP
TABLE:  DW PEEK,POKE,FILL,NONE
