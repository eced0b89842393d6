; program ASM clears its RAM by a count and starts
; code 0000
; stack 23C0 0040
; data 2000 03C0
; stores 5
RAM:    EQU 2000H
FLAGS:  EQU 2010H
        DI
        LXI SP,2400H
        LXI H,RAM              ; all but the stack
        LXI B,03C0H
CLEAR:  MVI M,0
        INX H
        DCX B
        MOV A,B
        ORA C
        JNZ CLEAR
        LXI H,FLAGS
        MVI M,80H
        INX H
        INR M
        INX H
        IN 1
        MOV M,A
LOOP:   IN 1
        LXI H,FLAGS+2
        CMP M
        JZ LOOP
        MOV M,A
        OUT 2
        JMP LOOP
