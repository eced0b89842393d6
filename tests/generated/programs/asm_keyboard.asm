; program ASM a keyboard buffer of sixteen by a masked index
; code 0000
; stack 20E0 0020
; data 2000 00E0
; stores 7
BUFFER: EQU 2000H
HEAD:   EQU 2010H
TAIL:   EQU 2011H
BELLS:  EQU 2012H
        LXI SP,2100H
        XRA A
        LXI H,HEAD
        MOV M,A
        INX H
        MOV M,A
        INX H
        MOV M,A
MAIN:   IN 10H
        ANI 1
        CNZ KEY
        IN 10H
        ANI 2
        CNZ TAKE
        JMP MAIN
KEY:    IN 11H
        ANI 7FH
        MOV B,A
        LXI H,HEAD
        MOV A,M
        MOV C,A
        INR A
        ANI 0FH
        INX H
        CMP M
        JZ FULL
        DCX H
        MOV M,A                ; the new head
        MOV A,C
        ANI 0FH
        MOV E,A
        MVI D,0
        LXI H,BUFFER
        DAD D
        MOV M,B
        RET
FULL:   LXI H,BELLS
        INR M
        MVI A,7
        OUT 11H
        RET
TAKE:   LDA TAIL
        LXI H,HEAD
        CMP M
        RZ
        MOV E,A
        MVI D,0
        LXI H,BUFFER
        DAD D
        MOV A,M
        OUT 12H
        LXI H,TAIL
        MOV A,M
        INR A
        ANI 0FH
        MOV M,A
        RET
