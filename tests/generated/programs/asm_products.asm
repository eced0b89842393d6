; program ASM tables of products and of squares
; code 0000
; stack 23C0 0040
; data 2000 03C0
; stores 6
; listed POWER1 the carry of a rotation ends the loop
SQUARE: EQU 2000H
TIMES:  EQU 2100H
POWERS: EQU 2200H
        LXI SP,2400H
        LXI H,SQUARE           ; 32 words: each is the one before and an odd number more
        LXI D,0
        LXI B,1
SQ1:    MOV M,E
        INX H
        MOV M,D
        INX H
        XCHG
        DAD B
        XCHG
        INX B
        INX B
        MOV A,C
        CPI 65
        JNZ SQ1
        LXI H,TIMES            ; the products of 1 to 9
        MVI B,1
TIMES1: MVI C,9
        XRA A
TIMES2: ADD B
        MOV M,A
        INX H
        DCR C
        JNZ TIMES2
        INR B
        MOV A,B
        CPI 10
        JNZ TIMES1
        LXI D,POWERS           ; 1, 2, 4 .. 128
        MVI A,1
POWER1: STAX D
        INX D
        RLC
        JNC POWER1
        LXI H,POWERS+8
        MVI M,0FFH
        INX H
        MOV M,H
        HLT
