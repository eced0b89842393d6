; program ASM a byte as three digits
; code 0000
; stack 20E0 0020
; data 2000 00E0
; stores 4
DIGITS: EQU 2000H
        LXI SP,2100H
START:  IN 3
        LXI H,DIGITS
        LXI B,0A64H            ; C is 100, B is 10
        MVI D,'0'-1
HUNDS:  INR D
        SUB C
        JNC HUNDS
        ADD C
        MOV M,D
        INX H
        MVI D,'0'-1
TENS:   INR D
        SUB B
        JNC TENS
        ADD B
        MOV M,D
        INX H
        ADI '0'
        MOV M,A
        INX H
        MVI M,0
        LXI H,DIGITS
SEND:   MOV A,M
        ORA A
        JZ START
        OUT 1
        INX H
        JMP SEND
