; program ASM takes a record with a length from a port
; code 0000
; stack 20E0 0020
; data 2000 00E0
; stores 6
; listed FALL fault: a count from a port
RECORD: EQU 2000H
SUM:    EQU 2080H
ERRORS: EQU 2081H
        LXI SP,2100H
        LXI H,SUM
        MVI M,0
        INX H
        MVI M,0
NEXT:   IN 8                   ; the length, and so many bytes
        ORA A
        JZ NEXT
        MOV C,A
        LXI H,RECORD
        MVI B,0
BYTE:   IN 9
FALL:   MOV M,A
        ADD B
        MOV B,A
        INX H
        DCR C
        JNZ BYTE
        IN 9                   ; the sum
        ADD B
        LXI H,SUM
        MOV M,A
        JZ NEXT
        INX H
        INR M
        MOV A,M
        CPI 100
        JNZ NEXT
        MVI M,0
        HLT
