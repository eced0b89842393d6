; program ASM a log whose index isn't checked after INR
; code 0000
; stack 20C0 0040
; data 2000 00C0
; stores 6
; listed FALL fault: an index that INR lets go past the end
LOG:    EQU 2040H
INDEX:  EQU 2000H
LAST:   EQU 2001H
        LXI SP,2100H
        LXI H,INDEX
        MVI M,0
        LXI H,LAST
        MVI M,0
LOOP:   IN 4
        LXI H,LAST
        CMP M
        JZ LOOP
        MOV M,A
        MOV B,A
        LXI H,INDEX
        MOV E,M
        INR M
        MVI D,0
        LXI H,LOG
        DAD D
FALL:   MOV M,B
        MOV A,B
        CPI 1BH
        JNZ LOOP
        LXI H,LAST
        MVI M,0FFH
        HLT
