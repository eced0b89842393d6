; program ASM reads a line of at most 64 characters
; code 0000
; stack 23C0 0040
; data 2000 03C0
; stores 6
LINE:   EQU 2000H
COUNT:  EQU 2040H
        LXI SP,2400H
        LXI H,COUNT
        MVI M,0
LINE1:  LXI H,LINE
        MVI B,63
GET:    CALL CI
        CPI 0DH
        JZ ENDED
        CPI 7FH
        JZ RUBOUT
PUTC:   MOV M,A
        INX H
        DCR B
        JNZ GET
ENDED:  NOP
ENDL:   MVI M,0
        LXI H,COUNT
        INR M
        LXI H,LINE
UPPER:  MOV A,M                ; small letters become capitals, in the first sixteen
        CPI 'a'
        JC UPPER1
        CPI 'z'+1
        JNC UPPER1
        SUI 20H
        MOV M,A
UPPER1: INX H
        MOV A,L
        CPI LOW(LINE+16)
        JNZ UPPER
        JMP LINE1
RUBOUT: LXI H,LINE
        MVI M,0
        JMP LINE1
CI:     IN 0
        RRC
        JNC CI
        IN 1
        ANI 7FH
        RET
