; program ASM counts down by JP and keeps registers on the stack
; code 0000
; stack 20E0 0020
; data 2000 00E0
; stores 8
HIST:   EQU 2000H
COPY:   EQU 2040H
ORDER:  EQU 2080H
        LXI SP,2100H
        MVI B,63               ; 64 counts of 0
        LXI H,HIST+63
        XRA A
CLEAR:  MOV M,A
        DCX H
        DCR B
        JP CLEAR
        MVI C,200              ; 200 samples of six bits
SAMPLE: IN 2
        ANI 3FH
        MOV L,A
        MVI H,HIGH(HIST)
        INR M
        DCR C
        JNZ SAMPLE
        MVI C,16
SECOND: IN 3                   ; those of the other port with two bits shifted out
        RRC
        RRC
        ANI 3FH
        ADI 0
        MOV L,A
        PUSH B
        MVI B,0
        MVI H,HIGH(HIST)
HIST1:  INR M
        POP B
        DCR C
        JNZ SECOND
        LXI H,HIST
        LXI D,COPY
        MVI B,64
COPY1:  MOV A,M
        PUSH B
        MOV B,A
        RRC
        RRC
        ANI 3FH
        POP B
        STAX D
        INX D
        INX H
        DCR B
        JNZ COPY1
        LXI H,ORDER            ; 31 down to 0
        MVI B,31
ORDER1: MOV M,B
        INX H
        DCR B
        JP ORDER1
        PUSH H
        LXI H,ORDER
        INR M
        XTHL
        MVI M,0FFH
        POP H
        DCR M
        HLT
