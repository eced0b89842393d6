; program ASM adds decimal numbers of eight digits
; code 0000
; stack 23C0 0040
; data 2000 03C0
; stores 5
X:      EQU 2000H
Y:      EQU 2004H
        LXI SP,2400H
        LXI H,X
        MVI C,8
READ:   IN 5
        MOV M,A
        INX H
        DCR C
        JNZ READ
        LXI D,X
        LXI H,Y
        CALL ADD
        LXI D,X
        LXI H,Y
        CALL SUBT
        LXI H,Y+3
        MVI C,3
SHIFT:  MOV A,M                ; a byte further up
        INX H
        MOV M,A
        DCX H
        DCX H
        DCR C
        JP SHIFT
        INX H
        MVI M,0
        HLT
ADD:    MVI C,4
        ORA A
ADD1:   LDAX D
        ADC M
        DAA
        MOV M,A
        INX D
        INX H
        DCR C
        JNZ ADD1
        RET
SUBT:   MVI C,4
        STC
SUBT1:  MVI A,99H
        ACI 0
        SUB M
        XCHG
        ADD M
        DAA
        XCHG
        MOV M,A
        INX D
        INX H
        DCR C
        JNZ SUBT1
        RET
