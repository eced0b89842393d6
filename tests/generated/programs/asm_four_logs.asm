; program ASM four logs, each with a pointer that goes round
; code 0000
; stack 2100 0040
; data 2000 0100
; quiet 20F0 0008
; stores 4
LOWA:   EQU 2000H              ; 24 bytes
LOWB:   EQU 2018H              ; 40 bytes
LOWC:   EQU 2040H              ; 100 bytes
LOWD:   EQU 20A4H              ; 12 bytes
PTRA:   EQU 20F0H
PTRB:   EQU 20F2H
PTRC:   EQU 20F4H
PTRD:   EQU 20F6H
        LXI SP,2140H
        LXI H,LOWA
        SHLD PTRA
        LXI H,LOWB
        SHLD PTRB
        LXI H,LOWC
        SHLD PTRC
        LXI H,LOWD
        SHLD PTRD
LOOP:   CALL LOGA
        CALL LOGB
        CALL LOGC
        CALL LOGD
        JMP LOOP
LOGA:   IN 0
        ORA A
        RZ
        LHLD PTRA
        MOV M,A
        INX H
        MOV A,L
        CPI LOW(LOWA+24)
        JNZ KEEPA
        LXI H,LOWA
KEEPA:  SHLD PTRA
        RET
LOGB:   IN 1
        ORA A
        RZ
        LHLD PTRB
        MOV M,A
        INX H
        MOV A,L
        CPI LOW(LOWB+40)
        JNZ KEEPB
        LXI H,LOWB
KEEPB:  SHLD PTRB
        RET
LOGC:   IN 2
        ORA A
        RZ
        LHLD PTRC
        MOV M,A
        INX H
        MOV A,L
        CPI LOW(LOWC+100)
        JNZ KEEPC
        LXI H,LOWC
KEEPC:  SHLD PTRC
        RET
LOGD:   IN 3
        ORA A
        RZ
        LHLD PTRD
        MOV M,A
        INX H
        MOV A,L
        CPI LOW(LOWD+12)
        JNZ KEEPD
        LXI H,LOWD
KEEPD:  SHLD PTRD
        RET
