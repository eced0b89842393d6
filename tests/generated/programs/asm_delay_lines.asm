; program ASM three delay lines, one behind the other
; code 0000
; stack 2080 0020
; data 2000 0080
; quiet 2070 0003
; stores 3
BUFA:   EQU 2000H              ; 7 bytes
BUFB:   EQU 2008H              ; 12 bytes
BUFC:   EQU 2020H              ; 50 bytes
ATA:    EQU 2070H
ATB:    EQU 2071H
ATC:    EQU 2072H
        LXI SP,20A0H
        XRA A
        STA ATA
        STA ATB
        STA ATC
LOOP:   IN 0
        MOV C,A
        CALL LINES
        MOV A,C
        OUT 0
        JMP LOOP
LINES:  CALL LINEA
        CALL LINEB
        CALL LINEC
        RET
LINEA:  LDA ATA
        MOV E,A
        MVI D,0
        LXI H,BUFA
        DAD D
        MOV B,M
        MOV M,C
        MOV C,B
        INR A
        CPI 7
        JC KEEPA
        XRA A
KEEPA:  STA ATA
        RET
LINEB:  LDA ATB
        MOV E,A
        MVI D,0
        LXI H,BUFB
        DAD D
        MOV B,M
        MOV M,C
        MOV C,B
        INR A
        CPI 12
        JC KEEPB
        XRA A
KEEPB:  STA ATB
        RET
LINEC:  LDA ATC
        MOV E,A
        MVI D,0
        LXI H,BUFC
        DAD D
        MOV B,M
        MOV M,C
        MOV C,B
        INR A
        CPI 50
        JC KEEPC
        XRA A
KEEPC:  STA ATC
        RET
