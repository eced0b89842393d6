; program ASM thirty-two events as bits, by a table of masks, with a count
; code 0000
; stack 2040 0020
; data 2000 0040
; quiet 2020 0001
; stores 3
EVENTS: EQU 2000H
COUNT:  EQU 2020H
        LXI SP,2060H
        XRA A
        STA COUNT
        LXI H,EVENTS
        MVI B,4
CLEAR:  MVI M,0
        INX H
        DCR B
        JNZ CLEAR
LOOP:   IN 0
        ANI 1FH
        CALL MARK
        JMP LOOP
MARK:   MOV B,A
        ANI 7
        MOV E,A
        MVI D,0
        LXI H,MASKS
        DAD D
        MOV C,M
        MOV A,B
        RRC
        RRC
        RRC
        ANI 3
        MOV E,A
        LXI H,EVENTS
        DAD D
        MOV A,M
        ANA C
        RNZ
        MOV A,M
        ORA C
        MOV M,A
        LXI H,COUNT
        INR M
        MOV A,M
        OUT 0
        RET
MASKS:  DB 01H,02H,04H,08H,10H,20H,40H,80H
