; program ASM digits to a display of six places, by a table of segments
; code 0000
; stack 2040 0020
; data 2000 0040
; quiet 2010 0001
; stores 1
PLACES: EQU 2000H
NEXT:   EQU 2010H
        LXI SP,2060H
        XRA A
        STA NEXT
LOOP:   IN 0
        ANI 0FH
        MOV C,A
        MVI B,0
        LXI H,FONT
        DAD B
        MOV C,M
        LDA NEXT
        MOV E,A
        MVI D,0
        LXI H,PLACES
        DAD D
        MOV M,C
        INR A
        CPI 6
        JNZ KEEP
        XRA A
KEEP:   STA NEXT
        CALL SHOW
        JMP LOOP
SHOW:   LXI H,PLACES
        MVI B,6
SHOW1:  MOV A,M
        OUT 1
        INX H
        DCR B
        JNZ SHOW1
        RET
FONT:   DB 3FH,06H,5BH,4FH,66H,6DH,7DH,07H,7FH,6FH,77H,7CH,39H,5EH,79H,71H
