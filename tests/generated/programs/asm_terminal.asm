; program ASM a screen of four lines, by a table of their addresses
; code 0000
; stack 2140 0040
; data 2000 0140
; quiet 2100 0002
; stores 1
COLUMN: EQU 2100H
ROW:    EQU 2101H
        LXI SP,2180H
        XRA A
        STA ROW
        STA COLUMN
LOOP:   IN 0
        CPI 0DH
        JZ RETURN
        CALL PUTC
        JMP LOOP
RETURN: XRA A
        STA COLUMN
        CALL DOWN
        JMP LOOP
PUTC:   MOV C,A
        LDA ROW
        ADD A
        MOV E,A
        MVI D,0
        LXI H,LINES
        DAD D
        MOV E,M
        INX H
        MOV D,M
        LDA COLUMN
        MOV L,A
        MVI H,0
        DAD D
        MOV M,C
        INR A
        CPI 32
        STA COLUMN
        RNZ
        XRA A
        STA COLUMN
DOWN:   LDA ROW
        INR A
        ANI 3
        STA ROW
        RET
LINES:  DW 2000H,2040H,2080H,20C0H
