; program PLM a display by commands, with DO CASE
; code 0000
; stack 2100 0020
; data 2000 0100
; quiet 2080 0001
; stores 2
; case GO CLEAR LEFT RIGHT PUT
SCREEN: EQU 2000H              ; DECLARE SCREEN (16) BYTE, COLUMN BYTE
COLUMN: EQU 2080H
        LXI SP,2120H
        XRA A
        STA COLUMN
LOOP:   IN 0                   ; IF INPUT(0) < 4 THEN DO CASE INPUT(0)
        CPI 4
        JNC LOOP
        ADD A
        MOV E,A
        MVI D,0
        LXI H,TABLE
        DAD D
        MOV E,M
        INX H
        MOV D,M
        XCHG
GO:     PCHL
TABLE:  DW CLEAR,LEFT,RIGHT,PUT
CLEAR:  LXI H,SCREEN
        MVI B,16
CLEAR1: MVI M,' '
        INX H
        DCR B
        JNZ CLEAR1
        XRA A
        STA COLUMN
        JMP LOOP
LEFT:   LDA COLUMN
        ORA A
        JZ LOOP
        DCR A
        STA COLUMN
        JMP LOOP
RIGHT:  LDA COLUMN
        INR A
        ANI 0FH
        STA COLUMN
        JMP LOOP
PUT:    LHLD COLUMN            ; SCREEN(COLUMN) = INPUT(1)
        MVI H,0
        LXI D,SCREEN
        DAD D
        IN 1
        MOV M,A
        JMP LOOP
