; program PLM a matrix of eight rows and columns
; code 0000
; stack 2080 0020
; data 2000 0080
; quiet 2050 0003
; stores 4
MATRIX: EQU 2000H              ; DECLARE MATRIX (64) BYTE, (ROW, COLUMN, VALUE) BYTE
ROW:    EQU 2050H
COLUMN: EQU 2051H
VALUE:  EQU 2052H
        LXI SP,20A0H
LOOP:   IN 0                   ; ROW = INPUT(0) AND 7
        ANI 7
        STA ROW
        IN 1
        ANI 7
        STA COLUMN
        IN 2
        STA VALUE
        ORA A
        CZ CLEAR               ; IF VALUE = 0 THEN CALL CLEAR; ELSE CALL SET
        LDA VALUE
        ORA A
        CNZ SET
        JMP LOOP
SET:    LHLD ROW               ; MATRIX(ROW * 8 + COLUMN) = VALUE
        MVI H,0
        DAD H
        DAD H
        DAD H
        XCHG
        LHLD COLUMN
        MVI H,0
        DAD D
        LXI D,MATRIX
        DAD D
        LDA VALUE
        MOV M,A
        RET
CLEAR:  LXI H,COLUMN           ; DO COLUMN = 0 TO 7; MATRIX(ROW * 8 + COLUMN) = 0; END
        MVI M,0
CLEAR1: MVI A,7
        LXI H,COLUMN
        CMP M
        RC
        LHLD ROW
        MVI H,0
        DAD H
        DAD H
        DAD H
        XCHG
        LHLD COLUMN
        MVI H,0
        DAD D
        LXI D,MATRIX
        DAD D
        MVI M,0
        LXI H,COLUMN
        INR M
        JNZ CLEAR1
        RET
