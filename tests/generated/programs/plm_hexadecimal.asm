; program PLM bytes in hexadecimal into a line
; code 0000
; stack 23C0 0040
; data 2000 03C0
; stores 9
LINE:   EQU 2000H              ; DECLARE LINE (40) BYTE, (COL, N, B) BYTE
COL:    EQU 2028H
N:      EQU 2029H
BYTE:   EQU 202AH
NIBBLE: EQU 202BH
        LXI SP,2400H
        LXI H,COL              ; COL = 0
        MVI M,0
        LXI H,N                ; DO N = 1 TO 13
        MVI M,1
LOOP:   MVI A,13
        LXI H,N
        CMP M
        JC SHOW
        IN 2
        MOV C,A
        CALL HEX
        MVI C,' '
        CALL PUT
        LXI H,N
        INR M
        JNZ LOOP
SHOW:   LXI H,N                ; DO N = 0 TO COL - 1: OUTPUT(1) = LINE(N)
        MVI M,0
SHOW1:  LDA COL
        LXI H,N
        CMP M
        JZ SHOWN
        MOV C,M
        MVI B,0
        LXI H,LINE
        DAD B
        MOV A,M
        OUT 1
        LXI H,N
        INR M
        JMP SHOW1
SHOWN:  HLT
HEX:    LXI H,BYTE             ; HEX: PROCEDURE(B); CALL DIGIT(SHR(B, 4)); CALL DIGIT(B AND 0FH)
        MOV M,C
        MOV A,C
        RRC
        RRC
        RRC
        RRC
        ANI 0FH
        MOV C,A
        CALL DIGIT
        LDA BYTE
        ANI 0FH
        MOV C,A
        CALL DIGIT
        RET
DIGIT:  LXI H,NIBBLE           ; DIGIT: PROCEDURE(NIBBLE)
        MOV M,C
        MVI A,9
        CMP M
        JC DIGIT1
        MOV A,M
        ADI '0'
        MOV C,A
        CALL PUT
        RET
DIGIT1: LDA NIBBLE
        ADI 'A'-10
        MOV C,A
        CALL PUT
        RET
PUT:    LHLD COL               ; PUT: PROCEDURE(CHAR); LINE(COL) = CHAR; COL = COL + 1
        MVI H,0
        LXI D,LINE
        DAD D
        MOV M,C
        LXI H,COL
        INR M
        RET
