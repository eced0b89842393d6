; program PLM a procedure with an address as its parameter, which fills two tables
; code 0000
; stack 2080 0020
; data 2000 0080
; quiet 2070 0004
; stores 6
LEFT:   EQU 2000H              ; DECLARE (LEFT, RIGHT) (24) BYTE
RIGHT:  EQU 2020H
BASE:   EQU 2070H              ; FILL: PROCEDURE (BASE, VALUE); DECLARE BASE ADDRESS, (VALUE, I) BYTE
VALUE:  EQU 2072H
I:      EQU 2073H
        LXI SP,20A0H
LOOP:   IN 0
        MOV E,A
        LXI B,LEFT             ; CALL FILL(.LEFT, INPUT(0))
        CALL FILL
        IN 1
        MOV E,A
        LXI B,RIGHT
        CALL FILL
        JMP LOOP
FILL:   LXI H,BASE+1
        MOV M,B
        DCX H
        MOV M,C
        LXI H,VALUE
        MOV M,E
        LXI H,I                ; DO I = 0 TO 23
        MVI M,0
FILL1:  MVI A,23
        LXI H,I
        CMP M
        RC
        LHLD I                 ; B(I) = VALUE
        MVI H,0
        XCHG
        LHLD BASE
        DAD D
        LDA VALUE
        MOV M,A
        LXI H,I
        INR M
        JNZ FILL1
        RET
